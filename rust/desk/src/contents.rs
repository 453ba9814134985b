//! The bytes of a file on a disk.

use crate::failure::{About, Failure};
use hilugsaban::{Channel, Direction, Disk, Incomplete, Status};

/// Where no channel is open, any serves.
const CHANNEL: u8 = 0;

/// The bytes of the file with this name.
pub fn read_file(disk: &mut Disk<Vec<u8>>, name: &str) -> Result<Vec<u8>, Failure> {
    disk.open(CHANNEL, Direction::Read, name).about(name)?;
    let bytes = read_to_end(disk, disk.table().channel(CHANNEL)).about(name)?;
    disk.close(CHANNEL).about(name)?;
    Ok(bytes)
}

/// The bytes from a channel's place to the end of its file, or where the file is damaged, why and after how many.
pub fn read_to_end(disk: &Disk<Vec<u8>>, mut channel: Channel) -> Result<Vec<u8>, Incomplete> {
    let mut bytes = Vec::new();
    let mut buffer = [0; 4096];
    loop {
        let answer = disk.thin_get(&mut channel, &mut buffer);
        let count = answer.map_or_else(|stopped| stopped.count, |got| got.count);
        bytes.extend(&buffer[..count]);
        match answer {
            Ok(_) => {}
            Err(stopped) if stopped.status == Status::EndOfFile => return Ok(bytes),
            Err(Incomplete { status, .. }) => {
                let count = bytes.len();
                return Err(Incomplete { status, count });
            }
        }
    }
}
