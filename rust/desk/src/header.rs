//! What stands in the header of an ATR file.

use crate::failure::{numbered, Failure};
use hilugsaban::{Disk, Notch, Status};
use std::fmt::{self, Display};

/// The parts of a header that have to agree with the image's length.
struct Header {
    signature: [u8; 2],
    units: u32,
    sector_bytes: u16,
}

impl Header {
    fn of(image: &[u8]) -> Header {
        Header {
            signature: [image[0], image[1]],
            units: u32::from_le_bytes([image[2], image[3], image[6], 0]),
            sector_bytes: u16::from_le_bytes([image[4], image[5]]),
        }
    }
}

impl Display for Header {
    fn fmt(&self, f: &mut fmt::Formatter<'_>) -> fmt::Result {
        let Header {
            signature: [first, second],
            units,
            sector_bytes,
        } = self;
        write!(f, "${first:02X} ${second:02X}, {units} units of 16 bytes, sectors of {sector_bytes} bytes")
    }
}

/// Refuses a disk that the library refuses for its header, and says what is wrong with it. The right one is written on a copy
/// whose notch is open.
pub fn require(disk: &mut Disk<Vec<u8>>) -> Result<(), Failure> {
    if disk.whole_sector(1) != Err(Status::BadHeader) {
        return Ok(());
    }
    let said = Header::of(disk.image());
    let mut right = disk.clone().with_notch(Notch::Open);
    right.write_header().map_err(numbered)?;
    Err(Failure::new(format!(
        "{} (it says {said}; {} bytes want {})",
        numbered(Status::BadHeader),
        disk.image().len(),
        Header::of(right.image())
    )))
}
