//! Text: a line ends with a newline in a file of the host, with $9B in a file of a disk.

use crate::failure::Failure;
use hilugsaban::END_OF_LINE;

/// A byte that ends lines, and what messages call it.
struct Ending {
    byte: u8,
    name: &'static str,
}

const ON_HOST: Ending = Ending {
    byte: b'\n',
    name: "a newline",
};
const ON_DISK: Ending = Ending {
    byte: END_OF_LINE,
    name: "an end of line",
};

/// The text of a file of a disk, for the host.
pub fn for_host(bytes: Vec<u8>) -> Result<Vec<u8>, Failure> {
    turned(bytes, &ON_DISK, &ON_HOST)
}

/// The text of a file of the host, for a disk.
pub fn for_disk(bytes: Vec<u8>) -> Result<Vec<u8>, Failure> {
    turned(bytes, &ON_HOST, &ON_DISK)
}

/// Turns each of one byte into the other, and leaves all else, so that the way back gives the same bytes. Of a file that has the
/// other byte already it would not, so that one is refused.
fn turned(mut bytes: Vec<u8>, from: &Ending, to: &Ending) -> Result<Vec<u8>, Failure> {
    if let Some(place) = bytes.iter().position(|&byte| byte == to.byte) {
        let (byte, is, other) = (to.byte, to.name, from.name);
        return Err(Failure::new(format!(
            "byte {place} is ${byte:02X}, {is}, and could not be told from {other}; leave --text out"
        )));
    }
    for byte in bytes.iter_mut().filter(|byte| **byte == from.byte) {
        *byte = to.byte;
    }
    Ok(bytes)
}
