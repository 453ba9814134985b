//! "The disk": its sectors, in either density.
//!
//! All that works on a disk takes its sectors as an array of exactly the density's length; the
//! calls test what they are lent first and take off the header (module [`image`](crate::image)).
//! Sectors are named by their number, 1 to 720, slots by 0 to 63.

use std::ops::{IndexMut, Range};

/// Sectors of a disk.
pub const SECTORS: u16 = 720;
/// Data sectors of a disk, which is also the longest chain.
pub const DATA_SECTORS: u16 = 707;
/// The last of the boot sectors, which begin with 1.
const LAST_BOOT_SECTOR: u16 = 3;
/// Bytes of a boot sector.
const BOOT_SECTOR: usize = 128;

/// Data sectors are 4 to 359 and 369 to 719.
pub const fn is_data_sector(sector: u16) -> bool {
    matches!(sector, 4..=359 | 369..=719)
}

/// Where a sector begins on a disk with sectors of that many bytes, sectors 1 to 3 apart.
const fn start(size: usize, sector: u16) -> usize {
    let behind_first = sector.saturating_sub(LAST_BOOT_SECTOR + 1);
    (sector as usize - 1) * BOOT_SECTOR + behind_first as usize * (size - BOOT_SECTOR)
}

/// The sectors of a disk, in order, and what its density fixes about them.
pub trait Density:
    IndexMut<usize, Output = u8> + IndexMut<Range<usize>, Output = [u8]> + 'static
{
    /// Bytes of a sector that is no boot sector.
    const SECTOR: usize;
    /// Bytes of all sectors.
    const DISK: usize = start(Self::SECTOR, SECTORS + 1);
    /// Data bytes of a file sector; its last three bytes come behind them.
    const DATA: usize = Self::SECTOR - 3;
    /// Where the volume table begins: sector 360.
    const TABLE: usize = start(Self::SECTOR, 360);
    /// Where the directory begins and ends: sectors 361 to 368.
    const DIRECTORY: usize = start(Self::SECTOR, 361);
    const DIRECTORY_END: usize = start(Self::SECTOR, 369);

    /// Where a sector begins.
    fn start(sector: u16) -> usize {
        start(Self::SECTOR, sector)
    }

    /// The bytes of a sector.
    fn size(sector: u16) -> usize {
        if sector <= LAST_BOOT_SECTOR {
            BOOT_SECTOR
        } else {
            Self::SECTOR
        }
    }
}

/// Single density: 720 sectors of 128 bytes.
pub type Single = [u8; start(128, SECTORS + 1)];

impl Density for Single {
    const SECTOR: usize = 128;
}

/// Double density: sectors 1 to 3 of 128 bytes, the others of 256.
pub type Double = [u8; start(256, SECTORS + 1)];

impl Density for Double {
    const SECTOR: usize = 256;
}

/// A word, low byte first.
pub(crate) fn word(disk: &impl Density, at: usize) -> u16 {
    u16::from_le_bytes([disk[at], disk[at + 1]])
}

pub(crate) fn set_word(disk: &mut impl Density, at: usize, value: u16) {
    disk[at..at + 2].copy_from_slice(&value.to_le_bytes());
}
