//! What an image can be.

use std::fmt;

/// Sectors of a disk; they count from 1.
const SECTORS: usize = 720;
/// Sectors that hold the bytes of files.
const DATA_SECTORS: usize = 707;
/// Sectors 1 to 3, which have 128 bytes in either density.
const BOOT_SECTORS: usize = 3;
const BOOT_SECTOR_BYTES: usize = 128;
/// Bytes of a file sector behind its data.
const LINK_BYTES: usize = 3;

/// What an image is. The library tells it by the length.
///
/// ```
/// use hilugsaban::{Disk, Kind};
///
/// let disk = Disk::fresh_as(Kind::AtrDouble);
/// assert_eq!(disk.image().len(), 183952);
/// assert_eq!(disk.image()[..7], [0x96, 0x02, 0xE8, 0x2C, 0x00, 0x01, 0x00]);
/// assert_eq!(disk.kind(), Some(Kind::AtrDouble));
/// assert_eq!(Kind::AtrDouble.sector_bytes(1), 128);
/// assert_eq!(Kind::AtrDouble.sector_bytes(4), 256);
/// assert_eq!(Kind::AtrDouble.longest_file(), 178871);
/// ```
#[derive(Clone, Copy, PartialEq, Eq, Hash, Debug)]
pub enum Kind {
    /// The sectors of a single density disk and nothing else: 92,160 bytes.
    Raw,
    /// An ATR file of single density: a header and the same sectors, 92,176 bytes.
    AtrSingle,
    /// An ATR file of double density: a header and sectors of 256 bytes, of which the first three have 128; 183,952 bytes.
    AtrDouble,
}

impl Kind {
    /// The three kinds, the shortest first.
    pub const ALL: [Kind; 3] = [Kind::Raw, Kind::AtrSingle, Kind::AtrDouble];

    /// The kind that an image of so many bytes can be.
    pub fn of_length(bytes: usize) -> Option<Kind> {
        Kind::ALL
            .into_iter()
            .find(|kind| kind.image_bytes() == bytes)
    }

    /// Bytes of an image.
    pub const fn image_bytes(self) -> usize {
        self.header_bytes()
            + BOOT_SECTORS * BOOT_SECTOR_BYTES
            + (SECTORS - BOOT_SECTORS) * self.full_sector_bytes()
    }

    /// Bytes of the header in front of the sectors.
    pub const fn header_bytes(self) -> usize {
        match self {
            Kind::Raw => 0,
            Kind::AtrSingle | Kind::AtrDouble => 16,
        }
    }

    /// Bytes of a sector: the buffer that a sector call takes for it.
    pub const fn sector_bytes(self, sector: u16) -> usize {
        if sector as usize <= BOOT_SECTORS {
            BOOT_SECTOR_BYTES
        } else {
            self.full_sector_bytes()
        }
    }

    /// Bytes of a file that one sector holds at most.
    pub const fn data_bytes(self) -> usize {
        self.full_sector_bytes() - LINK_BYTES
    }

    /// Bytes of a file that has all data sectors of a disk.
    pub const fn longest_file(self) -> usize {
        DATA_SECTORS * self.data_bytes()
    }

    /// Where a byte of a sector stands in the image: nowhere if there is no such sector or the sector has no such byte.
    pub fn offset(self, sector: u16, byte: usize) -> Option<usize> {
        let is_there = (1..=SECTORS).contains(&sector.into()) && byte < self.sector_bytes(sector);
        let before: usize = (1..sector).map(|before| self.sector_bytes(before)).sum();
        is_there.then_some(self.header_bytes() + before + byte)
    }

    /// Bytes of each sector behind the third.
    const fn full_sector_bytes(self) -> usize {
        match self {
            Kind::Raw | Kind::AtrSingle => 128,
            Kind::AtrDouble => 256,
        }
    }
}

/// What the image is called.
impl fmt::Display for Kind {
    fn fmt(&self, f: &mut fmt::Formatter<'_>) -> fmt::Result {
        f.write_str(match self {
            Kind::Raw => "raw image",
            Kind::AtrSingle => "ATR file of single density",
            Kind::AtrDouble => "ATR file of double density",
        })
    }
}

#[cfg(test)]
mod tests {
    use super::*;

    #[test]
    fn the_lengths_are_those_of_the_library() {
        assert_eq!(Kind::ALL.map(Kind::image_bytes), [92_160, 92_176, 183_952]);
        assert_eq!(Kind::ALL.map(Kind::data_bytes), [125, 125, 253]);
        for kind in Kind::ALL {
            assert_eq!(Kind::of_length(kind.image_bytes()), Some(kind));
            assert_eq!(Kind::of_length(kind.image_bytes() + 1), None);
        }
    }

    #[test]
    fn sectors_follow_each_other_up_to_the_end() {
        for kind in Kind::ALL {
            assert_eq!(kind.offset(1, 0), Some(kind.header_bytes()));
            for sector in 1..720 {
                let last = kind.sector_bytes(sector) - 1;
                let next = kind.offset(sector, last).map(|offset| offset + 1);
                assert_eq!(kind.offset(sector + 1, 0), next);
                assert_eq!(kind.offset(sector, last + 1), None);
            }
            let last = kind.sector_bytes(720) - 1;
            assert_eq!(kind.offset(720, last), Some(kind.image_bytes() - 1));
            assert_eq!((kind.offset(0, 0), kind.offset(721, 0)), (None, None));
        }
        assert_eq!(Kind::AtrDouble.offset(4, 255), Some(16 + 3 * 128 + 255));
    }
}
