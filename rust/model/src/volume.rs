//! "The disk": the volume table, sector 360, with its map of free sectors.

use std::ops::Range;

use crate::disk::{set_word, word, Density, Single, DATA_SECTORS, SECTORS};
use crate::fault::{Fault, Variant};
use crate::image::on_disk;
use crate::{Model, RIGHT};

/// Where the map of free sectors begins in the table.
const MAP: usize = 10;
/// Bytes of the map.
const MAP_BYTES: usize = 90;

/// The place of the map on the disk.
fn map<D: Density>() -> Range<usize> {
    let start = D::TABLE + MAP;
    start..start + MAP_BYTES
}

/// The free count that the table holds.
pub(crate) fn free_count<D: Density>(disk: &D) -> u16 {
    word(disk, D::TABLE + 3)
}

pub(crate) fn set_free_count<D: Density>(disk: &mut D, count: u16) {
    set_word(disk, D::TABLE + 3, count);
}

impl<V: Variant> Model<V> {
    /// Map bytes with the bits that stand for no data sector: 0 to 3 and 360 to 368.
    fn reserved(self) -> [(usize, u8); 3] {
        if self.wrong(Fault::MapFromLowEnd) {
            [(0, 0x0f), (45, 0xff), (46, 0x01)]
        } else {
            [(0, 0xf0), (45, 0xff), (46, 0x80)]
        }
    }

    /// The place of a sector in the map: the byte of the disk, and its bit.
    fn map_bit<D: Density>(self, sector: u16) -> (usize, u8) {
        let bit = if self.wrong(Fault::MapFromLowEnd) {
            1 << (sector % 8)
        } else {
            0x80 >> (sector % 8)
        };
        (D::TABLE + MAP + usize::from(sector / 8), bit)
    }

    /// One in the map means free.
    pub(crate) fn is_free<D: Density>(self, disk: &D, sector: u16) -> bool {
        let (at, bit) = self.map_bit::<D>(sector);
        disk[at] & bit != 0
    }

    pub(crate) fn mark_free<D: Density>(self, disk: &mut D, sector: u16) {
        let (at, bit) = self.map_bit::<D>(sector);
        disk[at] |= bit;
    }

    pub(crate) fn mark_used<D: Density>(self, disk: &mut D, sector: u16) {
        let (at, bit) = self.map_bit::<D>(sector);
        disk[at] &= !bit;
    }

    /// The lowest free sector, looked for from the given byte of the map.
    pub(crate) fn lowest_free<D: Density>(self, disk: &D, from: usize) -> Option<u16> {
        let map = &disk[map::<D>()];
        if self.wrong(Fault::HighestFree) {
            let byte = map.iter().rposition(|&bits| bits != 0)?;
            return Some(8 * byte as u16 + 7 - map[byte].trailing_zeros() as u16);
        }
        let byte = from + map[from..].iter().position(|&bits| bits != 0)?;
        let bit = if self.wrong(Fault::MapFromLowEnd) {
            map[byte].trailing_zeros()
        } else {
            map[byte].leading_zeros()
        };
        Some(8 * byte as u16 + bit as u16)
    }

    /// The table is *good*: byte 0 and the 707 are right, the bits of sectors that are no data
    /// sectors are zero, and the free count equals the number of ones in the map.
    pub(crate) fn table_is_good<D: Density>(self, disk: &D) -> bool {
        let map = &disk[map::<D>()];
        let mut reserved = self.reserved().into_iter();
        if self.wrong(Fault::GoodWithoutReserved) {
            reserved.next_back();
        }
        disk[D::TABLE] == 2
            && word(disk, D::TABLE + 1) == DATA_SECTORS
            && reserved.all(|(byte, bits)| map[byte] & bits == 0)
            && (ones(map) == free_count(disk).into() || self.wrong(Fault::GoodWithoutCount))
    }

    /// A fresh disk: all zero but a good table with 707 free.
    pub(crate) fn clear<D: Density>(self, disk: &mut D) {
        if self.wrong(Fault::FormatKeepsData) {
            disk[D::TABLE..D::DIRECTORY_END].fill(0);
        } else if self.wrong(Fault::FormatClearsHalves) {
            for start in (1..=SECTORS).map(D::start) {
                disk[start..start + Single::SECTOR].fill(0);
            }
        } else {
            disk[0..D::DISK].fill(0);
        }
        disk[D::TABLE] = 2;
        set_word(disk, D::TABLE + 1, DATA_SECTORS);
        set_free_count(disk, DATA_SECTORS);
        let map = &mut disk[map::<D>()];
        map.fill(0xff);
        for (byte, bits) in self.reserved() {
            map[byte] &= !bits;
        }
    }
}

/// The image is served and its table is good.
pub fn has_good_table(image: &[u8]) -> bool {
    let Ok(disk) = RIGHT.disk(image) else {
        return false;
    };
    on_disk!(disk, disk => RIGHT.table_is_good(disk))
}

/// The number of ones, counted eight bytes at a time.
fn ones(map: &[u8]) -> u32 {
    let (words, rest) = map.as_chunks();
    let words = words
        .iter()
        .map(|&word| u64::from_ne_bytes(word).count_ones());
    let rest = rest.iter().map(|bits| bits.count_ones());
    words.chain(rest).sum()
}
