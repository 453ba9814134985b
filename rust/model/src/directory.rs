//! "The disk": the directory, sectors 361 to 368.

use crate::disk::{set_word, word, Density};
use crate::fault::{Fault, Variant};
use crate::Model;

/// Slots of the directory.
pub const SLOTS: u8 = 64;
/// Bytes of a slot.
const SLOT: usize = 16;
/// Slots of a sector: the directory uses 128 bytes of each, in double density the first.
const SLOTS_OF_SECTOR: usize = 8;

/// Flag bits of a slot.
pub const DELETED: u8 = 0x80;
pub const IN_USE: u8 = 0x40;
pub const LOCKED: u8 = 0x20;
pub const OUTPUT: u8 = 0x01;
/// The whole flag byte of a file made by DOS 2, closed and open for output.
pub const FILE: u8 = 0x42;
pub const OUTPUT_FILE: u8 = 0x43;

/// The eleven bytes of a slot's name and extension, blank padded.
pub type Name = [u8; 11];

/// Where a slot begins on the disk.
pub(crate) fn slot_start<D: Density>(slot: u8) -> usize {
    let slot = usize::from(slot);
    D::DIRECTORY + slot / SLOTS_OF_SECTOR * D::SECTOR + slot % SLOTS_OF_SECTOR * SLOT
}

/// The flag byte of a slot.
pub(crate) fn flag<D: Density>(disk: &D, slot: u8) -> u8 {
    disk[slot_start::<D>(slot)]
}

pub(crate) fn set_flag<D: Density>(disk: &mut D, slot: u8, flag: u8) {
    disk[slot_start::<D>(slot)] = flag;
}

/// The slot's count of sectors.
pub(crate) fn count<D: Density>(disk: &D, slot: u8) -> u16 {
    word(disk, slot_start::<D>(slot) + 1)
}

pub(crate) fn set_count<D: Density>(disk: &mut D, slot: u8, count: u16) {
    set_word(disk, slot_start::<D>(slot) + 1, count);
}

/// The slot's first sector.
pub(crate) fn first<D: Density>(disk: &D, slot: u8) -> u16 {
    word(disk, slot_start::<D>(slot) + 3)
}

pub(crate) fn set_first<D: Density>(disk: &mut D, slot: u8, sector: u16) {
    set_word(disk, slot_start::<D>(slot) + 3, sector);
}

/// The slot's eleven bytes of name and extension.
pub(crate) fn slot_name<D: Density>(disk: &D, slot: u8) -> Name {
    name_in(disk, slot_start::<D>(slot))
}

/// The name in the slot that begins at a place of the disk.
fn name_in(disk: &impl Density, start: usize) -> Name {
    *disk[start + 5..start + SLOT]
        .first_chunk()
        .expect("eleven bytes of the directory")
}

pub(crate) fn set_slot_name<D: Density>(disk: &mut D, slot: u8, name: &Name) {
    let at = slot_start::<D>(slot) + 5;
    disk[at..at + name.len()].copy_from_slice(name);
}

/// A slot number that may be any byte or word, as a slot of the directory.
pub(crate) fn as_slot(number: u16) -> Option<u8> {
    u8::try_from(number).ok().filter(|&slot| slot < SLOTS)
}

impl<V: Variant> Model<V> {
    /// The standing slots in order: `$40` set, `$80` clear, and no earlier flag zero.
    pub(crate) fn standing(self, disk: &impl Density) -> impl Iterator<Item = u8> + '_ {
        (0..SLOTS)
            .take_while(move |&slot| flag(disk, slot) != 0 || self.wrong(Fault::SearchPastZero))
            .filter(|&slot| flag(disk, slot) & (IN_USE | DELETED) == IN_USE)
    }

    /// The first standing slot with the name.
    pub(crate) fn find(self, disk: &impl Density, name: &Name) -> Option<u8> {
        self.standing(disk)
            .filter(|&slot| !self.wrong(Fault::SearchSkipsOutput) || flag(disk, slot) & OUTPUT == 0)
            .find(|&slot| self.name_searched(disk, slot) == *name)
    }

    /// The name that a search compares.
    fn name_searched<D: Density>(self, disk: &D, slot: u8) -> Name {
        if self.wrong(Fault::DirectoryPacked) {
            let slot = usize::from(slot);
            let slots_of_sector = D::SECTOR / SLOT;
            let sector = D::DIRECTORY + slot / slots_of_sector * D::SECTOR;
            return name_in(disk, sector + slot % slots_of_sector * SLOT);
        }
        slot_name(disk, slot)
    }
}
