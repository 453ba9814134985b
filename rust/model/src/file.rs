//! "The disk": file sectors, chains, and the giving out of sectors.

use crate::directory::{count, first, set_count, set_first};
use crate::disk::{is_data_sector, Density, Single, DATA_SECTORS};
use crate::fault::{Fault, Variant};
use crate::volume::{free_count, set_free_count};
use crate::Model;

/// The last three bytes of a file sector.
#[derive(Clone, Copy)]
pub(crate) struct Tail {
    /// The slot number that the sector carries.
    pub slot: u8,
    /// The next sector, 0 at the file's end.
    pub next: u16,
    /// Bytes in use.
    pub used: u8,
}

impl<V: Variant> Model<V> {
    /// Where a sector's last three bytes begin.
    fn tail_start<D: Density>(self, sector: u16) -> usize {
        let data = if self.wrong(Fault::LinkAt125) {
            Single::DATA
        } else {
            D::DATA
        };
        D::start(sector) + data
    }

    /// Reads a sector's last three bytes.
    pub(crate) fn tail<D: Density>(self, disk: &D, sector: u16) -> Tail {
        let at = self.tail_start::<D>(sector);
        let tail = disk[at..at + 3].first_chunk();
        let [high, low, used] = *tail.expect("three bytes of the disk");
        if self.wrong(Fault::HighLinkBits) {
            return Tail {
                slot: high & 63,
                next: u16::from_be_bytes([high >> 6, low]),
                used,
            };
        }
        Tail {
            slot: high >> 2,
            next: u16::from_be_bytes([high & 3, low]),
            used,
        }
    }

    /// Writes a sector's slot number and next sector.
    fn set_link<D: Density>(self, disk: &mut D, sector: u16, slot: u8, next: u16) {
        let at = self.tail_start::<D>(sector);
        let [high, low] = next.to_be_bytes();
        disk[at] = if self.wrong(Fault::HighLinkBits) {
            high << 6 | slot
        } else {
            slot << 2 | high
        };
        disk[at + 1] = low;
    }

    /// Writes a sector's count of bytes in use.
    pub(crate) fn set_used<D: Density>(self, disk: &mut D, sector: u16, used: u8) {
        disk[self.tail_start::<D>(sector) + 2] = used;
    }

    /// A sector holds at most its data bytes.
    fn fits<D: Density>(self, used: u8) -> bool {
        usize::from(used) <= D::DATA || self.wrong(Fault::AnyCountFits) && D::DATA > Single::DATA
    }

    /// What is asked of every sector of a slot's chain: a data sector that carries the slot
    /// number and holds at most its data bytes. Answers its last three bytes.
    pub(crate) fn file_sector<D: Density>(self, disk: &D, slot: u8, sector: u16) -> Option<Tail> {
        if !is_data_sector(sector) {
            return None;
        }
        let tail = self.tail(disk, sector);
        (tail.slot == slot && self.fits::<D>(tail.used)).then_some(tail)
    }

    /// The slot's chain is *clean*: its count n is 1 to 707 and n steps from the first sector
    /// meet only sectors as above that are marked as asked for, the last of them and no other
    /// having next sector 0. A standing file's sectors are used, a deleted one's are free.
    pub(crate) fn chain_is_clean(self, disk: &impl Density, slot: u8, free: bool) -> bool {
        let left = count(disk, slot);
        if left == 0 || left > DATA_SECTORS - u16::from(self.wrong(Fault::LongestChain)) {
            return false;
        }
        let mut sector = first(disk, slot);
        for left in (0..left).rev() {
            let tail = match self.file_sector(disk, slot, sector) {
                Some(tail) => tail,
                None if self.ignores_slot_number(disk, sector, free) => self.tail(disk, sector),
                None => return false,
            };
            if self.is_free(disk, sector) != free && !self.wrong(Fault::ChainUnmarked) {
                return false;
            }
            if (tail.next == 0) != (left == 0) {
                return false;
            }
            sector = tail.next;
        }
        true
    }

    /// The two faults that walk over sectors of other slots.
    fn ignores_slot_number<D: Density>(self, disk: &D, sector: u16, free: bool) -> bool {
        let fault = if free {
            Fault::RecoverAnySlotNumber
        } else {
            Fault::ChainWithoutSlot
        };
        self.wrong(fault) && is_data_sector(sector) && self.fits::<D>(self.tail(disk, sector).used)
    }

    /// Frees a clean chain: its map bits and the free count change, nothing else.
    pub(crate) fn free_chain(self, disk: &mut impl Density, slot: u8) {
        let count = self.mark_chain(disk, slot, |disk, sector| self.mark_free(disk, sector));
        if !self.wrong(Fault::FreeCountNotRaised) {
            set_free_count(disk, free_count(disk).wrapping_add(count));
        }
    }

    /// Marks the sectors of a clean chain used and lowers the free count; answers how many.
    pub(crate) fn take_back_chain(self, disk: &mut impl Density, slot: u8) -> u16 {
        let count = self.mark_chain(disk, slot, |disk, sector| self.mark_used(disk, sector));
        if !self.wrong(Fault::RecoverCountKept) {
            set_free_count(disk, free_count(disk).wrapping_sub(count));
        }
        count
    }

    /// Marks every sector of a clean chain; answers how many there are.
    fn mark_chain<D: Density>(self, disk: &mut D, slot: u8, mark: impl Fn(&mut D, u16)) -> u16 {
        let count = count(disk, slot);
        let mut sector = first(disk, slot);
        for _ in 0..count {
            mark(disk, sector);
            sector = self.tail(disk, sector).next;
        }
        count
    }

    /// Gives out the lowest free sector to a slot: as the file's first, or behind the sector
    /// before. The search begins at the byte `from` of the map, below which nothing is free. Its
    /// bit, the free count, the slot's count, the link and its own last three bytes are written in
    /// this order.
    pub(crate) fn give_out(
        self,
        disk: &mut impl Density,
        slot: u8,
        before: Option<u16>,
        from: usize,
    ) -> Option<u16> {
        let sector = self.lowest_free(disk, from)?;
        self.mark_used(disk, sector);
        if !self.wrong(Fault::FreeCountNotLowered) {
            set_free_count(disk, free_count(disk).wrapping_sub(1));
        }
        let more = before.is_some() || self.wrong(Fault::CountKept);
        set_count(
            disk,
            slot,
            if more {
                count(disk, slot).wrapping_add(1)
            } else {
                1
            },
        );
        match before {
            Some(before) => self.set_link(disk, before, slot, sector),
            None => set_first(disk, slot, sector),
        }
        self.set_link(disk, sector, slot, 0);
        if !self.wrong(Fault::BytesInUseKept) {
            self.set_used(disk, sector, 0);
        }
        Some(sector)
    }
}
