//! "Recovery" of a deleted file. It knows no channels.

use crate::directory::{flag, set_flag, slot_name, DELETED, FILE, SLOTS};
use crate::disk::Density;
use crate::fault::{Fault, Variant};
use crate::image::on_disk;
use crate::names::is_legal;
use crate::status::{Outcome, Status};
use crate::Model;

impl<V: Variant> Model<V> {
    /// 203 and 205, then the recovery.
    pub(crate) fn run_recover(self, image: &mut [u8], notch: u8, slot: u8) -> Outcome {
        on_disk!(self.disk_mut(image)?, disk => self.recover_slot(disk, notch, slot))
    }

    /// In order: 144; 170 for a slot above 63, at or past the first zero flag, or not deleted;
    /// 163; 165; 201; 202. The count is the number of sectors taken back.
    fn recover_slot(self, disk: &mut impl Density, notch: u8, slot: u8) -> Outcome {
        if self.wrong(Fault::NotchAfterSlot) {
            self.require_deleted(disk, slot)?;
        }
        self.require_open_notch(notch)?;
        self.require_deleted(disk, slot)?;
        self.require_good_table(disk)?;
        let name = slot_name(disk, slot);
        if !is_legal(&name) && !self.wrong(Fault::RecoverIllegalName) {
            return Err(Status::WrongName.into());
        }
        let taken = self
            .standing(disk)
            .any(|other| slot_name(disk, other) == name);
        if taken && !self.wrong(Fault::RecoverTakenName) {
            return Err(Status::NameTaken.into());
        }
        if !self.chain_is_clean(disk, slot, true) {
            return Err(Status::NotRecoverable.into());
        }
        let count = self.take_back_chain(disk, slot);
        set_flag(disk, slot, FILE);
        Ok(if self.wrong(Fault::RecoverFixedCount) {
            1
        } else {
            count.into()
        })
    }

    /// 170 unless it is a slot of the directory with `$80`, before the first zero flag.
    fn require_deleted(self, disk: &impl Density, slot: u8) -> Result<(), Status> {
        let deleted = slot < SLOTS
            && (self.wrong(Fault::RecoverPastZero) || (0..slot).all(|slot| flag(disk, slot) != 0))
            && flag(disk, slot) & DELETED != 0;
        deleted.then_some(()).ok_or(Status::NotFound)
    }
}
