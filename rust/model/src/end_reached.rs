//! Request P2: the desk waits for a 3. A get or get record of at least one byte that succeeds answers
//! 3 where it leaves its channel at the end of a sector whose next sector is 0.

use crate::channel::Reading;
use crate::directory::as_slot;
use crate::disk::Density;
use crate::fault::{Fault, Variant};
use crate::status::{Outcome, Status, Stop};
use crate::{Model, RIGHT};

impl<V: Variant> Model<V> {
    /// The answer of a get or get record that succeeds with so many bytes, one at least, and whose
    /// channel is at the end of its sector or not: 3 or 1.
    pub(crate) fn delivered(
        self,
        disk: &impl Density,
        place: &mut Reading,
        at_end: bool,
        count: usize,
    ) -> Outcome {
        if at_end && self.ends_file(disk, place) {
            return Err(self.end_reached(place, count));
        }
        Ok(count)
    }

    /// Does the sector of the place end its file? It does if its next sector is 0, whatever is left to
    /// enter; nothing else is looked at but by faults.
    pub(crate) fn ends_file<D: Density>(self, disk: &D, place: &Reading) -> bool {
        let tail = self.tail(disk, place.sector);
        match tail.next {
            0 if self.wrong(Fault::EndNotReported) => false,
            0 if self.wrong(Fault::EndOnlyWithNoneLeft) => place.left == 0,
            0 if self.wrong(Fault::EndOfFullSectors) => usize::from(tail.used) == D::DATA,
            0 if self.wrong(Fault::EndOfUsedSectors) => !self.is_free(disk, place.sector),
            0 if self.wrong(Fault::EndOfStandingFiles) => self.stands(disk, place.slot),
            0 => true,
            _ if self.wrong(Fault::EndOfEverySector) => true,
            _ if self.wrong(Fault::EndByLeft) => place.left == 0,
            next if self.wrong(Fault::EndByLowLink) => next as u8 == 0,
            _ if self.wrong(Fault::EndBeforeEmptySectors) => only_empty_follow(disk, *place),
            _ => false,
        }
    }

    /// Does a channel's slot stand?
    fn stands(self, disk: &impl Density, slot: u16) -> bool {
        self.standing(disk).any(|standing| slot == standing.into())
    }

    /// The answer 3, or what a fault makes of it.
    fn end_reached(self, place: &mut Reading, count: usize) -> Stop {
        if self.wrong(Fault::EndClearsLeft) {
            place.left = 0;
        }
        if self.wrong(Fault::EndRewinds) {
            place.sector = 0;
            place.offset = 0;
        }
        let status = if self.wrong(Fault::EndTooEarly) {
            Status::EndOfFile
        } else {
            Status::EndReached
        };
        let uncounted = self.wrong(Fault::EndNotCounted);
        Stop {
            status,
            count: if uncounted { 0 } else { count },
        }
    }

    /// A get or get record of no bytes answers 1, at the file's end too. The fault is the one that
    /// answers 3 there.
    pub(crate) fn no_bytes(
        self,
        disk: &impl Density,
        place: &mut Reading,
        fault: Fault,
    ) -> Outcome {
        if self.wrong(fault) && place.sector != 0 {
            if let Some((_, rest)) = self.reading_place(disk, place) {
                return self.delivered(disk, place, rest.is_empty(), 0);
            }
        }
        Ok(0)
    }

    /// The answer of a get or get record that could not go on, with so many bytes: never 3. The fault
    /// is the one that answers 3 in place of 136 where some bytes came.
    pub(crate) fn stopped(self, status: Status, count: usize, fault: Fault) -> Stop {
        let fault = if count == 0 {
            Fault::NothingReachesEnd
        } else {
            fault
        };
        let reached = status == Status::EndOfFile && self.wrong(fault);
        Stop {
            status: if reached { Status::EndReached } else { status },
            count,
        }
    }

    /// The answer of a get in one of its ways: with 3, unless the fault is made that has 1 for it.
    pub(crate) fn with_end(self, outcome: Outcome, unless: Fault) -> Outcome {
        match outcome {
            Err(Stop {
                status: Status::EndReached,
                count,
            }) if self.wrong(unless) => Ok(count),
            outcome => outcome,
        }
    }
}

/// Do only sectors with count 0 follow on the place, up to the file's end?
fn only_empty_follow(disk: &impl Density, mut place: Reading) -> bool {
    let Some(slot) = as_slot(place.slot) else {
        return false;
    };
    loop {
        match RIGHT.enter(disk, slot, &mut place) {
            Ok([]) => (),
            Ok(_) => return false,
            Err(status) => return status == Status::EndOfFile,
        }
    }
}
