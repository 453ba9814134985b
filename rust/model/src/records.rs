//! Request P1: lines of text. Get record reads a line and put record writes one; a line is what
//! stands before a `$9B`, and that byte.

use crate::channel::{Channel, Reading, Writing};
use crate::disk::Density;
use crate::fault::{Fault, Variant};
use crate::status::{Outcome, Status, Stop};
use crate::{Model, RIGHT};

/// The byte that ends a line.
const END_OF_LINE: u8 = 0x9b;

/// The bytes of a line that stand here: their number, and whether the last of them ends it.
fn line_in(bytes: &[u8]) -> (usize, bool) {
    match bytes.iter().position(|&byte| byte == END_OF_LINE) {
        Some(place) => (place + 1, true),
        None => (bytes.len(), false),
    }
}

impl<V: Variant> Model<V> {
    /// A get record on a channel in any state: get's 133 and 131.
    pub(crate) fn get_record_from(
        self,
        disk: &impl Density,
        channel: &mut Channel,
        buffer: &mut [u8],
    ) -> Outcome {
        if self.wrong(Fault::EmptyRecordFirst) && buffer.is_empty() {
            return Ok(0);
        }
        let place = channel.reading()?;
        if buffer.is_empty() && !self.wrong(Fault::EmptyRecordDrops) {
            if self.wrong(Fault::EmptyRecordTested) {
                self.reading_place(disk, place).ok_or(Status::WrongChain)?;
            }
            return self.no_bytes(disk, place, Fault::EndOfEmptyRecord);
        }
        let outcome = self.get_record(disk, place, buffer);
        self.with_end(outcome, Fault::EndOfGetsOnly)
    }

    /// A put record on a channel in any state: put's 133, 135 and 144. One of an empty buffer writes
    /// a line too, so it is refused as any other.
    pub(crate) fn put_record_to(
        self,
        disk: &mut impl Density,
        notch: u8,
        channel: &mut Channel,
        bytes: &[u8],
    ) -> Outcome {
        let place = channel.writing()?;
        let unprotected = self.wrong(Fault::PutRecordUnprotected)
            || self.wrong(Fault::EmptyLineUnprotected) && bytes.is_empty();
        if !unprotected {
            self.require_open_notch(notch)?;
        }
        if self.wrong(Fault::EmptyLineNotPut) && bytes.is_empty() {
            return Ok(0);
        }
        self.put_record(disk, place, bytes)
    }

    /// Fills the buffer through the first `$9B`: 1 or 3. Where the buffer is full before that, the rest
    /// of the line is read and dropped. A file that ends first is 136, a sector that cannot be entered
    /// 164, as for get.
    fn get_record(self, disk: &impl Density, place: &mut Reading, buffer: &mut [u8]) -> Outcome {
        let (slot, mut rest) = self.reading_place(disk, place).ok_or(Status::WrongChain)?;
        let mut done = 0;
        loop {
            let room = &mut buffer[done..];
            let (run, ended) = line_in(&rest[..rest.len().min(room.len())]);
            let passed = usize::from(self.wrong(Fault::LineEndPassed) && ended);
            room[..run - passed].copy_from_slice(&rest[..run - passed]);
            place.offset += run as u16;
            done += run - passed;
            if ended {
                self.behind_line(place, &mut buffer[done..]);
                let at_end = run == rest.len() || self.wrong(Fault::LineEndsWithinSector);
                return self.delivered(disk, place, at_end, done);
            }
            if done == buffer.len() {
                return self.truncated(disk, slot, place, &rest[run..], done);
            }
            rest = match self.enter(disk, slot, place) {
                Err(Status::EndOfFile) if done > 0 && self.wrong(Fault::LastLineEnds) => {
                    return Ok(done)
                }
                entered => entered
                    .map_err(|status| self.stopped(status, done, Fault::LastLineReachesEnd))?,
            };
        }
    }

    /// What two faults do behind a line that was delivered.
    fn behind_line(self, place: &mut Reading, rest: &mut [u8]) {
        if self.wrong(Fault::LineEndLeft) {
            place.offset -= 1;
        }
        if self.wrong(Fault::LineRestCleared) {
            rest.fill(0);
        }
    }

    /// The end of a get record whose buffer is full, with so many bytes, and whose line has not ended:
    /// behind it stands the rest of the sector.
    fn truncated<'a>(
        self,
        disk: &'a impl Density,
        slot: u8,
        place: &mut Reading,
        rest: &'a [u8],
        count: usize,
    ) -> Outcome {
        if self.wrong(Fault::LineEndFits) && rest.first() == Some(&END_OF_LINE) {
            place.offset += 1;
            return Ok(count);
        }
        let file_ends = || rest.is_empty() && self.ends_file(disk, place);
        if self.wrong(Fault::LineEndsWithFile) && file_ends() {
            return Ok(count);
        }
        if self.wrong(Fault::FullLineReachesEnd) && file_ends() {
            let status = Status::EndReached;
            return Err(Stop { status, count });
        }
        let status = self.drop_line(disk, slot, place, rest);
        let uncounted = self.wrong(Fault::LongLineNotCounted) && status == Status::TruncatedRecord;
        Err(Stop {
            status,
            count: if uncounted { 0 } else { count },
        })
    }

    /// Reads on through the next `$9B` and delivers nothing: 137, at the file's end too, and never 3;
    /// 164 at a sector that cannot be entered.
    fn drop_line<'a>(
        self,
        disk: &'a impl Density,
        slot: u8,
        place: &mut Reading,
        mut rest: &'a [u8],
    ) -> Status {
        if self.wrong(Fault::LongLineLeft) {
            return Status::TruncatedRecord;
        }
        loop {
            let (run, ended) = line_in(rest);
            place.offset += run as u16 - u16::from(ended && self.wrong(Fault::LongLineEndLeft));
            let at_end = ended && run == rest.len();
            if self.wrong(Fault::DroppedLineReachesEnd) && at_end && self.ends_file(disk, place) {
                return Status::EndReached;
            }
            if ended || self.wrong(Fault::LongLineToSector) {
                return Status::TruncatedRecord;
            }
            // The right way, since with a fault of get's that does not count the sectors left to
            // enter a chain that loops would be read for ever.
            rest = match RIGHT.enter(disk, slot, place) {
                Ok(rest) => rest,
                Err(Status::EndOfFile) if self.wrong(Fault::DroppedEndReached) => {
                    return Status::EndReached
                }
                Err(Status::EndOfFile) if !self.wrong(Fault::EndWhileDropping) => {
                    return Status::TruncatedRecord
                }
                Err(Status::WrongChain) if self.wrong(Fault::DamageWhileDropping) => {
                    return Status::TruncatedRecord
                }
                Err(status) => return status,
            };
        }
    }

    /// Writes through the first `$9B` of the buffer, or the whole buffer and then one `$9B`. It is
    /// one put, and that `$9B` is not reported.
    fn put_record(self, disk: &mut impl Density, place: &mut Writing, bytes: &[u8]) -> Outcome {
        let (length, ended) = line_in(bytes);
        let written = if self.wrong(Fault::PutRecordGoesOn) {
            bytes
        } else {
            &bytes[..length]
        };
        let mut end = self.file_end(disk, place)?;
        let count = self.add(disk, place, &mut end, written)?;
        if ended && !self.wrong(Fault::OwnEndAlways) {
            return Ok(count);
        }
        if self.wrong(Fault::OwnEndTested) {
            end = self
                .file_end(disk, place)
                .map_err(|status| Stop { status, count })?;
        }
        match self.add(disk, place, &mut end, &[END_OF_LINE]) {
            Ok(own) if self.wrong(Fault::OwnEndCounted) => Ok(count + own),
            Ok(_) => Ok(count),
            Err(_) if self.wrong(Fault::OwnEndForgotten) => Ok(count),
            Err(stop) if self.wrong(Fault::OwnEndTakesCount) => Err(stop),
            Err(stop) => Err(Stop { count, ..stop }),
        }
    }
}
