//! "Commands": get and put, on a channel of the table or on one lent record.

use crate::channel::{as_record, Channel, Reading, Writing};
use crate::directory::{as_slot, count, first, flag, OUTPUT_FILE};
use crate::disk::{Density, Single, DATA_SECTORS};
use crate::fault::{Fault, Variant};
use crate::image::on_disk;
use crate::status::{Outcome, Status, Stop};
use crate::Model;

/// Where a put goes on: the end of its file.
pub(crate) struct End {
    slot: u8,
    /// Bytes in use of the last sector.
    used: usize,
    /// A byte of the map, below which nothing is free.
    map_byte: usize,
}

/// Hands out what is left of a sector, as many bytes as there is room for; answers how many.
fn hand_out(place: &mut Reading, rest: &[u8], room: &mut [u8]) -> usize {
    let run = rest.len().min(room.len());
    room[..run].copy_from_slice(&rest[..run]);
    place.offset += run as u16;
    run
}

impl<V: Variant> Model<V> {
    /// The bytes in use of a sector that get can enter for the slot.
    pub(crate) fn bytes_in_use<D: Density>(self, disk: &D, slot: u8, sector: u16) -> Option<&[u8]> {
        let tail = self.file_sector(disk, slot, sector)?;
        let at = D::start(sector);
        Some(&disk[at..at + usize::from(tail.used)])
    }

    /// A get on a channel in any state.
    pub(crate) fn get_from(
        self,
        disk: &impl Density,
        channel: &mut Channel,
        buffer: &mut [u8],
    ) -> Outcome {
        let writes = matches!(channel, Channel::Writing(_));
        if self.wrong(Fault::NoBytesFirst) && buffer.is_empty() && writes {
            return Ok(0);
        }
        let outcome = self.get(disk, channel.reading()?, buffer);
        self.with_end(outcome, Fault::EndOfRecordsOnly)
    }

    /// A put on a channel in any state: 133, 135, 144.
    pub(crate) fn put_to(
        self,
        disk: &mut impl Density,
        notch: u8,
        channel: &mut Channel,
        bytes: &[u8],
    ) -> Outcome {
        let reads = matches!(channel, Channel::Reading(_));
        if self.wrong(Fault::NoBytesFirst) && bytes.is_empty() && reads {
            return Ok(0);
        }
        let writing = channel.writing()?;
        if !(self.wrong(Fault::NotchAfterNoBytes) && bytes.is_empty()) {
            self.require_open_notch(notch)?;
        }
        match self.put(disk, writing, bytes) {
            Ok(count) if self.wrong(Fault::EndOfPuts) => Err(Stop {
                status: Status::EndReached,
                count,
            }),
            outcome => outcome,
        }
    }

    /// Get fills the buffer: 1 or 3. Or it stops with 136 where the file ends and with 164 where it
    /// cannot go on; then the channel stays at the end of the sector it last entered.
    fn get(self, disk: &impl Density, place: &mut Reading, buffer: &mut [u8]) -> Outcome {
        if buffer.is_empty() {
            return self.no_bytes(disk, place, Fault::EndOfNoBytes);
        }
        let (slot, mut rest) = self.reading_place(disk, place).ok_or(Status::WrongChain)?;
        let mut run = hand_out(place, rest, buffer);
        let mut done = run;
        while done < buffer.len() {
            rest = match self.enter(disk, slot, place) {
                Ok(rest) => rest,
                Err(status) => {
                    if self.wrong(Fault::RestCleared) {
                        buffer[done..].fill(0);
                    }
                    return Err(self.stopped(status, done, Fault::ShortGetReachesEnd));
                }
            };
            run = hand_out(place, rest, &mut buffer[done..]);
            done += run;
        }
        let at_end = run == rest.len() || self.wrong(Fault::EndWithinSector);
        self.delivered(disk, place, at_end, done)
    }

    /// The slot of a lent record and what is left of its entered sector, which is tested again.
    /// At sector 0 nothing has been entered, and the offset is not looked at.
    pub(crate) fn reading_place<'a>(
        self,
        disk: &'a impl Density,
        place: &Reading,
    ) -> Option<(u8, &'a [u8])> {
        let slot = as_slot(place.slot)?;
        if place.sector == 0 {
            return Some((slot, &[]));
        }
        let used = self.bytes_in_use(disk, slot, place.sector)?;
        match used.get(usize::from(place.offset)..) {
            None if self.wrong(Fault::OffsetNotTested) => Some((slot, &[])),
            rest => Some((slot, rest?)),
        }
    }

    /// Enters the next sector: the slot's first, or the link of the last one.
    pub(crate) fn enter<'a>(
        self,
        disk: &'a impl Density,
        slot: u8,
        place: &mut Reading,
    ) -> Result<&'a [u8], Status> {
        let next = match place.sector {
            0 => first(disk, slot),
            sector => match self.tail(disk, sector).next {
                0 => return Err(Status::EndOfFile),
                next => next,
            },
        };
        let used = self
            .bytes_in_use(disk, slot, next)
            .ok_or(Status::WrongChain)?;
        if place.left == 0 && (used.is_empty() || !self.wrong(Fault::LeftIgnored)) {
            return Err(Status::WrongChain);
        }
        if used.is_empty() && self.wrong(Fault::EmptySectorEnds) {
            return Err(Status::EndOfFile);
        }
        place.sector = next;
        place.offset = 0;
        if used.is_empty() || !self.wrong(Fault::LeftNotLowered) {
            place.left = place.left.saturating_sub(1);
        }
        Ok(used)
    }

    /// Put adds the bytes at the file's end.
    fn put(self, disk: &mut impl Density, place: &mut Writing, bytes: &[u8]) -> Outcome {
        if bytes.is_empty() {
            return Ok(0);
        }
        let mut end = self.file_end(disk, place)?;
        if self.wrong(Fault::FirstPutOnly) && end.used > 0 {
            return Ok(bytes.len());
        }
        self.add(disk, place, &mut end, bytes)
    }

    /// Adds as many of the bytes as fit. A sector is given out only when a byte is waiting and the
    /// last sector is full. Inlined, since as a call of its own it makes a put of one byte slower by
    /// a third.
    #[inline(always)]
    pub(crate) fn add<D: Density>(
        self,
        disk: &mut D,
        place: &mut Writing,
        end: &mut End,
        bytes: &[u8],
    ) -> Outcome {
        let data = self.data_of_put::<D>();
        let mut done = 0;
        loop {
            let run = data.saturating_sub(end.used).min(bytes.len() - done);
            let at = D::start(place.last) + end.used;
            disk[at..at + run].copy_from_slice(&bytes[done..done + run]);
            end.used += run;
            if !self.wrong(Fault::ByteCountNotStored) {
                self.set_used(disk, place.last, end.used as u8);
            }
            done += run;
            if done == bytes.len() && !(self.wrong(Fault::SectorTooEarly) && end.used == data) {
                return Ok(done);
            }
            let given = self.give_out(disk, end.slot, Some(place.last), end.map_byte);
            let Some(sector) = given else {
                let count = if self.wrong(Fault::NoCountOfPart) {
                    0
                } else {
                    done
                };
                return Err(Stop {
                    status: Status::NoSector,
                    count,
                });
            };
            place.last = sector;
            end.used = 0;
            end.map_byte = usize::from(sector / 8);
        }
    }

    /// The bytes that put writes into a sector at most.
    fn data_of_put<D: Density>(self) -> usize {
        if self.wrong(Fault::PutFills125) {
            Single::DATA
        } else {
            D::DATA
        }
    }

    /// What put asks of the disk, once for a call: 163, 164.
    pub(crate) fn file_end(self, disk: &impl Density, place: &Writing) -> Result<End, Status> {
        self.require_good_table(disk)?;
        let (slot, used) = self.writing_place(disk, place).ok_or(Status::WrongChain)?;
        Ok(End {
            slot,
            used,
            map_byte: 0,
        })
    }

    /// What put asks of a lent record: its slot has the flag `$43` and a count not above 707, its
    /// last sector is a data sector that carries the slot with next sector 0 and at most its data
    /// bytes. Answers the slot and the bytes in use.
    fn writing_place(self, disk: &impl Density, place: &Writing) -> Option<(u8, usize)> {
        let slot = as_slot(place.slot)?;
        if flag(disk, slot) != OUTPUT_FILE {
            return None;
        }
        if count(disk, slot) > DATA_SECTORS && !self.wrong(Fault::PutAnyCount) {
            return None;
        }
        let tail = self.file_sector(disk, slot, place.last)?;
        let ends = tail.next == 0 || self.wrong(Fault::PutBehindEnd);
        ends.then_some((slot, usize::from(tail.used)))
    }

    /// The thin get: one lent record, advanced.
    pub(crate) fn run_thin_get(
        self,
        image: &[u8],
        words: &mut [u16],
        buffer: &mut [u8],
    ) -> Outcome {
        let (record, before) = as_record(words)?;
        if self.wrong(Fault::ThinStateFirst) && before == Channel::Closed {
            return Err(Status::ChannelClosed.into());
        }
        let disk = self.disk(image)?;
        let mut channel = before;
        let outcome = on_disk!(disk, disk => self.get_from(disk, &mut channel, buffer));
        self.store(record, before, channel);
        self.with_end(outcome, Fault::ThinGetWithoutEnd)
    }

    /// The thin put: one lent record, advanced.
    pub(crate) fn run_thin_put(
        self,
        image: &mut [u8],
        notch: u8,
        words: &mut [u16],
        bytes: &[u8],
    ) -> Outcome {
        let (record, before) = as_record(words)?;
        let disk = self.disk_mut(image)?;
        let notch = if self.wrong(Fault::ThinPutUnprotected) {
            0
        } else {
            notch
        };
        let mut channel = before;
        let outcome = on_disk!(disk, disk => self.put_to(disk, notch, &mut channel, bytes));
        if !self.wrong(Fault::ThinKeepsRecord) {
            self.store(record, before, channel);
        }
        outcome
    }
}
