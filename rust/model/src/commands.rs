//! "Commands" and "Status numbers and their order": one function for each command.

use crate::channel::{as_table, held, named, Channel, Reading, Table, Writing, CHANNELS};
use crate::directory::{
    as_slot, count, flag, set_flag, set_slot_name, slot_name, Name, DELETED, FILE, LOCKED, OUTPUT,
    OUTPUT_FILE, SLOTS,
};
use crate::disk::Density;
use crate::fault::{Fault, Variant};
use crate::image::{clear_header, on_disk};
use crate::status::{Outcome, Status};
use crate::Model;

/// What one CIO call asks for, the buffer that it is lent included.
#[derive(Debug)]
pub struct Request<'a> {
    /// 0 is open, any other value closed.
    pub notch: u8,
    pub channel: u8,
    pub command: u8,
    /// Which way a file is opened.
    pub direction: u8,
    /// With its device and its ending byte.
    pub name: &'a [u8],
    /// The bytes of a put or put record, or the place for those of a get or get record.
    pub buffer: &'a mut [u8],
}

impl<'a> Request<'a> {
    /// A command that needs neither direction nor name nor buffer: 0, and no bytes. The notch is
    /// open.
    pub fn new(channel: u8, command: u8) -> Request<'a> {
        Request {
            notch: 0,
            channel,
            command,
            direction: 0,
            name: &[],
            buffer: &mut [],
        }
    }

    /// The same with a notch.
    pub fn notch(self, notch: u8) -> Request<'a> {
        Request { notch, ..self }
    }

    /// The same with a direction.
    pub fn direction(self, direction: u8) -> Request<'a> {
        Request { direction, ..self }
    }

    /// The same with a name.
    pub fn name(self, name: &'a [u8]) -> Request<'a> {
        Request { name, ..self }
    }

    /// The same with a buffer.
    pub fn buffer(self, buffer: &'a mut [u8]) -> Request<'a> {
        Request { buffer, ..self }
    }
}

/// The commands listed.
#[derive(Clone, Copy, PartialEq, Eq)]
enum Command {
    Open,
    GetRecord,
    Get,
    PutRecord,
    Put,
    Close,
    Status,
    Rename,
    Delete,
    Lock,
    Unlock,
    Format,
}

impl Command {
    /// 132 for commands 0 to 2, 168 for any other not listed.
    fn of(number: u8) -> Result<Command, Status> {
        Ok(match number {
            3 => Command::Open,
            5 => Command::GetRecord,
            7 => Command::Get,
            9 => Command::PutRecord,
            11 => Command::Put,
            12 => Command::Close,
            13 => Command::Status,
            32 => Command::Rename,
            33 => Command::Delete,
            35 => Command::Lock,
            36 => Command::Unlock,
            254 => Command::Format,
            0..=2 => return Err(Status::ReservedCommand),
            _ => return Err(Status::WrongCommand),
        })
    }

    /// All but those that move bytes and close need a closed channel.
    fn needs_closed(self) -> bool {
        use Command::*;
        !matches!(self, GetRecord | Get | PutRecord | Put | Close)
    }

    /// Put record, put, rename, delete, lock, unlock and format are there to change the disk, an
    /// open or a close not always.
    fn changes_disk(self) -> bool {
        use Command::*;
        !matches!(self, Open | GetRecord | Get | Close | Status)
    }
}

/// Which way a file is opened.
#[derive(Clone, Copy, PartialEq, Eq)]
enum Direction {
    Read,
    Write,
}

impl Direction {
    fn of(number: u8) -> Result<Direction, Status> {
        match number {
            4 => Ok(Direction::Read),
            8 => Ok(Direction::Write),
            _ => Err(Status::WrongCommand),
        }
    }
}

impl<V: Variant> Model<V> {
    /// 255, 203 and 205, then the command.
    pub(crate) fn run_cio(
        self,
        image: &mut [u8],
        table: &mut [u16],
        request: &mut Request,
    ) -> Outcome {
        let table = as_table(table)?;
        let disk = self
            .disk_mut(image)
            .map_err(|refusal| self.image_refusal(refusal, request.channel))?;
        let outcome = on_disk!(disk, disk => self.run_command(disk, table, request));
        if self.wrong(Fault::FormatClearsHeader)
            && Command::of(request.command) == Ok(Command::Format)
            && outcome.is_ok()
        {
            clear_header(image);
        }
        outcome
    }

    /// 203 or 205; or for the two faults that look at the channel first, 134.
    fn image_refusal(self, refusal: Status, channel: u8) -> Status {
        let fault = if refusal == Status::WrongHeader {
            Fault::ChannelBeforeHeader
        } else {
            Fault::ChannelBeforeImage
        };
        if self.wrong(fault) && usize::from(channel) >= CHANNELS {
            Status::NoSuchChannel
        } else {
            refusal
        }
    }

    /// The checks that a command makes of its channel, then the command.
    fn run_command(
        self,
        disk: &mut impl Density,
        table: &mut Table,
        request: &mut Request,
    ) -> Outcome {
        let number = usize::from(request.channel);
        let record = *table.get(number).ok_or(Status::NoSuchChannel)?;
        let command = self.command(request.command)?;
        let before = Channel::of(record).ok_or(Status::Malformed)?;
        if self.wrong(Fault::NotchBeforeChannel) && command.changes_disk() {
            self.require_open_notch(request.notch)?;
        }
        self.require_closed(table, before, command)?;
        let mut channel = before;
        let outcome = match command {
            Command::Open => self.open(disk, table, request, &mut channel),
            Command::GetRecord => self.get_record_from(disk, &mut channel, request.buffer),
            Command::Get => self.get_from(disk, &mut channel, request.buffer),
            Command::PutRecord => {
                self.put_record_to(disk, request.notch, &mut channel, request.buffer)
            }
            Command::Put => self.put_to(disk, request.notch, &mut channel, request.buffer),
            Command::Close => self.close(disk, request.notch, &mut channel),
            Command::Status => self.status(disk, request.name),
            Command::Rename => self.rename(disk, table, request),
            Command::Delete => self.delete(disk, table, request),
            Command::Lock => self.set_lock(disk, table, request, LOCKED),
            Command::Unlock => self.set_lock(disk, table, request, 0),
            Command::Format => self.format(disk, table, request),
        };
        self.store(&mut table[number], before, channel);
        outcome
    }

    /// 132, 168.
    fn command(self, number: u8) -> Result<Command, Status> {
        let not_served = match number {
            0..=2 => self.wrong(Fault::NoSuchReserved),
            5 => self.wrong(Fault::GetRecordNotServed),
            9 => self.wrong(Fault::PutRecordNotServed),
            _ => false,
        };
        if not_served {
            return Err(Status::WrongCommand);
        }
        Command::of(number)
    }

    /// 129. With all eight channels open, the one that an open names is open too.
    fn require_closed(
        self,
        table: &Table,
        channel: Channel,
        command: Command,
    ) -> Result<(), Status> {
        let all_open = || table.iter().all(|record| record[0] != 0);
        if self.wrong(Fault::AllOpenFirst) && command == Command::Open && all_open() {
            return Err(Status::Held);
        }
        if command.needs_closed() && channel != Channel::Closed {
            return Err(Status::ChannelOpen);
        }
        Ok(())
    }

    /// Open, in one of its two directions.
    fn open(
        self,
        disk: &mut impl Density,
        table: &Table,
        request: &Request,
        channel: &mut Channel,
    ) -> Outcome {
        if self.wrong(Fault::DirectionAfterName) {
            self.file_name(request.name)?;
        }
        if self.wrong(Fault::NotchBeforeDirection) && request.direction != 4 {
            self.require_open_notch(request.notch)?;
        }
        let direction = Direction::of(request.direction)?;
        let name = match direction {
            Direction::Read => self.file_name(request.name)?,
            Direction::Write => self.name_to_change(request, Self::file_name)?,
        };
        *channel = match direction {
            Direction::Read => Channel::Reading(self.open_read(disk, table, &name)?),
            Direction::Write => Channel::Writing(self.open_write(disk, table, &name)?),
        };
        Ok(0)
    }

    /// The name of a command that changes the disk, as one of the readers takes it: 144 first.
    fn name_to_change<N>(
        self,
        request: &Request,
        read: impl FnOnce(Self, &[u8]) -> Result<N, Status>,
    ) -> Result<N, Status> {
        if self.wrong(Fault::NotchAfterName) {
            let name = read(self, request.name)?;
            self.require_open_notch(request.notch)?;
            return Ok(name);
        }
        self.require_open_notch(request.notch)?;
        read(self, request.name)
    }

    /// Open for reading: before the first byte, with the slot's count of sectors yet to enter.
    /// It is refused with 200 only for a file open for output.
    fn open_read(self, disk: &impl Density, table: &Table, name: &Name) -> Result<Reading, Status> {
        let slot = self.find(disk, name).ok_or(Status::NotFound)?;
        let named = self.wrong(Fault::OpenOfRead) && named(table, slot);
        if flag(disk, slot) & OUTPUT != 0 || named {
            return Err(Status::Held);
        }
        Ok(Reading {
            slot: slot.into(),
            sector: 0,
            offset: 0,
            left: count(disk, slot),
        })
    }

    /// Open for writing: frees the found file's chain and keeps its slot, or takes a new slot;
    /// then flag `$43` and one sector.
    fn open_write(
        self,
        disk: &mut impl Density,
        table: &Table,
        name: &Name,
    ) -> Result<Writing, Status> {
        self.require_good_table(disk)?;
        let slot = match self.find(disk, name) {
            Some(slot) => {
                self.require_unlocked_unheld(disk, table, slot)?;
                self.require_clean_chain(disk, slot)?;
                self.free_chain(disk, slot);
                slot
            }
            None => {
                let slot = self.slot_for_new_file(disk, table)?;
                set_slot_name(disk, slot, name);
                slot
            }
        };
        set_flag(disk, slot, OUTPUT_FILE);
        let last = self.give_out(disk, slot, None, 0).ok_or(Status::NoSector)?;
        Ok(Writing {
            slot: slot.into(),
            last,
        })
    }

    /// The lowest slot that is deleted or zero and named by no channel, if a sector is free too.
    fn slot_for_new_file(self, disk: &impl Density, table: &Table) -> Result<u8, Status> {
        let slot = (0..SLOTS)
            .filter(|&slot| flag(disk, slot) == 0 || flag(disk, slot) & DELETED != 0)
            .find(|&slot| !named(table, slot) || self.wrong(Fault::HeldSlotTaken));
        let sector = self.lowest_free(disk, 0);
        if self.wrong(Fault::NoSectorFirst) && sector.is_none() {
            return Err(Status::NoSector);
        }
        let slot = slot.ok_or(Status::NoSlot)?;
        sector.ok_or(Status::NoSector)?;
        Ok(slot)
    }

    /// Close frees the channel unless it answers 144, as it does to a writing one under a closed
    /// notch. A writing one's flag `$43` becomes `$42`; without that flag, or with a slot above 63,
    /// the answer is 164.
    fn close(self, disk: &mut impl Density, notch: u8, channel: &mut Channel) -> Outcome {
        let Channel::Writing(writing) = *channel else {
            if self.wrong(Fault::NotchOfAnyClose) {
                self.require_open_notch(notch)?;
            }
            *channel = Channel::Closed;
            return Ok(0);
        };
        let slot = as_slot(writing.slot).filter(|&slot| flag(disk, slot) == OUTPUT_FILE);
        if slot.is_some() || !self.wrong(Fault::NotchAfterOutputFlag) {
            self.require_open_to_close(notch, channel)?;
        }
        if slot.is_some() || !self.wrong(Fault::CloseKeepsChannel) {
            *channel = Channel::Closed;
        }
        let slot = slot.ok_or(Status::WrongChain)?;
        if !self.wrong(Fault::OutputFlagKept) {
            set_flag(disk, slot, FILE);
        }
        Ok(0)
    }

    /// 144, with which a writing channel stays open.
    fn require_open_to_close(self, notch: u8, channel: &mut Channel) -> Result<(), Status> {
        let open = self.require_open_notch(notch);
        if open.is_err() && self.wrong(Fault::ProtectedCloseFrees) {
            *channel = Channel::Closed;
        }
        open
    }

    /// Status of a name: 170, 167 or 1.
    fn status(self, disk: &impl Density, name: &[u8]) -> Outcome {
        let name = self.file_name(name)?;
        let slot = self.find(disk, &name).ok_or(Status::NotFound)?;
        if flag(disk, slot) & LOCKED != 0 && !self.wrong(Fault::StatusOfLocked) {
            return Err(Status::Locked.into());
        }
        Ok(0)
    }

    /// Rename writes the eleven bytes.
    fn rename(self, disk: &mut impl Density, table: &Table, request: &Request) -> Outcome {
        let (old, new) = self.name_to_change(request, Self::two_names)?;
        let slot = self.found_on_good_table(disk, &old)?;
        self.require_unlocked_unheld(disk, table, slot)?;
        let taken = self
            .standing(disk)
            .filter(|&other| other != slot || self.wrong(Fault::SameNameTaken))
            .any(|other| slot_name(disk, other) == new);
        if taken {
            return Err(Status::NameTaken.into());
        }
        set_slot_name(disk, slot, &new);
        Ok(0)
    }

    /// Delete frees the chain and sets the flag to `$80`; all else in the slot stays.
    fn delete(self, disk: &mut impl Density, table: &Table, request: &Request) -> Outcome {
        let name = self.name_to_change(request, Self::file_name)?;
        let slot = self.found_on_good_table(disk, &name)?;
        self.require_unlocked_unheld(disk, table, slot)?;
        let clean = self.require_clean_chain(disk, slot);
        if clean.is_ok() {
            self.free_chain(disk, slot);
        } else if !self.wrong(Fault::DeleteWithoutChain) {
            clean?;
        }
        let kept = if self.wrong(Fault::DeleteKeepsFlag) {
            flag(disk, slot)
        } else {
            0
        };
        set_flag(disk, slot, DELETED | kept);
        Ok(0)
    }

    /// Lock sets `$20`, unlock clears it. A locked file is not refused.
    fn set_lock(
        self,
        disk: &mut impl Density,
        table: &Table,
        request: &Request,
        lock: u8,
    ) -> Outcome {
        let name = self.name_to_change(request, Self::file_name)?;
        let slot = self.found_on_good_table(disk, &name)?;
        if self.wrong(Fault::LockOfLocked) && flag(disk, slot) & LOCKED != 0 {
            return Err(Status::Locked.into());
        }
        if held(disk, table, slot) {
            return Err(Status::Held.into());
        }
        let lock = if self.wrong(Fault::LockClears) {
            0
        } else {
            lock
        };
        set_flag(disk, slot, flag(disk, slot) & !LOCKED | lock);
        Ok(0)
    }

    /// Format: `D:` alone, and no channel open.
    fn format(self, disk: &mut impl Density, table: &Table, request: &Request) -> Outcome {
        self.name_to_change(request, Self::device_alone)?;
        let open = table.iter().any(|record| record[0] != 0);
        if open && !self.wrong(Fault::FormatUnderChannel) {
            return Err(Status::Held.into());
        }
        self.clear(disk);
        Ok(0)
    }

    /// 163.
    pub(crate) fn require_good_table(self, disk: &impl Density) -> Result<(), Status> {
        self.table_is_good(disk)
            .then_some(())
            .ok_or(Status::WrongVolumeTable)
    }

    /// 163, then 170.
    fn found_on_good_table(self, disk: &impl Density, name: &Name) -> Result<u8, Status> {
        let found = self.find(disk, name).ok_or(Status::NotFound);
        if self.wrong(Fault::SearchBeforeTable) {
            found?;
        }
        self.require_good_table(disk)?;
        found
    }

    /// 167, then 200.
    fn require_unlocked_unheld(
        self,
        disk: &impl Density,
        table: &Table,
        slot: u8,
    ) -> Result<(), Status> {
        let held = held(disk, table, slot);
        if self.wrong(Fault::HeldBeforeLocked) && held {
            return Err(Status::Held);
        }
        if flag(disk, slot) & LOCKED != 0 {
            return Err(Status::Locked);
        }
        if held {
            return Err(Status::Held);
        }
        Ok(())
    }

    /// 164.
    fn require_clean_chain(self, disk: &impl Density, slot: u8) -> Result<(), Status> {
        self.chain_is_clean(disk, slot, false)
            .then_some(())
            .ok_or(Status::WrongChain)
    }
}
