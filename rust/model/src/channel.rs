//! "The channels": closed, reading or writing, and the words that stand for them.
//!
//! In the C interface a channel is a record of five words (kind, slot, sector, offset, sectors
//! yet to enter), a table is eight of them. Kind 0 is closed, 1 reading, 2 writing (slot and last
//! sector). Any words may be lent, so a slot or a sector can be any number; a kind above 2 is
//! refused with 255 before everything else.

use crate::directory::{flag, OUTPUT};
use crate::disk::Density;
use crate::fault::{Fault, Variant};
use crate::status::Status;
use crate::Model;

/// The words of one channel.
pub type Record = [u16; 5];
/// Channels of a table.
pub const CHANNELS: usize = 8;
/// The words of all channels.
pub type Table = [Record; CHANNELS];

/// A reading channel. The sector is the last one entered, 0 before any; the offset counts its
/// bytes already handed out.
#[derive(Clone, Copy, Debug, PartialEq, Eq)]
pub struct Reading {
    pub slot: u16,
    pub sector: u16,
    pub offset: u16,
    /// Sectors yet to enter.
    pub left: u16,
}

/// A writing channel, with its file's last sector.
#[derive(Clone, Copy, Debug, PartialEq, Eq)]
pub struct Writing {
    pub slot: u16,
    pub last: u16,
}

/// The state of a channel.
#[derive(Clone, Copy, Debug, PartialEq, Eq)]
pub enum Channel {
    Closed,
    Reading(Reading),
    Writing(Writing),
}

impl Channel {
    /// What the words of a record say. Words that a kind does not use are not looked at.
    pub fn of([kind, slot, sector, offset, left]: Record) -> Option<Channel> {
        match kind {
            0 => Some(Channel::Closed),
            1 => Some(Channel::Reading(Reading {
                slot,
                sector,
                offset,
                left,
            })),
            2 => Some(Channel::Writing(Writing { slot, last: sector })),
            _ => None,
        }
    }

    /// The record of a channel that a call has changed.
    pub fn record(self) -> Record {
        match self {
            Channel::Closed => [0; 5],
            Channel::Reading(Reading {
                slot,
                sector,
                offset,
                left,
            }) => [1, slot, sector, offset, left],
            Channel::Writing(Writing { slot, last }) => [2, slot, last, 0, 0],
        }
    }

    /// The channel as one to get from: 133, 131.
    pub(crate) fn reading(&mut self) -> Result<&mut Reading, Status> {
        match self {
            Channel::Closed => Err(Status::ChannelClosed),
            Channel::Writing(_) => Err(Status::WriteOnly),
            Channel::Reading(reading) => Ok(reading),
        }
    }

    /// The channel as one to put to: 133, 135.
    pub(crate) fn writing(&mut self) -> Result<&mut Writing, Status> {
        match self {
            Channel::Closed => Err(Status::ChannelClosed),
            Channel::Reading(_) => Err(Status::ReadOnly),
            Channel::Writing(writing) => Ok(writing),
        }
    }
}

/// The lent words as a table: eight records, each of a known kind.
pub(crate) fn as_table(words: &mut [u16]) -> Result<&mut Table, Status> {
    let (records, []) = words.as_chunks_mut() else {
        return Err(Status::Malformed);
    };
    let table: &mut Table = records.try_into().map_err(|_| Status::Malformed)?;
    if table.iter().any(|record| record[0] > 2) {
        return Err(Status::Malformed);
    }
    Ok(table)
}

/// The lent words as one record, and the channel it stands for.
pub(crate) fn as_record(words: &mut [u16]) -> Result<(&mut Record, Channel), Status> {
    let record: &mut Record = words.try_into().map_err(|_| Status::Malformed)?;
    let channel = Channel::of(*record).ok_or(Status::Malformed)?;
    Ok((record, channel))
}

/// Does a channel of the table name the slot?
pub(crate) fn named(table: &Table, slot: u8) -> bool {
    table
        .iter()
        .any(|record| record[0] != 0 && record[1] == u16::from(slot))
}

/// A slot is *held* when a channel names it or its flag has `$01`.
pub(crate) fn held(disk: &impl Density, table: &Table, slot: u8) -> bool {
    flag(disk, slot) & OUTPUT != 0 || named(table, slot)
}

impl<V: Variant> Model<V> {
    /// Writes a channel back. One that is as it was keeps all five words.
    pub(crate) fn store(self, record: &mut Record, before: Channel, after: Channel) {
        if after == before && !self.wrong(Fault::UnusedWordsCleared) {
            return;
        }
        let words = *record;
        *record = after.record();
        if self.wrong(Fault::ClosedKeepsWords) && after == Channel::Closed {
            record[1..].copy_from_slice(&words[1..]);
        }
    }
}
