//! The ends of sectors and of files: gets that come to one, and files that are made to end otherwise.

use model::directory::{FILE, LOCKED, SLOTS};
use model::disk::is_data_sector;

use crate::step::{Buffer, Call, Cio, Step};
use crate::world::World;

use super::names::slot_text;
use super::records::{END_OF_LINE, GET_RECORD};
use super::{chain_from, Generator};

/// The commands' numbers.
const OPEN: u8 = 3;
pub(super) const GET: u8 = 7;
const CLOSE: u8 = 12;

/// Next sectors of which only the high bits tell that they are not 0.
const LOW_BITS_ZERO: [u16; 2] = [256, 512];

/// The sectors from a channel's place on among which one is chosen to end a get.
const NEAR: usize = 6;

/// Where a get goes on: the data sector that a reading record is on, or its slot's first before any,
/// and the bytes of it already handed out.
#[derive(Clone, Copy)]
pub(super) struct ReadingPlace {
    sector: u16,
    offset: usize,
}

impl ReadingPlace {
    /// The place of a record, if it has one.
    pub(super) fn of(world: &World, record: [u16; 5]) -> Option<ReadingPlace> {
        let [_, slot, sector, offset, _] = record;
        let (sector, offset) = match sector {
            0 if slot < u16::from(SLOTS) => (world.first(slot as u8), 0),
            _ => (sector, offset.into()),
        };
        is_data_sector(sector).then_some(ReadingPlace { sector, offset })
    }

    /// The bytes not yet handed out of its sector.
    fn rest_of_sector(self, world: &World) -> usize {
        world.used(self.sector).saturating_sub(self.offset)
    }

    /// The bytes from there to the end of the chain.
    pub(super) fn bytes_ahead(self, world: &World) -> impl Iterator<Item = &u8> {
        chain_from(world, self.sector)
            .flat_map(|sector| world.bytes_in_use(sector))
            .skip(self.offset)
    }
}

impl Generator {
    /// The place for the bytes of a get by a record: as many as are left of its sector or of its file, or
    /// nearly, or any number.
    pub(super) fn buffer_from(&mut self, world: &World, record: Option<[u16; 5]>) -> Buffer {
        let place = record.and_then(|record| ReadingPlace::of(world, record));
        let length = match (self.random.below(20), place) {
            (0..2, Some(place)) => place.rest_of_sector(world),
            (2..8, Some(place)) => {
                let rest = place.bytes_ahead(world).count().max(1);
                self.random.pick(&[rest, rest, rest + 1, rest - 1])
            }
            _ => return self.get_buffer(),
        };
        Buffer::Fill(length, self.random.byte())
    }

    /// Plans to open a file and to get it in two parts, then one byte more.
    pub(super) fn read_through(&mut self, world: &World) {
        let closed = self.channel_that(world, |[kind, ..]| kind == 0);
        let channel = closed.unwrap_or_default();
        let slot = self.slot_that(world, is_closed_file);
        let name = [b"D:", &slot_text(world, slot)[..], b"\x9b"].concat();
        let open = Cio {
            direction: 4,
            name,
            ..Cio::new(channel, OPEN)
        };
        self.planned.push_back(Call::Cio(open).into());
        let place = ReadingPlace::of(world, [1, slot.into(), 0, 0, 0]);
        let length = place.map_or(0, |place| place.bytes_ahead(world).count());
        let first = self.random.below(length + 1);
        for length in [first, length - first, 1] {
            let command = self.random.pick(&[GET, GET, GET_RECORD]);
            let buffer = Buffer::Fill(length, self.random.byte());
            self.planned.push_back(get(channel, command, buffer).into());
        }
        if self.random.chance(700) {
            self.planned
                .push_back(Call::Cio(Cio::new(channel, CLOSE)).into());
        }
    }

    /// A reading channel that has bytes ahead, and its place, if there is one.
    pub(super) fn reading_channel(&mut self, world: &World) -> Option<(u8, ReadingPlace)> {
        self.channel_with(world, |record| {
            let place = ReadingPlace::of(world, record).filter(|_| record[0] == 1)?;
            place.bytes_ahead(world).next().map(|_| place)
        })
    }

    /// Changes how a file goes on that is being read, and gets all bytes up to there; where no file is
    /// read, changes a sector of the slot's.
    pub(super) fn damage_end(&mut self, world: &World, slot: u8) {
        let Some((channel, place)) = self.reading_channel(world) else {
            return self.damage_tail(world, slot);
        };
        let chain: Vec<u16> = chain_from(world, place.sector).take(NEAR + 1).collect();
        let last = self.random.below(chain.len().min(NEAR));
        let record = self.change_end(world, channel, &chain, last);
        let got = chain[..=last].iter();
        let bytes = got.flat_map(|&sector| world.bytes_in_use(sector));
        let length = bytes.skip(place.offset).count();
        self.get_through(world, channel, record, chain[last], length);
    }

    /// Changes a sector of the chain ahead of a channel, the one that follows it, or the sectors that
    /// the channel has left to enter; answers its record behind that.
    fn change_end(&mut self, world: &World, channel: u8, chain: &[u16], last: usize) -> [u16; 5] {
        let mut record = world.record(channel.into());
        match (self.random.below(8), chain.get(last + 1)) {
            (0 | 1, Some(&next)) => self.poke(world.tail_start(next) + 2, 0),
            (2, _) => {
                let next = self.random.pick(&LOW_BITS_ZERO);
                self.set_next(world, chain[last], next);
            }
            (3 | 4, _) => {
                let entered = last + usize::from(record[2] == 0);
                record[4] = self.random.pick(&[entered, entered + 1, 65535]) as u16;
                self.planned.push_back(Step::Channel {
                    number: channel,
                    record,
                });
            }
            (5, _) => self.flip_bit(world, chain[last].into()),
            (6, _) if record[1] < SLOTS.into() => self.damage_flag(record[1] as u8),
            _ => self.set_next(world, chain[last], 0),
        }
        record
    }

    /// Plans to get the bytes from a channel's place through the last of a sector, so many: by a get, by
    /// a thin get with the channel's record, or as a line that ends there.
    fn get_through(
        &mut self,
        world: &World,
        channel: u8,
        record: [u16; 5],
        last: u16,
        length: usize,
    ) {
        let buffer = Buffer::Fill(length, self.random.byte());
        let call = match self.random.below(3) {
            0 => Call::ThinGet {
                words: record.to_vec(),
                buffer,
            },
            1 => get(channel, GET, buffer),
            _ => {
                self.end_line(world, last);
                get(channel, GET_RECORD, buffer)
            }
        };
        self.planned.push_back(call.into());
    }

    /// Makes the last byte of a sector the end of a line.
    fn end_line(&mut self, world: &World, sector: u16) {
        if let Some(last) = world.bytes_in_use(sector).len().checked_sub(1) {
            self.poke(world.kind.sector_start(sector) + last, END_OF_LINE);
        }
    }
}

/// Whether this is the flag of a file that is not open for output.
fn is_closed_file(flag: u8) -> bool {
    flag & !LOCKED == FILE
}

/// Whether the disk has a file to read.
pub(super) fn has_closed_file(world: &World) -> bool {
    (0..SLOTS).any(|slot| is_closed_file(world.flag(slot)))
}

/// A get or get record.
fn get(channel: u8, command: u8, buffer: Buffer) -> Call {
    Call::Cio(Cio {
        buffer,
        ..Cio::new(channel, command)
    })
}
