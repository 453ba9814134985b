//! Calls of every kind.

use model::directory::{DELETED, SLOTS};
use model::disk::SECTORS;

use crate::step::{Buffer, Call, Cio};
use crate::world::World;

use super::ends::GET;
use super::records::{GET_RECORD, PUT_RECORD};
use super::Generator;

/// Kinds of calls.
#[derive(Clone, Copy, PartialEq, Eq)]
enum Kind {
    OpenRead,
    OpenWrite,
    OpenOther,
    GetRecord,
    Get,
    PutRecord,
    Put,
    Close,
    Status,
    Rename,
    Delete,
    Lock,
    Unlock,
    Format,
    Other,
    Recover,
    Sector,
    Show,
    ThinGet,
    ThinPut,
    Name,
    Header,
}

const KINDS: &[(usize, Kind)] = &[
    (90, Kind::OpenRead),
    (110, Kind::OpenWrite),
    (16, Kind::OpenOther),
    (90, Kind::GetRecord),
    (130, Kind::Get),
    (90, Kind::PutRecord),
    (130, Kind::Put),
    (90, Kind::Close),
    (35, Kind::Status),
    (60, Kind::Rename),
    (80, Kind::Delete),
    (30, Kind::Lock),
    (30, Kind::Unlock),
    (8, Kind::Format),
    (20, Kind::Other),
    (80, Kind::Recover),
    (30, Kind::Sector),
    (25, Kind::Show),
    (35, Kind::ThinGet),
    (35, Kind::ThinPut),
    (25, Kind::Name),
    (15, Kind::Header),
];

impl Generator {
    /// A call that suits the world, or nearly.
    pub(super) fn call(&mut self, world: &World) -> Call {
        let kind = self.random.weighted(KINDS);
        if self.style.sound && matches!(kind, Kind::ThinGet | Kind::ThinPut) {
            return self.call(world);
        }
        let kind = if self.random.chance(850) {
            possible(world, kind)
        } else {
            kind
        };
        match kind {
            Kind::Recover => Call::Recover {
                slot: self.deleted_slot(world),
            },
            Kind::Sector => self.sector_call(world),
            Kind::Show => self.showing(world),
            Kind::ThinGet => {
                let words = self.thin_record(world, 1);
                let record = words.as_slice().try_into().ok();
                Call::ThinGet {
                    buffer: self.buffer_from(world, record),
                    words,
                }
            }
            Kind::ThinPut => {
                let words = self.thin_record(world, 2);
                Call::ThinPut {
                    words,
                    buffer: self.put_buffer(),
                }
            }
            Kind::Name => self.name_call(world),
            Kind::Header => Call::Header,
            _ => self.cio(world, kind),
        }
    }

    /// A call that is refused whatever the disk: where the image is refused too, the answer shows
    /// which comes first.
    pub(super) fn refused_call(&mut self) -> Call {
        let buffer = Buffer::Fill(1, 0);
        match self.random.below(5) {
            0 => Call::Recover { slot: 64 },
            1 => Call::Sector {
                device: 0x30,
                unit: 1,
                command: 0x52,
                sector: 0,
                buffer,
            },
            2 => Call::ThinGet {
                words: vec![0; 5],
                buffer,
            },
            3 => Call::ThinPut {
                words: vec![0; 5],
                buffer,
            },
            _ => Call::Cio(Cio {
                direction: 4,
                buffer,
                ..Cio::new(8, self.random.byte())
            }),
        }
    }

    /// Plans a format behind closes of all open channels.
    pub(super) fn format_anew(&mut self, world: &World) {
        let name = self.device_alone(world);
        for channel in (0..8).filter(|&channel| world.record(channel.into())[0] != 0) {
            let close = Cio::new(channel, self.command(Kind::Close));
            self.planned.push_back(Call::Cio(close).into());
        }
        let format = Cio {
            name,
            ..Cio::new(0, self.command(Kind::Format))
        };
        self.planned.push_back(Call::Cio(format).into());
    }

    /// An open, in any direction.
    pub(super) fn open(&mut self, world: &World) -> Call {
        let kind = self
            .random
            .pick(&[Kind::OpenRead, Kind::OpenWrite, Kind::OpenOther]);
        self.cio(world, kind)
    }

    /// A CIO command. What it does not need is random.
    fn cio(&mut self, world: &World, kind: Kind) -> Call {
        let command = self.command(kind);
        let direction = match kind {
            Kind::OpenRead => 4,
            Kind::OpenWrite => 8,
            _ => self.random.pick(&[0, 4, 5, 6, 8, 9, 12, 255]),
        };
        let name = match kind {
            Kind::Rename => self.two_names(world),
            Kind::Format => self.device_alone(world),
            Kind::GetRecord | Kind::Get | Kind::PutRecord | Kind::Put | Kind::Close
                if self.random.chance(900) =>
            {
                Vec::new()
            }
            Kind::OpenWrite => self.name(world, 400),
            _ => self.name(world, 750),
        };
        let channel = self.channel(world, kind);
        let buffer = match kind {
            Kind::GetRecord => self.line_buffer(world, channel),
            Kind::Get => self.buffer_from(world, world.record_of(channel)),
            Kind::PutRecord => self.line_to_put(world, channel),
            Kind::Put => self.put_buffer(),
            _ if self.random.chance(900) => Buffer::Fill(0, 0),
            _ => self.get_buffer(),
        };
        Call::Cio(Cio {
            direction,
            name,
            buffer,
            ..Cio::new(channel, command)
        })
    }

    /// The command's number, or one that is not listed.
    fn command(&mut self, kind: Kind) -> u8 {
        const NOT_LISTED: &[u8] = &[0, 1, 2, 4, 6, 8, 10, 14, 31, 34, 37, 38, 39, 40, 253, 255];
        match kind {
            Kind::OpenRead | Kind::OpenWrite | Kind::OpenOther => 3,
            Kind::GetRecord => GET_RECORD,
            Kind::Get => GET,
            Kind::PutRecord => PUT_RECORD,
            Kind::Put => 11,
            Kind::Close => 12,
            Kind::Status => 13,
            Kind::Rename => 32,
            Kind::Delete => 33,
            Kind::Lock => 35,
            Kind::Unlock => 36,
            Kind::Format => 254,
            _ => self.random.pick(NOT_LISTED),
        }
    }

    /// A channel in the state that the command needs, for a get mostly one that is not at its file's
    /// end; or now and then any.
    fn channel(&mut self, world: &World, kind: Kind) -> u8 {
        let suits = |record: [u16; 5]| match kind {
            Kind::GetRecord | Kind::Get => record[0] == 1,
            Kind::PutRecord | Kind::Put => record[0] == 2,
            Kind::Close => record[0] != 0,
            _ => record[0] == 0,
        };
        if matches!(kind, Kind::GetRecord | Kind::Get) && self.random.chance(600) {
            if let Some((channel, _)) = self.reading_channel(world) {
                return channel;
            }
        }
        let suited = self.channel_that(world, suits);
        if let Some(channel) = suited.filter(|_| !self.random.chance(self.style.misfits)) {
            return channel;
        }
        if self.random.chance(150) {
            return self.random.pick(&[8, 9, 16, 128, 255]);
        }
        self.random.below(8) as u8
    }

    pub(super) fn get_buffer(&mut self) -> Buffer {
        let length = match self.random.below(100) {
            0..50 => self.short_transfer(),
            50..75 => self.random.between(1, 400),
            75..96 => self.random.between(1, 3000),
            _ => self.kind.length(),
        };
        Buffer::Fill(length, self.random.byte())
    }

    pub(super) fn put_buffer(&mut self) -> Buffer {
        let length = match self.random.below(100) {
            0..50 => self.short_transfer(),
            50..80 => self.random.between(1, 400),
            80..95 => self.random.between(1, 3000),
            95..98 => self.random.between(1, 40_000),
            _ => self.kind.length(),
        };
        if length <= 3000 && self.random.chance(800) {
            Buffer::Bytes(self.file_bytes(length))
        } else {
            Buffer::Fill(length, self.random.byte())
        }
    }

    /// The length of a transfer of no bytes, of a few, or of about one or two sectors.
    fn short_transfer(&mut self) -> usize {
        match self.random.below(50) {
            0..6 => 0,
            6..25 => self.random.between(1, 5),
            25..40 => self.near(self.kind.data()),
            _ => self.near(2 * self.kind.data()),
        }
    }

    fn deleted_slot(&mut self, world: &World) -> u8 {
        match self.random.below(20) {
            0 => self.random.pick(&[63, 64, 65, 128, 255]),
            1..3 => self.some_slot(world),
            _ => self.slot_that(world, |flag| flag & DELETED != 0),
        }
    }

    fn sector_call(&mut self, world: &World) -> Call {
        let device = self.random.weighted(&[(95, 0x31), (3, 0x30), (2, 0)]);
        let unit = self.random.weighted(&[(95, 1), (3, 2), (2, 0)]);
        let commands: &[(usize, u8)] = if self.style.sound {
            &[(90, 0x52), (5, 0x51), (5, 0x21)]
        } else {
            &[
                (30, 0x52),
                (30, 0x50),
                (30, 0x57),
                (4, 0x51),
                (3, 0x53),
                (3, 0),
            ]
        };
        let command = self.random.weighted(commands);
        let sector = match self.random.below(10) {
            0..5 => {
                let slot = self.some_slot(world);
                self.sector_of(world, slot)
            }
            5 => self.random.pick(&[0, 1, 2, 3, 4, 720, 721]),
            6 => self.random.between(360, 368) as u16,
            _ => self.random.between(1, 720) as u16,
        };
        let buffer = Buffer::Bytes(self.sector_bytes(world, sector));
        Call::Sector {
            device,
            unit,
            command,
            sector,
            buffer,
        }
    }

    /// Bytes for a sector call: mostly those that the sector has, but for one.
    fn sector_bytes(&mut self, world: &World, sector: u16) -> Vec<u8> {
        let size = self.kind.sector_size(sector);
        let other = 128 + 256 - size;
        let lengths = [(88, size), (3, size - 1), (3, size + 1), (2, 0), (4, other)];
        let length = self.random.weighted(&lengths);
        let mut bytes = self.random.bytes(length);
        if length == size && (1..=SECTORS).contains(&sector) && self.random.chance(700) {
            let at = self.kind.sector_start(sector);
            bytes.copy_from_slice(&world.image[at..at + size]);
            let place = self.random.pick(&[0, 3, 64, 124, 127, size - 4, size - 1]);
            bytes[place] = self.random.byte();
        }
        bytes
    }

    fn showing(&mut self, world: &World) -> Call {
        let slot = self.some_slot(world);
        let sector = self.sector_of(world, slot);
        let slot = match self.random.below(10) {
            0 => self.random.pick(&[0, 63, 64, slot + 64, 255]),
            _ => slot,
        };
        Call::Show { slot, sector }
    }

    /// A record for a thin call that wants the kind: a channel's of the table, or any.
    fn thin_record(&mut self, world: &World, kind: u16) -> Vec<u16> {
        let records: Vec<[u16; 5]> = (0..8)
            .map(|channel| world.record(channel))
            .filter(|record| record[0] == kind)
            .collect();
        let mut record = if !records.is_empty() && self.random.chance(500) {
            self.random.pick(&records)
        } else {
            self.some_record(world)
        };
        record[0] = self.random.weighted(&[(75, kind), (10, 3 - kind), (15, 0)]);
        let mut words = record.to_vec();
        match self.random.below(100) {
            0 => words.truncate(self.random.below(5)),
            1 => words.push(0),
            2 => words[0] = self.random.pick(&[3, 256, 65535]),
            _ => (),
        }
        words
    }

    fn name_call(&mut self, world: &World) -> Call {
        let name = self.name(world, 300);
        let length = self.random.weighted(&[(95, 11), (2, 10), (2, 12), (1, 0)]);
        Call::Name {
            name,
            eleven: Buffer::Bytes(self.random.bytes(length)),
        }
    }
}

/// The kind of call, or where it would find nothing to do, the one that makes it possible.
fn possible(world: &World, kind: Kind) -> Kind {
    let has_channel = |wanted| (0..8).any(|channel| world.record(channel)[0] == wanted);
    let has_deleted = || (0..SLOTS).any(|slot| world.flag(slot) & DELETED != 0);
    let has_file = || world.flag(0) != 0;
    match kind {
        Kind::GetRecord | Kind::Get if !has_channel(1) => Kind::OpenRead,
        Kind::PutRecord | Kind::Put if !has_channel(2) => Kind::OpenWrite,
        Kind::Recover if !has_deleted() => Kind::Delete,
        Kind::Rename | Kind::Delete | Kind::Lock | Kind::Unlock | Kind::OpenRead if !has_file() => {
            Kind::OpenWrite
        }
        kind => kind,
    }
}
