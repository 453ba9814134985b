//! What a list of calls works on, and how a step runs on one side.

use model::directory::Name;
use model::disk::SECTORS;
use model::image::Kind;
use model::sound::is_sound;

use crate::side::Side;
use crate::step::{Buffer, Call, Lengths, Step, TABLE};

/// Bytes behind the image and words behind the table, so that more than them can be lent, and
/// so that a side that writes behind what it is lent is noticed.
pub const SPARE: usize = 128;

/// An image and a table of channels.
#[derive(Clone)]
pub struct World {
    /// What the image was made as, whatever its header says now.
    pub kind: Kind,
    pub image: Vec<u8>,
    pub table: Vec<u16>,
}

/// The sector of a byte of the image and its place there; sector 0 is the header.
pub fn sector_and_byte(kind: Kind, at: usize) -> (u16, usize) {
    let starts = (1..=SECTORS).map(|sector| (sector, kind.sector_start(sector)));
    let (sector, start) = starts
        .rev()
        .find(|&(_, start)| start <= at)
        .unwrap_or_default();
    (sector, at - start)
}

/// What a call hands back, apart from image and table.
#[derive(Debug, PartialEq, Eq)]
pub struct Reply {
    /// Status + 256 * count, or what a showing answers.
    pub answer: u64,
    /// The lent buffer, the eleven bytes of a name included.
    pub buffer: Vec<u8>,
    /// The lent record of a thin call.
    pub words: Vec<u16>,
}

/// Whether a call with this answer did all that it was asked for: the status is 1, or 3 at a file's end.
pub fn succeeded(answer: u64) -> bool {
    matches!(answer % 256, 1 | 3)
}

impl World {
    /// A fresh disk, and all channels closed.
    pub fn fresh(kind: Kind) -> World {
        let mut image = kind.fresh();
        image.resize(kind.length() + SPARE, 0);
        World {
            kind,
            image,
            table: vec![0; TABLE + SPARE],
        }
    }

    /// The image without the bytes behind it.
    pub fn image(&self) -> &[u8] {
        &self.image[..self.kind.length()]
    }

    /// Whether disk and channels are sound, as the model tells.
    pub fn is_sound(&self) -> bool {
        is_sound(self.image(), &self.table[..TABLE])
    }

    /// A slot's flag byte.
    pub fn flag(&self, slot: u8) -> u8 {
        self.image[self.kind.slot_start(slot)]
    }

    /// A slot's count of sectors.
    pub fn count(&self, slot: u8) -> u16 {
        self.word(self.kind.slot_start(slot) + 1)
    }

    /// A slot's first sector.
    pub fn first(&self, slot: u8) -> u16 {
        self.word(self.kind.slot_start(slot) + 3)
    }

    /// A slot's eleven bytes of name and extension.
    pub fn slot_name(&self, slot: u8) -> Name {
        *self.image[self.kind.slot_start(slot) + 5..]
            .first_chunk()
            .expect("eleven bytes of the directory")
    }

    /// The last three bytes of a sector that is no boot sector.
    pub fn tail(&self, sector: u16) -> [u8; 3] {
        *self.image[self.tail_start(sector)..]
            .first_chunk()
            .expect("three bytes of the image")
    }

    /// The bytes in use of such a sector, as its last byte says, whether it holds so many or not.
    pub fn used(&self, sector: u16) -> usize {
        let [_, _, used] = self.tail(sector);
        used.into()
    }

    /// Those bytes, no more than the sector holds.
    pub fn bytes_in_use(&self, sector: u16) -> &[u8] {
        let used = self.used(sector).min(self.kind.data());
        &self.image[self.kind.sector_start(sector)..][..used]
    }

    /// The next sector of such a sector.
    pub fn next(&self, sector: u16) -> u16 {
        let [high, low, _] = self.tail(sector);
        u16::from_be_bytes([high & 3, low])
    }

    /// Where the last three bytes begin in the image.
    pub fn tail_start(&self, sector: u16) -> usize {
        self.kind.sector_start(sector) + self.kind.data()
    }

    /// A word of the image.
    pub fn word(&self, at: usize) -> u16 {
        u16::from_le_bytes([self.image[at], self.image[at + 1]])
    }

    /// The record of a channel.
    pub fn record(&self, channel: usize) -> [u16; 5] {
        *self.table[5 * channel..]
            .first_chunk()
            .expect("one of the eight channels")
    }

    /// The same of any number, if it is a channel's.
    pub fn record_of(&self, number: u8) -> Option<[u16; 5]> {
        (number < 8).then(|| self.record(number.into()))
    }

    /// Whether all eight channels are open.
    pub fn all_open(&self) -> bool {
        (0..8).all(|channel| matches!(self.record(channel)[0], 1 | 2))
    }

    /// Zeros behind the image, as the shell lends them, and as many as are asked for.
    fn clear_behind_image(&mut self, lent: usize) {
        let room = self.image.len().max(lent);
        self.image.resize(room, 0);
        self.image[self.kind.length()..].fill(0);
    }

    /// The same bytes as another.
    pub fn copy_from(&mut self, other: &World) {
        self.kind = other.kind;
        self.image.clone_from(&other.image);
        self.table.clone_from(&other.table);
    }

    /// Runs one step on a side. A step that is no call has no reply.
    pub fn run(&mut self, side: &dyn Side, step: &Step) -> Option<Reply> {
        match step {
            Step::Fresh(kind) => {
                *self = World::fresh(*kind);
                None
            }
            Step::Poke {
                sector,
                byte,
                value,
            } => {
                let start = match sector {
                    0 => 0,
                    _ => self.kind.sector_start(*sector),
                };
                self.image[start + usize::from(*byte)] = *value;
                None
            }
            Step::Channel { number, record } => {
                self.table[5 * usize::from(*number)..][..5].copy_from_slice(record);
                None
            }
            Step::Call {
                call,
                notch,
                lengths,
            } => Some(self.call(side, call, *notch, *lengths)),
        }
    }

    fn call(&mut self, side: &dyn Side, call: &Call, notch: u8, lengths: Option<Lengths>) -> Reply {
        let lengths = lengths.unwrap_or(Lengths::of(self.kind));
        self.clear_behind_image(lengths.image);
        let image = &mut self.image[..lengths.image];
        let table = &mut self.table[..lengths.table];
        let mut buffer = call.buffer().map(Buffer::bytes).unwrap_or_default();
        let mut words = call.words().to_vec();
        let answer = match *call {
            Call::Cio(ref cio) => side.cio(image, table, &mut cio.request(notch, &mut buffer)),
            Call::Recover { slot } => side.recover(image, notch, slot),
            Call::Sector {
                device,
                unit,
                command,
                sector,
                ..
            } => side.sector(image, notch, device, unit, command, sector, &mut buffer),
            Call::Show { slot, sector } => side.show(image, slot, sector),
            Call::ThinGet { .. } => side.thin_get(image, &mut words, &mut buffer),
            Call::ThinPut { .. } => side.thin_put(image, notch, &mut words, &mut buffer),
            Call::Name { ref name, .. } => side.name(name, &mut buffer),
            Call::Header => side.header(image, notch),
        };
        Reply {
            answer,
            buffer,
            words,
        }
    }
}
