//! Damage: bytes of the disk changed by hand.

use model::disk::{is_data_sector, DATA_SECTORS};
use model::image::{Kind, AGREEING, HEADER};

use crate::step::{Buffer, Call, Cio, Step};
use crate::world::{sector_and_byte, World};

use super::records::PUT_RECORD;
use super::Generator;

/// The sector of the volume table.
const TABLE: u16 = 360;
/// Where the free count and the map stand in it.
const FREE_COUNT: usize = 3;
const MAP: usize = 10;
/// Map bytes with the bits that are no data sector's.
const RESERVED: [(usize, u8); 3] = [(0, 0xf0), (45, 0xff), (46, 0x80)];

/// What can be damaged.
#[derive(Clone, Copy)]
enum Place {
    Header,
    TableByte,
    DataBit,
    ReservedBit,
    FreeCount,
    Flag,
    Count,
    LongestCount,
    First,
    Name,
    Tail,
    End,
    Anything,
}

/// How often each is.
const PLACES: &[(usize, Place)] = &[
    (16, Place::Header),
    (4, Place::TableByte),
    (16, Place::DataBit),
    (4, Place::ReservedBit),
    (4, Place::FreeCount),
    (16, Place::Flag),
    (10, Place::Count),
    (4, Place::LongestCount),
    (8, Place::First),
    (12, Place::Name),
    (28, Place::Tail),
    (20, Place::End),
    (4, Place::Anything),
];

impl Generator {
    pub(super) fn poke(&mut self, at: usize, value: u8) {
        let (sector, byte) = sector_and_byte(self.kind, at);
        let byte = byte as u8;
        self.planned.push_back(Step::Poke {
            sector,
            byte,
            value,
        });
    }

    fn poke_word(&mut self, at: usize, value: u16) {
        let [low, high] = value.to_le_bytes();
        self.poke(at, low);
        self.poke(at + 1, high);
    }

    /// A byte of the volume table, as a place in the image.
    fn table(&self, byte: usize) -> usize {
        self.kind.sector_start(TABLE) + byte
    }

    /// Plans one damage.
    pub(super) fn damage(&mut self, world: &World) {
        let place = self.random.weighted(PLACES);
        let slot = self.some_slot(world);
        match place {
            Place::Header => self.damage_header(world),
            Place::TableByte => {
                let last = self.kind.sector_size(TABLE) - 1;
                let byte = self.random.pick(&[0, 1, 2, 5, 9, 10, 99, 100, 127, last]);
                let value = self.random.byte();
                self.poke(self.table(byte), value);
            }
            Place::DataBit => {
                let sector = self.sector_of(world, slot);
                self.flip_bit(world, usize::from(sector % 720));
            }
            Place::ReservedBit => {
                let sector = self.random.pick(&[0, 1, 2, 3, 360, 361, 367, 368]);
                self.flip_bit(world, sector);
            }
            Place::FreeCount => {
                let change = self.random.pick(&[1, 65535, 256]);
                let at = self.table(FREE_COUNT);
                self.poke_word(at, world.word(at).wrapping_add(change));
            }
            Place::Flag => self.damage_flag(slot),
            Place::Count => self.damage_count(world, slot),
            Place::LongestCount => self.damage_count_before_line(world, slot),
            Place::First => {
                let sector = self.sector_of(world, slot);
                self.poke_word(self.kind.slot_start(slot) + 3, sector);
            }
            Place::Name => self.damage_name(world, slot),
            Place::Tail => self.damage_tail(world, slot),
            Place::End => self.damage_end(world, slot),
            Place::Anything => self.damage_anything(),
        }
    }

    fn damage_anything(&mut self) {
        let at = self.random.below(self.kind.length());
        let value = self.random.byte();
        self.poke(at, value);
    }

    /// Changes a byte of the header or its last nine, or gives it that of the other density.
    fn damage_header(&mut self, world: &World) {
        if self.kind == Kind::Raw {
            return self.damage_anything();
        }
        match self.random.below(5) {
            0 => {
                let other = match self.kind {
                    Kind::AtrSingle => Kind::AtrDouble,
                    _ => Kind::AtrSingle,
                };
                self.poke_header(other);
            }
            1..3 => {
                for place in AGREEING..HEADER {
                    let value = self.random.byte();
                    self.poke(place, value);
                }
            }
            _ => {
                let place = self.random.below(AGREEING);
                let bit = 1 << self.random.below(8);
                self.poke(place, world.image[place] ^ bit);
            }
        }
    }

    /// Makes the header agree again, by the call or by hand.
    pub(super) fn mend_header(&mut self) {
        if self.random.chance(500) {
            self.planned.push_back(Call::Header.into());
        } else {
            self.poke_header(self.kind);
        }
    }

    /// Sets the bytes of the header that are looked at.
    fn poke_header(&mut self, kind: Kind) {
        let header = kind.header().unwrap_or_default();
        for (place, value) in header.into_iter().take(AGREEING).enumerate() {
            self.poke(place, value);
        }
    }

    /// Changes one byte of a slot's name, or gives it another slot's.
    fn damage_name(&mut self, world: &World, slot: u8) {
        let at = self.kind.slot_start(slot) + 5;
        if self.random.chance(500) {
            let byte = self.random.pick(b" A1a.\x9b\0\xff");
            let place = self.random.below(11);
            return self.poke(at + place, byte);
        }
        let other = self.some_slot(world);
        for (place, byte) in world.slot_name(other).into_iter().enumerate() {
            self.poke(at + place, byte);
        }
    }

    /// Turns a map bit over and sets the free count to the number of ones.
    pub(super) fn flip_bit(&mut self, world: &World, sector: usize) {
        let (byte, bit) = (sector / 8, 0x80 >> (sector % 8));
        let at = self.table(MAP + byte);
        let bits = world.image[at];
        self.poke(at, bits ^ bit);
        let ones = ones(world) - u16::from(bits & bit != 0) + u16::from(bits & bit == 0);
        self.poke_word(self.table(FREE_COUNT), ones);
    }

    /// Makes the volume table good again, with the map as it is.
    pub(super) fn mend_table(&mut self, world: &World) {
        self.poke(self.table(0), 2);
        self.poke_word(self.table(1), DATA_SECTORS);
        let mut ones = ones(world);
        for (byte, bits) in RESERVED {
            let at = self.table(MAP + byte);
            let value = world.image[at];
            if value & bits != 0 {
                self.poke(at, value & !bits);
                ones -= (value & bits).count_ones() as u16;
            }
        }
        self.poke_word(self.table(FREE_COUNT), ones);
    }

    pub(super) fn damage_flag(&mut self, slot: u8) {
        const FLAGS: &[u8] = &[
            0x00, 0x01, 0x02, 0x20, 0x40, 0x41, 0x42, 0x42, 0x43, 0x43, 0x60, 0x62, 0x62, 0x63,
            0x80, 0x80, 0x81, 0xa2, 0xc0, 0xc2, 0xc3, 0xff,
        ];
        let flag = self.random.pick(FLAGS);
        self.poke(self.kind.slot_start(slot), flag);
    }

    fn damage_count(&mut self, world: &World, slot: u8) {
        let now = world.count(slot);
        let any = self.random.bits() as u16;
        let near = [
            now.wrapping_add(1),
            now.wrapping_sub(1),
            0,
            1,
            2,
            707,
            708,
            709,
            65535,
            any,
        ];
        let count = self.random.pick(&near);
        self.poke_word(self.kind.slot_start(slot) + 1, count);
    }

    /// Gives a file that is being written a count at the limit, and puts a line that may take it
    /// over that; another file any count.
    fn damage_count_before_line(&mut self, world: &World, slot: u8) {
        let Some((channel, slot)) = self.writing_channel(world) else {
            return self.damage_count(world, slot);
        };
        let count = self.random.pick(&[DATA_SECTORS - 1, DATA_SECTORS]);
        self.poke_word(self.kind.slot_start(slot) + 1, count);
        let length = self.near(self.kind.data());
        let put_record = Cio {
            buffer: Buffer::Fill(length, b'l'),
            ..Cio::new(channel, PUT_RECORD)
        };
        self.planned.push_back(Call::Cio(put_record).into());
    }

    /// Changes the slot number, the next sector or the count of a sector on a chain.
    pub(super) fn damage_tail(&mut self, world: &World, slot: u8) {
        let sector = self.sector_of(world, slot);
        if !is_data_sector(sector) {
            return self.damage_flag(slot);
        }
        let at = world.tail_start(sector);
        let [high, ..] = world.tail(sector);
        match self.random.below(4) {
            0 => {
                let other = self.random.pick(&[slot + 1, slot, 0, 63, world.flag(0)]);
                self.poke(at, other << 2 | high & 3);
            }
            1 | 2 => {
                let next = match self.random.below(3) {
                    0 => 0,
                    1 => self.sector_of(world, slot),
                    _ => self.some_sector(),
                };
                self.set_next(world, sector, next);
            }
            _ => {
                let full = self.kind.data() as u8;
                let counts = [0, 0, 1, 100, full - 1, full, full, full + 1, 128, 255];
                let used = self.random.pick(&counts);
                self.poke(at + 2, used);
            }
        }
    }

    /// Sets the next sector of a sector on a chain.
    pub(super) fn set_next(&mut self, world: &World, sector: u16, next: u16) {
        let at = world.tail_start(sector);
        let [high, low, _] = world.tail(sector);
        self.poke(at, high & !3 | (next >> 8) as u8 & 3);
        if low != next as u8 {
            self.poke(at + 1, next as u8);
        }
    }
}

/// The free count of the volume table, no more than a disk has data sectors.
pub(super) fn free_count(world: &World) -> usize {
    let at = world.kind.sector_start(TABLE) + FREE_COUNT;
    world.word(at).min(DATA_SECTORS).into()
}

/// The ones in the map.
fn ones(world: &World) -> u16 {
    let map = world.kind.sector_start(TABLE) + MAP;
    world.image[map..map + 90]
        .iter()
        .map(|bits| bits.count_ones() as u16)
        .sum()
}
