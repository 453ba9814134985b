//! Random cases: lists of calls on fresh, filled and damaged disks.
//!
//! A case is made step by step. Each step is chosen with a look at the disk as it is, so that
//! most calls find something to do: a closed channel for an open, a name that is there, a sector
//! on a chain to damage. The rest go wrong on purpose, so that every status comes often.

mod calls;
mod damage;
mod ends;
mod names;
mod records;
mod set_up;

use std::collections::VecDeque;

use model::directory::SLOTS;
use model::disk::{is_data_sector, DATA_SECTORS};
use model::image::{is_served, Kind};
use model::volume::has_good_table;

use crate::random::Random;
use crate::step::{Call, Lengths, Step, TABLE};
use crate::world::{World, SPARE};

use ends::has_closed_file;

/// What kind of steps a case has.
struct Style {
    /// Nothing is changed by hand, and no call made that can harm a disk.
    sound: bool,
    /// Steps of a thousand that damage the disk.
    damage: usize,
    /// Steps of a thousand that set a channel's record.
    records: usize,
    /// Calls of a thousand that take any channel instead of one that suits them.
    misfits: usize,
    /// Names of a thousand that are refused.
    bad_names: usize,
}

/// How often a case has an image of each kind.
const KINDS: &[(usize, Kind)] = &[
    (40, Kind::Raw),
    (25, Kind::AtrSingle),
    (35, Kind::AtrDouble),
];

/// The steps of one case.
pub struct Generator {
    random: Random,
    style: Style,
    /// What the image of the case is.
    kind: Kind,
    /// Names that the case uses over and over.
    pool: Vec<Vec<u8>>,
    /// Steps already decided on.
    planned: VecDeque<Step>,
    /// Steps still to decide on.
    left: usize,
    /// Calls that still have the notch closed.
    protected: usize,
}

impl Generator {
    /// The case of a seed.
    pub fn new(seed: u64) -> Generator {
        let mut random = Random::new(seed);
        let style = match random.below(100) {
            0..30 => Style {
                sound: true,
                damage: 0,
                records: 0,
                misfits: 50,
                bad_names: 70,
            },
            30..75 => Style {
                sound: false,
                damage: 120,
                records: 40,
                misfits: 60,
                bad_names: 70,
            },
            _ => Style {
                sound: false,
                damage: 250,
                records: 150,
                misfits: 120,
                bad_names: 120,
            },
        };
        let left = random.between(30, 250);
        let kind = random.weighted(KINDS);
        let mut generator = Generator {
            random,
            style,
            kind,
            pool: Vec::new(),
            planned: VecDeque::new(),
            left,
            protected: 0,
        };
        if kind != Kind::Raw {
            generator.planned.push_back(Step::Fresh(kind));
        }
        for _ in 0..generator.random.between(3, 8) {
            let text = generator.legal_text();
            generator.pool.push(text);
        }
        generator.set_up();
        generator
    }

    /// The disk must stay sound in this case.
    pub fn is_sound(&self) -> bool {
        self.style.sound
    }

    /// The next step, for the world as it is.
    pub fn next(&mut self, world: &World) -> Option<Step> {
        if self.planned.is_empty() {
            self.left = self.left.checked_sub(1)?;
            self.plan(world);
        }
        self.planned.pop_front()
    }

    /// Decides on one step or a few that belong together.
    fn plan(&mut self, world: &World) {
        if let Some(number) = (0..8).find(|&number| world.record(number)[0] > 2) {
            if self.random.chance(400) {
                self.planned.push_back(Step::Channel {
                    number: number as u8,
                    record: [0; 5],
                });
                return;
            }
        }
        let served = is_served(world.image());
        if !served && self.random.chance(150) {
            self.mend_header();
        } else if served && !has_good_table(world.image()) && self.random.chance(300) {
            self.mend_table(world);
        } else if self.random.chance(self.style.damage) {
            self.damage(world);
        } else if self.random.chance(self.style.records) {
            self.set_records(world);
        } else if self.random.chance(10) {
            self.format_anew(world);
        } else if self.random.chance(25) && has_closed_file(world) {
            self.read_through(world);
        } else {
            let mut call = self.call(world);
            let lengths = self.lengths(&call);
            let whole = lengths.is_none_or(|lengths| lengths.image == self.kind.length());
            if !(served && whole) && self.random.chance(200) {
                call = self.refused_call();
            }
            let notch = self.notch(&call);
            self.planned.push_back(Step::Call {
                call,
                notch,
                lengths,
            });
        }
    }

    /// Mostly an open notch, so that files are made; a closed one for a single call, or for some
    /// calls that follow on each other.
    fn notch(&mut self, call: &Call) -> u8 {
        if self.protected == 0 && self.random.chance(5) {
            self.protected = self.random.between(2, 15);
        }
        let goes_on = self.protected > 0;
        self.protected = self.protected.saturating_sub(1);
        let often = match call {
            Call::Sector { .. } => 300,
            Call::ThinPut { .. } | Call::Header => 200,
            _ => 40,
        };
        if goes_on || self.random.chance(often) {
            self.random.pick(&[1, 1, 2, 128, 254, 255])
        } else {
            0
        }
    }

    /// Mostly the right lengths.
    fn lengths(&mut self, call: &Call) -> Option<Lengths> {
        let right = Lengths::of(self.kind);
        let mut lengths = right;
        let often = match call {
            Call::ThinGet { .. } | Call::ThinPut { .. } => 60,
            Call::Header => 300,
            _ => 25,
        };
        if self.random.chance(often) {
            lengths.image = self.wrong_length();
        }
        if self.random.chance(8) {
            lengths.table = self
                .random
                .pick(&[0, 5, 35, TABLE - 1, TABLE + 1, TABLE + 5]);
        }
        (lengths != right).then_some(lengths)
    }

    /// A length that the image mostly has not. One of another kind can be served, as another disk.
    fn wrong_length(&mut self) -> usize {
        let whole = self.kind.length();
        if !self.style.sound && self.random.chance(300) {
            let lengths = Kind::ALL.map(Kind::length);
            return self.random.pick(&lengths).min(whole + SPARE);
        }
        let others = [0, 1, 16, 128, whole - 128, whole - 1, whole + 1];
        self.random.pick(&others)
    }

    /// A slot: mostly one that a channel names or that is in use.
    fn some_slot(&mut self, world: &World) -> u8 {
        let named: Vec<u8> = (0..8)
            .map(|channel| world.record(channel))
            .filter(|record| record[0] != 0 && record[1] < u16::from(SLOTS))
            .map(|record| record[1] as u8)
            .collect();
        if !named.is_empty() && self.random.chance(450) {
            return self.random.pick(&named);
        }
        self.slot_that(world, |flag| flag != 0)
    }

    /// A slot with a flag as asked for, or now and then any.
    fn slot_that(&mut self, world: &World, wanted: impl Fn(u8) -> bool) -> u8 {
        let slots: Vec<u8> = (0..SLOTS)
            .filter(|&slot| wanted(world.flag(slot)))
            .collect();
        if slots.is_empty() || self.random.chance(80) {
            return self.random.below(SLOTS.into()) as u8;
        }
        self.random.pick(&slots)
    }

    /// A sector: mostly one on the chain of the slot.
    fn sector_of(&mut self, world: &World, slot: u8) -> u16 {
        let chain = chain(world, slot);
        if !chain.is_empty() && self.random.chance(800) {
            // The ends of a chain matter more than its middle.
            return match self.random.below(4) {
                0 => chain[0],
                1 => chain[chain.len() - 1],
                _ => self.random.pick(&chain),
            };
        }
        self.some_sector()
    }

    /// A number of bytes close to the one given.
    fn near(&mut self, bytes: usize) -> usize {
        self.random.between(bytes - 5, bytes + 5)
    }

    /// A sector's number: of any data sector, of one at a border, or of none.
    fn some_sector(&mut self) -> u16 {
        match self.random.below(10) {
            0..6 => self.random.between(4, 20) as u16,
            6 => self.random.between(4, 719) as u16,
            7 => self.random.pick(&[3, 4, 359, 360, 361, 368, 369, 719]),
            8 => self.random.pick(&[0, 1, 2, 720, 721, 1023]),
            _ => self.random.bits() as u16,
        }
    }

    /// A channel with a record as asked for, if there is one.
    fn channel_that(&mut self, world: &World, wanted: impl Fn([u16; 5]) -> bool) -> Option<u8> {
        let found = self.channel_with(world, |record| wanted(record).then_some(()));
        found.map(|(channel, ())| channel)
    }

    /// A channel of which something is told by its record, and what that is, if there is one.
    fn channel_with<T: Copy>(
        &mut self,
        world: &World,
        told: impl Fn([u16; 5]) -> Option<T>,
    ) -> Option<(u8, T)> {
        let channels: Vec<(u8, T)> = (0..8)
            .filter_map(|channel| Some((channel, told(world.record(channel.into()))?)))
            .collect();
        (!channels.is_empty()).then(|| self.random.pick(&channels))
    }

    /// Any record, mostly one that nearly fits the disk.
    fn some_record(&mut self, world: &World) -> [u16; 5] {
        let slot = self.some_slot(world);
        let sector = match self.random.below(3) {
            0 => 0,
            _ => self.sector_of(world, slot),
        };
        let offset = match self.random.below(8) {
            0..3 => 0,
            3..6 => self.random.between(0, self.kind.data()),
            6 => self.near(self.kind.data()),
            _ => self.random.pick(&[126, 254, 255, 256, 65535]),
        };
        let left = match self.random.below(6) {
            0..3 => usize::from(world.count(slot)),
            3 => self.random.between(0, 3),
            4 => self.random.between(0, 720),
            _ => self.random.pick(&[0, 707, 708, 65535]),
        };
        let slot = match self.random.below(12) {
            0 => self
                .random
                .pick(&[63, 64, 255, 256, 256 + u16::from(slot), 65535]),
            _ => slot.into(),
        };
        let kind = self.random.weighted(&[(10, 0), (45, 1), (45, 2)]);
        [kind, slot, sector, offset as u16, left as u16]
    }

    /// Sets the record of one channel, or opens all eight and then makes a call, mostly an open.
    fn set_records(&mut self, world: &World) {
        if self.random.chance(50) {
            for number in 0..8 {
                let mut record = self.some_record(world);
                record[0] = self.random.pick(&[1, 2]);
                self.planned.push_back(Step::Channel { number, record });
            }
            let call = if self.random.chance(500) {
                self.open(world)
            } else {
                self.call(world)
            };
            let notch = self.notch(&call);
            self.planned.push_back(Step::Call {
                call,
                notch,
                lengths: None,
            });
            return;
        }
        let number = self.random.below(8);
        let mut record = world.record(number);
        if record[0] == 0 || self.random.chance(500) {
            record = self.some_record(world);
        } else {
            let word = self.random.between(1, 4);
            record[word] = self.some_record(world)[word];
        }
        if self.random.chance(60) {
            record[0] = self.random.pick(&[0, 3, 4, 256, 257, 65535]);
        }
        self.planned.push_back(Step::Channel {
            number: number as u8,
            record,
        });
    }
}

/// The data sectors of a slot's chain, no more than a disk has.
fn chain(world: &World, slot: u8) -> Vec<u16> {
    chain_from(world, world.first(slot)).collect()
}

/// The data sectors that links lead to from one, no more than a disk has.
fn chain_from(world: &World, first: u16) -> impl Iterator<Item = u16> + '_ {
    let data_sector = |sector| is_data_sector(sector).then_some(sector);
    let next = move |&sector: &u16| data_sector(world.next(sector));
    std::iter::successors(data_sector(first), next).take(DATA_SECTORS.into())
}
