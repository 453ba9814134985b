//! Where gets end: at the end of a sector, and what follows it.

use std::fmt::{self, Display, Formatter};

use model::disk::is_data_sector;

use crate::step::{Call, Cio};
use crate::world::{succeeded, Reply, World};

/// What follows the sector at whose end a get or get record has left its channel.
#[derive(Clone, Copy, Debug, PartialEq, Eq, PartialOrd, Ord)]
pub enum Ending {
    /// Nothing: next sector 0.
    File,
    /// Nothing, though there are sectors left to enter.
    FileWithSectorsLeft,
    /// Nothing, behind a get of no bytes.
    FileWithNoBytes,
    /// A sector with count 0.
    EmptySector,
    /// A sector, though none is left to enter.
    SectorWithNoneLeft,
    /// Another sector.
    Sector,
}

impl Ending {
    pub const ALL: [Ending; 6] = [
        Ending::File,
        Ending::FileWithSectorsLeft,
        Ending::FileWithNoBytes,
        Ending::EmptySector,
        Ending::SectorWithNoneLeft,
        Ending::Sector,
    ];

    /// How a call has ended that left the world so: none if it is no get or get record, has not
    /// succeeded, or has left its channel within a sector.
    pub fn of(world: &World, call: &Call, reply: &Reply) -> Option<Ending> {
        let [_, _, sector, offset, left] = record_behind(world, call, reply)?;
        let at_end = is_data_sector(sector) && usize::from(offset) == world.used(sector);
        if !(at_end && succeeded(reply.answer)) {
            return None;
        }
        let next = world.next(sector);
        let no_bytes = reply.buffer.is_empty();
        match (next, left) {
            (0, _) if no_bytes => Some(Ending::FileWithNoBytes),
            _ if no_bytes => None,
            (0, 0) => Some(Ending::File),
            (0, _) => Some(Ending::FileWithSectorsLeft),
            (_, 0) => Some(Ending::SectorWithNoneLeft),
            _ if is_data_sector(next) && world.used(next) == 0 => Some(Ending::EmptySector),
            _ => Some(Ending::Sector),
        }
    }
}

/// The record of a get or get record behind it.
fn record_behind(world: &World, call: &Call, reply: &Reply) -> Option<[u16; 5]> {
    match call {
        Call::Cio(Cio {
            command: 5 | 7,
            channel,
            ..
        }) => world.record_of(*channel),
        Call::ThinGet { .. } => reply.words.as_slice().try_into().ok(),
        _ => None,
    }
}

impl Display for Ending {
    fn fmt(&self, out: &mut Formatter) -> fmt::Result {
        out.write_str(match self {
            Ending::File => "next sector 0",
            Ending::FileWithSectorsLeft => "next sector 0, sectors left to enter",
            Ending::FileWithNoBytes => "next sector 0, no bytes wanted",
            Ending::EmptySector => "an empty sector follows",
            Ending::SectorWithNoneLeft => "a sector follows, none left to enter",
            Ending::Sector => "a sector follows",
        })
    }
}
