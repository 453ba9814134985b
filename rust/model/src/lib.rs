//! A second program for the rules of timing-desk disks.
//!
//! The paper *Timing-desk disks: what is served, and the precise rules* says what every call on
//! a disk image does; of *Later customer requests* P1 adds lines of text, P2 a status at a file's end,
//! P4 the write-protect notch, P5 lets a blank end a name, P8 takes the row 161 out and P13 adds ATR
//! images and double density. This crate does what they say, in plain Rust, written from them and from
//! nothing else. It shares no code with the proved library, which makes it of use twice: the two are
//! compared byte for byte on many disks (package `compare`), and it is the measure for the library's
//! speed.
//!
//! The modules follow the paper's sections:
//!
//! | Module | Section |
//! |---|---|
//! | [`image`] | request P13: raw and ATR images, their headers |
//! | [`disk`], [`volume`], [`directory`], [`file`](mod@file) | The disk: its sectors, volume table, directory, file sectors and chains |
//! | [`sound`] | The disk: when a disk with its channels is *sound* |
//! | [`channel`] | The channels |
//! | [`names`] | Commands: names; request P5: names that end in a blank |
//! | `commands`, `transfer` | Commands, status numbers and their order |
//! | `records` | request P1: lines of text |
//! | `end_reached` | request P2: the desk waits for a 3 |
//! | `recovery`, `sectors`, `showing` | Recovery, Sectors, Showing |
//! | `notch` | request P4: the write-protect notch |
//! | [`status`] | the status numbers |
//!
//! There are eight calls, those of the C interface with slices in place of pointers and lengths,
//! and with a [`Request`] in place of all that a CIO command asks for:
//! [`cio`], [`recover`], [`sector`], [`show`], [`thin_get`], [`thin_put`], [`name`], [`header`].
//! Each answers one number, status + 256 * count.
//!
//! ```
//! use model::{cio, Request};
//!
//! let mut image = vec![0; 92_160];
//! let mut table = [0; 40];
//! let mut format = Request::new(0, 254).name(b"D:\x9b");
//! assert_eq!(cio(&mut image, &mut table, &mut format), 1);
//! let mut open = Request::new(0, 3).direction(8).name(b"D:A\x9b");
//! assert_eq!(cio(&mut image, &mut table, &mut open), 1);
//! let mut bytes = *b"HELLO";
//! let mut put = Request::new(0, 11).buffer(&mut bytes);
//! assert_eq!(cio(&mut image, &mut table, &mut put), 1 + 256 * 5);
//! ```
//!
//! [`Model`] has a parameter that makes it wrong in one chosen way; see [`fault`].

#![forbid(unsafe_code)]

pub mod channel;
mod commands;
pub mod directory;
pub mod disk;
mod end_reached;
pub mod fault;
pub mod file;
pub mod image;
pub mod names;
mod notch;
mod records;
mod recovery;
mod sectors;
mod showing;
pub mod sound;
pub mod status;
mod transfer;
pub mod volume;

pub use commands::Request;
use fault::{Right, Variant};
use status::number;

/// The eight calls. `Model(Right)` does what the paper says; `Model(fault)` makes one of the
/// mistakes of [`Fault`](fault::Fault).
#[derive(Clone, Copy)]
pub struct Model<V: Variant>(pub V);

/// The model that does what the paper says.
pub const RIGHT: Model<Right> = Model(Right);

/// The calls. Each is made as a call, as that of a library is, also where the compiler sees its inside: the benchmark measures both sides alike.
impl<V: Variant> Model<V> {
    /// Carries out one CIO command on a channel of the table.
    #[inline(never)]
    pub fn cio(self, image: &mut [u8], table: &mut [u16], request: &mut Request) -> u64 {
        number(self.run_cio(image, table, request))
    }

    /// Takes back a deleted file; the count is the number of its sectors.
    #[inline(never)]
    pub fn recover(self, image: &mut [u8], notch: u8, slot: u8) -> u64 {
        number(self.run_recover(image, notch, slot))
    }

    /// Reads (`$52`) or writes (`$50`, `$57`) one sector.
    #[inline(never)]
    #[allow(
        clippy::too_many_arguments,
        reason = "those of the C interface, so that both sides are measured alike"
    )]
    pub fn sector(
        self,
        image: &mut [u8],
        notch: u8,
        device: u8,
        unit: u8,
        command: u8,
        sector: u16,
        buffer: &mut [u8],
    ) -> u64 {
        let request = sectors::Request {
            notch,
            device,
            unit,
            command,
            sector,
        };
        number(self.run_sector(image, request, buffer))
    }

    /// Where the bytes in use of one sector are: 1, and above its eight bits the offset in the
    /// image * 1024 + the length; or 0.
    #[inline(never)]
    pub fn show(self, image: &[u8], slot: u8, sector: u16) -> u64 {
        match self.shown(image, slot, sector) {
            Some(part) => 1 + 256 * (1024 * part.start + part.len()) as u64,
            None => 0,
        }
    }

    /// A get that advances one lent channel record of five words.
    #[inline(never)]
    pub fn thin_get(self, image: &[u8], words: &mut [u16], buffer: &mut [u8]) -> u64 {
        number(self.run_thin_get(image, words, buffer))
    }

    /// A put that advances one lent channel record of five words.
    #[inline(never)]
    pub fn thin_put(self, image: &mut [u8], notch: u8, words: &mut [u16], buffer: &[u8]) -> u64 {
        number(self.run_thin_put(image, notch, words, buffer))
    }

    /// Takes a name apart into its eleven padded bytes, or answers its refusal; the count is the
    /// place of its ending byte.
    #[inline(never)]
    pub fn name(self, name: &[u8], eleven: &mut [u8]) -> u64 {
        number(self.run_name(name, eleven))
    }

    /// Writes the header of an ATR image.
    #[inline(never)]
    pub fn header(self, image: &mut [u8], notch: u8) -> u64 {
        number(self.run_header(image, notch))
    }
}

/// [`Model::cio`] without a fault.
pub fn cio(image: &mut [u8], table: &mut [u16], request: &mut Request) -> u64 {
    RIGHT.cio(image, table, request)
}

/// [`Model::recover`] without a fault.
pub fn recover(image: &mut [u8], notch: u8, slot: u8) -> u64 {
    RIGHT.recover(image, notch, slot)
}

/// [`Model::sector`] without a fault.
pub fn sector(
    image: &mut [u8],
    notch: u8,
    device: u8,
    unit: u8,
    command: u8,
    sector: u16,
    buffer: &mut [u8],
) -> u64 {
    RIGHT.sector(image, notch, device, unit, command, sector, buffer)
}

/// [`Model::show`] without a fault.
pub fn show(image: &[u8], slot: u8, sector: u16) -> u64 {
    RIGHT.show(image, slot, sector)
}

/// [`Model::thin_get`] without a fault.
pub fn thin_get(image: &[u8], words: &mut [u16], buffer: &mut [u8]) -> u64 {
    RIGHT.thin_get(image, words, buffer)
}

/// [`Model::thin_put`] without a fault.
pub fn thin_put(image: &mut [u8], notch: u8, words: &mut [u16], buffer: &[u8]) -> u64 {
    RIGHT.thin_put(image, notch, words, buffer)
}

/// [`Model::name`] without a fault.
pub fn name(name: &[u8], eleven: &mut [u8]) -> u64 {
    RIGHT.name(name, eleven)
}

/// [`Model::header`] without a fault.
pub fn header(image: &mut [u8], notch: u8) -> u64 {
    RIGHT.header(image, notch)
}
