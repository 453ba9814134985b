//! Atari DOS 2 disk images in memory.
//!
//! A [`Disk`] is an image, owned or borrowed, with its table of eight channels; a [`Kind`] says what images there are: raw
//! ones, and ATR files of single and double density. Its calls are those of the proved library `libcapi.a`: CIO commands on
//! files, sector reads and writes, recovery of a deleted file, and the data of one sector in place. Nothing here decides what a call does; this crate lends the arguments and names the answers.
//!
//! ```
//! use hilugsaban::{Direction, Disk, Status};
//! use std::io::{Read, Write};
//!
//! let mut disk = Disk::fresh();
//! disk.open(0, Direction::Write, "ENDS.DAT")?;
//! write!(disk.writer(0), "LANE 4  {}", 58.31)?;
//! disk.close(0)?;
//!
//! disk.delete("ENDS.DAT")?;
//! assert_eq!(disk.open(0, Direction::Read, "ENDS.DAT"), Err(Status::NotFound));
//! assert_eq!(disk.recover(0)?, 1);
//!
//! let mut text = String::new();
//! disk.open(0, Direction::Read, "ENDS.DAT")?;
//! disk.reader(0).read_to_string(&mut text)?;
//! disk.close(0)?;
//! assert_eq!(text, "LANE 4  58.31");
//! # Ok::<(), Box<dyn std::error::Error>>(())
//! ```
//!
//! # Lines
//!
//! A line of text ends with [`END_OF_LINE`], $9B. [`Disk::get_record`] reads one into a buffer and drops what the buffer does
//! not hold; [`Disk::put_record`] writes one. [`Disk::lines`] hands out lines of any length and loses nothing,
//! [`Disk::line_writer`] writes lines and cuts none short.
//!
//! ```
//! use hilugsaban::{Direction, Disk, Status};
//!
//! let mut disk = Disk::fresh();
//! disk.open(0, Direction::Write, "HEAT.TXT")?;
//! for line in ["LANE 4  58.31", "LANE 5  59.02"] {
//!     disk.line_writer(0).write_line(line.as_bytes())?;
//! }
//! disk.close(0)?;
//!
//! disk.open(0, Direction::Read, "HEAT.TXT")?;
//! let lines = disk.lines(0).collect::<Result<Vec<_>, Status>>()?;
//! assert_eq!(lines[1].bytes, b"LANE 5  59.02");
//! # Ok::<(), Box<dyn std::error::Error>>(())
//! ```
//!
//! # The end of a file
//!
//! A get or get record that takes a file's last byte says so, by [`Got::end_reached`], so that a loader can stop there and need
//! not ask for a byte that does not come. One that asks for more is [`Incomplete`] with [`Status::EndOfFile`].
//!
//! ```
//! use hilugsaban::{Direction, Disk};
//!
//! let mut disk = Disk::fresh();
//! disk.open(0, Direction::Write, "ENDS.DAT")?;
//! disk.put(0, b"58.3159.02")?;
//! disk.close(0)?;
//!
//! disk.open(0, Direction::Read, "ENDS.DAT")?;
//! let mut times = Vec::new();
//! loop {
//!     let mut time = [0; 5];
//!     let got = disk.get(0, &mut time)?;
//!     times.push(time);
//!     if got.end_reached {
//!         break;
//!     }
//! }
//! assert_eq!(times, [*b"58.31", *b"59.02"]);
//! # Ok::<(), Box<dyn std::error::Error>>(())
//! ```
//!
//! # Names
//!
//! A name is a letter and up to seven letters or digits, then optionally a point and up to three letters or digits, capitals
//! only. It may begin with its device, `D:` or `D1:`; without one, `D:` is put before it. Blanks may pad it, but not the first
//! name of a rename. The ending byte that the library asks for is put behind it. A name that holds an ending byte itself (0 or
//! $9B, or a blank with anything but blanks behind it) is not cut short there, but refused as malformed. [`read_name`] takes
//! bytes as they are lent.
//!
//! # Linking
//!
//! The build links `libcapi.a` from the repository's `target/staticlib`, where `tools/archive.sh` writes it, or from the
//! folder that the environment variable `HILUGSABAN_LIB` names by an absolute path.
//!
//! # The notch
//!
//! Each disk has a write-protect [`Notch`], which is open unless it is closed by [`Disk::with_notch`] or [`Disk::set_notch`].
//! With it closed no call changes the image: each that could is refused with [`Status::WriteProtected`].
//!
//! # Exact calls
//!
//! [`Disk::cio`] lends every argument as it is, and [`raw`] has the functions of the archive over slices.
#![deny(unsafe_code)]
#![warn(missing_docs)]

mod answer;
mod disk;
mod kind;
mod lines;
mod name;
mod notch;
#[allow(unsafe_code)]
pub mod raw;
mod stream;
mod table;

pub use answer::{Answer, Got, Incomplete, Status};
pub use disk::{command, Direction, Disk};
pub use kind::Kind;
pub use lines::{Line, LineWriter, Lines, END_OF_LINE};
pub use name::{padded_name, read_name, ReadName};
pub use notch::Notch;
pub use stream::{Reader, Writer};
pub use table::{Channel, Table, CHANNELS, CLOSED, READING, WRITING};

/// Slots of the directory.
pub const SLOTS: u8 = 64;
