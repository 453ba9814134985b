//! Measures the time of some calls on both sides, in one run, alternately.
//!
//! ```text
//! bench [--scattered] [--repetitions N]
//! ```
//!
//! Each line of the first table is one kind of call, on a raw image where it names no other. A
//! repetition makes a number of such calls on each side, from the same disk; the times are
//! medians of one call over all repetitions. A file lies in consecutive sectors, as on a disk
//! that was filled from the start; with `--scattered` two files alternate sector by sector.
//!
//! The second table has gets of a whole disk beside as many calls of memcpy as it has sectors,
//! each for a sector's data bytes, out of the same image into the same buffer.

use std::hint::black_box;
use std::ops::{Deref, DerefMut};
use std::process::ExitCode;
use std::time::Instant;

use compare::side::{Side, LIBRARY, LIBRARY_NAME, MODEL};
use compare::step::TABLE;
use model::disk::DATA_SECTORS;
use model::image::Kind;
use model::Request;

const REPETITIONS: usize = 301;

const USAGE: &str = "usage: bench [--scattered] [--repetitions N]";

/// Commands, and the directions of an open.
const OPEN: u8 = 3;
const GET_RECORD: u8 = 5;
const GET: u8 = 7;
const PUT_RECORD: u8 = 9;
const PUT: u8 = 11;
const CLOSE: u8 = 12;
const STATUS: u8 = 13;
const DELETE: u8 = 33;
const FORMAT: u8 = 254;
const READ: u8 = 4;
const WRITE: u8 = 8;

/// Device, unit and commands of a sector call.
const DEVICE: u8 = 0x31;
const UNIT: u8 = 1;
const READ_SECTOR: u8 = 0x52;
const WRITE_SECTOR: u8 = 0x57;

/// The notch of every call.
const OPEN_NOTCH: u8 = 0;

/// The answer of a call that succeeds and counts nothing.
const SUCCESS: u64 = 1;

/// The status of a get that reaches its file's end.
const END_REACHED: u64 = 3;

/// The status of a get record that drops the rest of a line.
const TRUNCATED: u64 = 137;

/// The byte that ends a line, the bytes of a line with it, the place that a get record has for a
/// line, and the bytes of a file of lines.
const END_OF_LINE: u8 = 0x9b;
const LINE: usize = 40;
const LINE_BUFFER: usize = 128;
const LINES: usize = 10_000;

/// Words of a channel's record.
const RECORD: usize = 5;

/// Sectors of each of two files that fill a disk together.
const SCATTERED: usize = 353;

/// Calls of a repetition, where the disk allows any number of them.
const CALLS: usize = 500;

/// Bytes that fill a disk.
fn whole_disk(kind: Kind) -> usize {
    usize::from(DATA_SECTORS) * kind.data()
}

/// What a line calls an image that is not raw.
fn prefix(kind: Kind) -> &'static str {
    match kind {
        Kind::Raw => "",
        Kind::AtrSingle => "ATR, ",
        Kind::AtrDouble => "double density, ",
    }
}

/// Bytes that begin where a page of memory does. How image and buffer lie to each other makes a
/// difference for copies, which is not to change from run to run.
#[derive(Clone)]
struct Bytes {
    room: Vec<u8>,
    start: usize,
    length: usize,
}

impl Bytes {
    fn new(value: u8, length: usize) -> Bytes {
        const PAGE: usize = 4096;
        let room = vec![value; length + PAGE];
        let start = room.as_ptr().align_offset(PAGE).min(PAGE);
        Bytes {
            room,
            start,
            length,
        }
    }

    fn of(bytes: &[u8]) -> Bytes {
        let mut aligned = Bytes::new(0, bytes.len());
        aligned.copy_from_slice(bytes);
        aligned
    }
}

impl Deref for Bytes {
    type Target = [u8];

    fn deref(&self) -> &[u8] {
        &self.room[self.start..self.start + self.length]
    }
}

impl DerefMut for Bytes {
    fn deref_mut(&mut self) -> &mut [u8] {
        &mut self.room[self.start..self.start + self.length]
    }
}

/// A command on channel 0, the one that every call takes. What is measured is the call, so a request is put together before
/// the time is taken.
fn request<'a>(command: u8) -> Request<'a> {
    Request::new(0, command)
}

/// An open of a file.
fn open(direction: u8, name: &[u8]) -> Request<'_> {
    request(OPEN).direction(direction).name(name)
}

/// An image and a table.
struct Desk {
    kind: Kind,
    image: Bytes,
    table: [u16; TABLE],
}

impl Desk {
    fn fresh(kind: Kind) -> Desk {
        Desk {
            kind,
            image: Bytes::of(&kind.fresh()),
            table: [0; TABLE],
        }
    }

    /// Another image with the same bytes, and the same table.
    fn copy(&self) -> Desk {
        Desk {
            kind: self.kind,
            image: Bytes::of(&self.image),
            table: self.table,
        }
    }

    fn copy_from(&mut self, other: &Desk) {
        self.image.copy_from_slice(&other.image);
        self.table = other.table;
    }

    /// A CIO command.
    fn cio(&mut self, side: &dyn Side, request: &mut Request) -> u64 {
        side.cio(&mut self.image, &mut self.table, request)
    }

    /// A CIO command of the model that must succeed.
    fn with(mut self, mut request: Request) -> Desk {
        let answer = self.cio(MODEL, &mut request);
        assert_eq!(answer % 256, 1, "the disk cannot be set up");
        self
    }

    /// A file of these bytes, closed.
    fn with_bytes(self, name: &[u8], mut bytes: Vec<u8>) -> Desk {
        self.with(open(WRITE, name))
            .with(request(PUT).buffer(&mut bytes))
            .with(request(CLOSE))
    }

    /// A file of that many bytes, closed.
    fn with_file(self, name: &[u8], length: usize) -> Desk {
        self.with_bytes(name, vec![0x5a; length])
    }

    /// A file of all sectors.
    fn with_whole_file(self) -> Desk {
        let length = whole_disk(self.kind);
        self.with_file(&file_name(0), length)
    }

    /// Two files that were written in turn, a sector at a time.
    fn with_two_files(mut self) -> Desk {
        let mut bytes = vec![0x5a; self.kind.data()];
        let (mut first, mut second) = ([0; TABLE], [0; TABLE]);
        for _ in 0..SCATTERED {
            for (table, slot) in [(&mut first, 0), (&mut second, 1)] {
                self.table = *table;
                if table[0] == 0 {
                    self = self.with(open(WRITE, &file_name(slot)));
                }
                self = self.with(request(PUT).buffer(&mut bytes));
                *table = self.table;
            }
        }
        for table in [first, second] {
            self.table = table;
            self = self.with(request(CLOSE));
        }
        self
    }

    /// A full directory of files of one byte.
    fn with_64_files(self, name: fn(u8) -> Vec<u8>) -> Desk {
        (0..64).fold(self, |desk, slot| desk.with_file(&name(slot), 1))
    }
}

/// The name of a file.
fn file_name(slot: u8) -> Vec<u8> {
    vec![b'D', b':', b'A' + slot / 8, b'0' + slot % 8, 0x9b]
}

/// A name that differs from the others in its extension alone.
fn name_alike(slot: u8) -> Vec<u8> {
    format!("D:ABCDEFGH.X{slot:02}\0").into_bytes()
}

/// A name of eleven bytes that differs from the others in its first two.
fn name_differing(slot: u8) -> Vec<u8> {
    let [first, second] = [b'A' + slot / 8, b'A' + slot % 8].map(char::from);
    format!("D:{first}{second}CDEFGH.DAT\0").into_bytes()
}

/// Makes calls on a side, and answers the nanoseconds that one of them took.
type Calls = dyn Fn(&dyn Side, &mut Desk) -> f64;

/// One line of the table: what is measured, from which disk, and how.
struct Line {
    text: String,
    start: Desk,
    calls: Box<Calls>,
}

impl Line {
    fn new(
        text: impl Into<String>,
        start: Desk,
        calls: impl Fn(&dyn Side, &mut Desk) -> f64 + 'static,
    ) -> Line {
        Line {
            text: format!("{}{}", prefix(start.kind), text.into()),
            start,
            calls: Box::new(calls),
        }
    }
}

/// The nanoseconds that one of so many calls takes, each of which must answer so.
fn time(calls: usize, answer: u64, mut call: impl FnMut() -> u64) -> f64 {
    let begun = Instant::now();
    for _ in 0..calls {
        assert_eq!(call(), answer);
    }
    begun.elapsed().as_nanos() as f64 / calls as f64
}

/// The answer of a transfer of all bytes.
fn transferred(length: usize) -> u64 {
    SUCCESS + 256 * length as u64
}

/// The same of a get that takes the file's last byte.
fn got_to_end(length: usize) -> u64 {
    END_REACHED + 256 * length as u64
}

/// So many bytes, in words.
fn bytes(length: usize) -> String {
    format!("{length} {}", if length == 1 { "byte" } else { "bytes" })
}

/// A disk with a file open on channel 0, at its beginning: for puts an empty one, for gets one of
/// all sectors.
fn opened(kind: Kind, command: u8) -> (&'static str, Desk) {
    let desk = Desk::fresh(kind);
    if command == PUT {
        ("put", desk.with(open(WRITE, &file_name(0))))
    } else {
        let desk = desk.with_whole_file();
        ("get", desk.with(open(READ, &file_name(0))))
    }
}

/// How many transfers of such a length are made, and what each answers. Gets stop before the file's
/// last byte, so that all answer alike, but for one that takes the whole file.
fn calls_of_transfers(kind: Kind, command: u8, length: usize) -> (usize, u64) {
    let whole = whole_disk(kind);
    match command {
        GET if length == whole => (1, got_to_end(length)),
        GET => (((whole - 1) / length).min(2000), transferred(length)),
        _ => ((whole / length).min(2000), transferred(length)),
    }
}

/// Gets or puts that follow on each other: on a channel of the table, or thin ones on its record.
fn transfers(kind: Kind, command: u8, length: usize, thin: bool) -> Line {
    let (calls, answer) = calls_of_transfers(kind, command, length);
    let (verb, start) = opened(kind, command);
    let manner = if thin { "thin " } else { "" };
    let text = format!("{manner}{verb} of {}", bytes(length));
    Line::new(text, start, move |side, desk| {
        let mut buffer = Bytes::new(0x5a, length);
        let mut request = request(command).buffer(&mut buffer);
        time(calls, answer, || match (thin, command) {
            (false, _) => desk.cio(side, &mut request),
            (true, PUT) => side.thin_put(
                &mut desk.image,
                OPEN_NOTCH,
                &mut desk.table[..RECORD],
                request.buffer,
            ),
            (true, _) => side.thin_get(&mut desk.image, &mut desk.table[..RECORD], request.buffer),
        })
    })
}

/// Get records that go through a file of lines, each of which fits, up to the last but one: the last
/// has another answer.
fn get_lines(kind: Kind) -> Line {
    let mut line = [0x5a; LINE];
    line[LINE - 1] = END_OF_LINE;
    let start = Desk::fresh(kind)
        .with_bytes(&file_name(0), line.repeat(LINES / LINE + 1))
        .with(open(READ, &file_name(0)));
    let text = format!("get record of a line of {LINE} bytes");
    Line::new(text, start, |side, desk| {
        let mut buffer = Bytes::new(0, LINE_BUFFER);
        let mut get = request(GET_RECORD).buffer(&mut buffer);
        time(LINES / LINE, transferred(LINE), || desk.cio(side, &mut get))
    })
}

/// Put records that write a file of lines, each with an end of line of its own.
fn put_lines(kind: Kind) -> Line {
    let (_, start) = opened(kind, PUT);
    let text = format!("put record of a line of {LINE} bytes");
    Line::new(text, start, |side, desk| {
        let mut buffer = Bytes::new(0x5a, LINE - 1);
        let mut put = request(PUT_RECORD).buffer(&mut buffer);
        time(LINES / LINE, transferred(LINE - 1), || {
            desk.cio(side, &mut put)
        })
    })
}

/// Get records of the one line of a file, of which the buffer holds the first bytes.
fn drop_line(kind: Kind) -> Line {
    let start = Desk::fresh(kind)
        .with_file(&file_name(0), LINES)
        .with(open(READ, &file_name(0)));
    let text = format!("get record that drops {} bytes", LINES - LINE);
    let table = start.table;
    Line::new(text, start, move |side, desk| {
        let mut buffer = Bytes::new(0, LINE);
        let mut get = request(GET_RECORD).buffer(&mut buffer);
        time(CALLS / 10, TRUNCATED + 256 * LINE as u64, || {
            desk.table = table;
            desk.cio(side, &mut get)
        })
    })
}

/// Get of a whole file in every other sector.
fn get_scattered(kind: Kind) -> Line {
    let length = kind.data() * SCATTERED;
    let start = Desk::fresh(kind)
        .with_two_files()
        .with(open(READ, &file_name(0)));
    let text = format!("get of {length} bytes, every other sector");
    Line::new(text, start, move |side, desk| {
        let mut buffer = Bytes::new(0, length);
        let mut get = request(GET).buffer(&mut buffer);
        time(1, got_to_end(length), || desk.cio(side, &mut get))
    })
}

/// Opens of the last of 64 files.
fn open_last(kind: Kind) -> Line {
    let start = Desk::fresh(kind).with_64_files(file_name);
    Line::new("open of the 64th file", start, |side, desk| {
        let name = file_name(63);
        let mut open = open(READ, &name);
        time(CALLS, SUCCESS, || {
            desk.table[0] = 0;
            desk.cio(side, &mut open)
        })
    })
}

/// Status of a name that none of 64 files has.
fn status_of_none() -> Line {
    let start = Desk::fresh(Kind::Raw).with_64_files(file_name);
    Line::new("status of a name not there", start, |side, desk| {
        let mut status = request(STATUS).name(b"D:NOTTHERE\x9b");
        time(CALLS, 170, || desk.cio(side, &mut status))
    })
}

/// Status of the last of 64 files with such names.
fn status_of_last(kind: Kind, names: &str, name: fn(u8) -> Vec<u8>) -> Line {
    let start = Desk::fresh(kind).with_64_files(name);
    let text = format!("status of the 64th file, names {names}");
    Line::new(text, start, move |side, desk| {
        let name = name(63);
        let mut status = request(STATUS).name(&name);
        time(CALLS, SUCCESS, || desk.cio(side, &mut status))
    })
}

/// Delete of the file in slot 0.
fn delete_first(text: String, start: Desk) -> Line {
    Line::new(text, start, |side, desk| {
        let name = file_name(0);
        let mut delete = request(DELETE).name(&name);
        time(1, SUCCESS, || desk.cio(side, &mut delete))
    })
}

/// Delete of a file of all 707 sectors.
fn delete_whole(kind: Kind) -> Line {
    let start = Desk::fresh(kind).with_whole_file();
    delete_first("delete of 707 sectors".into(), start)
}

/// Delete of a file in every other sector.
fn delete_scattered(kind: Kind) -> Line {
    let text = format!("delete of {SCATTERED} sectors, every other one");
    delete_first(text, Desk::fresh(kind).with_two_files())
}

/// Recovery of a file of all 707 sectors.
fn recover_whole(kind: Kind) -> Line {
    let start = Desk::fresh(kind).with_whole_file();
    let start = start.with(request(DELETE).name(&file_name(0)));
    let answer = SUCCESS + 256 * u64::from(DATA_SECTORS);
    Line::new("recovery of 707 sectors", start, move |side, desk| {
        time(1, answer, || side.recover(&mut desk.image, OPEN_NOTCH, 0))
    })
}

/// Reads or writes of one sector.
fn sector(kind: Kind, command: u8) -> Line {
    const SECTOR: u16 = 400;
    let size = kind.sector_size(SECTOR);
    let text = match command {
        READ_SECTOR => "sector read",
        _ => "sector write",
    };
    Line::new(text, Desk::fresh(kind), move |side, desk| {
        let mut buffer = Bytes::new(0x5a, size);
        let (image, buffer): (&mut [u8], &mut [u8]) = (&mut desk.image, &mut buffer);
        time(CALLS, transferred(size), || {
            side.sector(image, OPEN_NOTCH, DEVICE, UNIT, command, SECTOR, buffer)
        })
    })
}

/// Format of a full disk.
fn format_whole(kind: Kind) -> Line {
    let start = Desk::fresh(kind).with_whole_file();
    Line::new("format", start, |side, desk| {
        let mut format = request(FORMAT).name(b"D:\x9b");
        time(1, SUCCESS, || desk.cio(side, &mut format))
    })
}

/// The lines of the table.
fn lines(scattered: bool) -> Vec<Line> {
    let (raw, double) = (Kind::Raw, Kind::AtrDouble);
    if scattered {
        return [raw, double]
            .into_iter()
            .flat_map(|kind| [get_scattered(kind), delete_scattered(kind)])
            .collect();
    }
    let mut lines = Vec::new();
    for kind in [raw, double] {
        for command in [PUT, GET] {
            let lengths = [1, kind.data(), 10_000, whole_disk(kind)];
            lines.extend(lengths.map(|length| transfers(kind, command, length, false)));
        }
        lines.extend([put_lines(kind), get_lines(kind), drop_line(kind)]);
        lines.push(open_last(kind));
        if kind == raw {
            lines.push(status_of_none());
        }
        lines.extend([delete_whole(kind), recover_whole(kind)]);
        lines.extend([PUT, GET].map(|command| transfers(kind, command, 1, true)));
        lines.push(status_of_last(kind, "that differ", name_differing));
        lines.push(status_of_last(kind, "alike in eight letters", name_alike));
        lines.push(format_whole(kind));
    }
    for kind in Kind::ALL {
        lines.extend([READ_SECTOR, WRITE_SECTOR].map(|command| sector(kind, command)));
    }
    lines
}

/// The median times of two things that are measured in turn.
fn medians<T>(repetitions: usize, things: [T; 2], mut measure: impl FnMut(&T) -> f64) -> [f64; 2] {
    let mut times = [Vec::new(), Vec::new()];
    for _ in 0..repetitions {
        for (thing, times) in things.iter().zip(&mut times) {
            times.push(measure(thing));
        }
    }
    times.map(|mut times| {
        times.sort_by(f64::total_cmp);
        times[times.len() / 2]
    })
}

/// The median time of a line's call on each side.
fn measure(line: &Line, repetitions: usize) -> [f64; 2] {
    let mut desk = line.start.copy();
    medians(repetitions, [LIBRARY, MODEL], |&side| {
        desk.copy_from(&line.start);
        (line.calls)(side, &mut desk)
    })
}

/// How the bytes of a whole disk are had.
enum Way {
    Get,
    Copies,
}

/// The median times of a get of a whole disk by the library, and of as many calls of memcpy as
/// it has sectors.
fn measure_copies(kind: Kind, repetitions: usize) -> [f64; 2] {
    let (_, mut desk) = opened(kind, GET);
    let table = desk.table;
    let length = whole_disk(kind);
    let mut buffer = Bytes::new(0, length);
    let mut get = request(GET).buffer(&mut buffer);
    medians(repetitions, [Way::Get, Way::Copies], |way| {
        desk.table = table;
        time(1, got_to_end(length), || match way {
            Way::Get => desk.cio(LIBRARY, &mut get),
            Way::Copies => {
                copy_sectors(kind, &desk.image, get.buffer);
                got_to_end(length)
            }
        })
    })
}

/// Copies the data bytes of each data sector into the buffer. The compiler is not told their
/// number, so that it calls memcpy.
fn copy_sectors(kind: Kind, image: &[u8], buffer: &mut [u8]) {
    let data = black_box(kind.data());
    let part = |first, end| {
        let bytes = &image[kind.sector_start(first)..kind.sector_start(end)];
        bytes.chunks_exact(kind.sector_size(first))
    };
    let sectors = part(4, 360).chain(part(369, 720));
    for (to, sector) in buffer.chunks_exact_mut(data).zip(sectors) {
        to.copy_from_slice(&sector[..data]);
    }
    black_box(buffer);
}

/// Prints a line of a table.
fn print_row(text: &str, [first, second]: [f64; 2]) {
    let ratio = first / second;
    println!(
        "| {text} | {} | {} | {ratio:.2} |",
        nanoseconds(first),
        nanoseconds(second)
    );
}

/// A time, with a decimal where it is short.
fn nanoseconds(time: f64) -> String {
    let decimals = if time < 100.0 { 1 } else { 0 };
    format!("{time:.decimals$}")
}

fn print_head(first: &str, second: &str, third: &str) {
    println!("| {first} | {second}, ns | {third}, ns | ratio |");
    println!("|---|---:|---:|---:|");
}

/// What the command line asks for.
struct Options {
    scattered: bool,
    repetitions: usize,
}

fn options(mut words: impl Iterator<Item = String>) -> Option<Options> {
    let mut options = Options {
        scattered: false,
        repetitions: REPETITIONS,
    };
    while let Some(word) = words.next() {
        match word.as_str() {
            "--scattered" => options.scattered = true,
            "--repetitions" => options.repetitions = words.next()?.parse().ok()?,
            _ => return None,
        }
    }
    (options.repetitions > 0).then_some(options)
}

fn main() -> ExitCode {
    let words: Vec<String> = std::env::args().skip(1).collect();
    if words.iter().any(|word| word == "--help") {
        println!("{USAGE}");
        return ExitCode::SUCCESS;
    }
    let Some(options) = options(words.into_iter()) else {
        eprintln!("{USAGE}");
        return ExitCode::FAILURE;
    };
    print_head("Call", LIBRARY_NAME, "model");
    for line in lines(options.scattered) {
        print_row(&line.text, measure(&line, options.repetitions));
    }
    if !options.scattered {
        println!();
        print_head("Get of a whole disk", LIBRARY_NAME, "memcpys");
        for kind in Kind::ALL {
            let text = format!("{}707 memcpys of {} bytes", prefix(kind), kind.data());
            print_row(&text, measure_copies(kind, options.repetitions));
        }
    }
    ExitCode::SUCCESS
}
