//! Calls made one by one from lines of text.

use crate::{
    arguments::Arguments,
    commands::PROTECT,
    directory,
    dump::dump,
    exact::{print_answer, Exact, Lengths, Understood},
    failure::{numbered, numbered_name, About, Failure},
    image_file::{self, ImageFile},
    syntax::{self, value, Word},
};
use hilugsaban::{
    command, Answer, Channel, Direction, Disk, Kind, Notch, Status, CHANNELS, CLOSED, READING,
    WRITING,
};
use std::{
    io::{self, BufRead, IsTerminal, Write},
    path::Path,
};

pub const HELP: &str = "\
One call a line, from the terminal or from standard input; lines that begin with # are passed over. Each
call prints its status number, its message and its count; bytes that it handed out follow, indented. A success
is 1, or 3 where a get or a get record came to the file's end.
Without IMAGE a fresh raw image in memory is used. Nothing is written to a file but by save. The exit status is
1 where a line could not be understood or carried out; a refused call is no failure here.

Files; blanks may pad a NAME, in quotes
  open N read|write NAME       open a file on channel N, 0 to 7
  get N COUNT                  read from a channel
  put N TEXT                   write to a channel
  get-record N COUNT           read a line, and drop what COUNT bytes do not hold
  put-record N TEXT            write a line
  close N
  status|delete|lock|unlock NAME
  rename OLD NEW
  format                       remove all files; every channel must be closed
  list                         the directory

Calls with every argument as it is; behind a get, a get record or a sector read follows the whole BUFFER
  cio CHANNEL COMMAND DIRECTION \"NAME\" BUFFER
                               NAME needs its device and ending byte: \"D:A\\x9B\", \"D:A\\x00\" or \"D:A \"
  sector DEVICE UNIT COMMAND SECTOR BUFFER
  recover SLOT                 take the deleted file in a slot back
  show SLOT SECTOR             where the data of a sector are, if SLOT could enter it
  thin-get KIND SLOT SECTOR OFFSET LEFT BUFFER
  thin-put KIND SLOT SECTOR OFFSET LEFT BUFFER
                               read or write by a channel record of its own
  name \"NAME\" BUFFER           take a name apart; BUFFER has eleven bytes. The count is the place of NAME's
                               ending byte, from 0 at the D
  header                       write the header of an ATR file
  lent BYTES WORDS CALL        one of these calls, lent so many bytes of the image and words of the table

The disk and its channels
  poke SECTOR BYTE VALUE       change one byte of a sector; sector 0 is the header of an ATR file
  channel N KIND SLOT SECTOR OFFSET LEFT
                               change a channel; KIND is 0 closed, 1 reading, 2 writing
  table                        the eight channels
  notch                        how the write-protect notch is. It starts closed with --protect, and where the
                               file may not be written
  notch open|closed            open or close it: while it is closed, everything that could change the image is
                               refused with 144, poke too, and fresh where there is a file
  fresh [atr|double]           another disk: fresh, with all channels closed and the notch open; a raw image,
                               or an ATR file of single or double density. An image in a file stays what it is
  save [FILE]                  write the image back, or to a new FILE; what was changed before the notch was
                               closed is written too. A file whose notch starts closed is never written back
  help, quit

A number is decimal, or hexadecimal behind $ or 0x. BUFFER is N*XX (N bytes of hexadecimal value XX),
pairs of hexadecimal digits, - for none, or text in quotes. In quotes \\xNN is one byte.
";

struct Shell<'a> {
    disk: Disk<Vec<u8>>,
    file: Option<ImageFile>,
    /// The image as the file has it.
    saved: Vec<u8>,
    out: &'a mut dyn Write,
}

/// `desk shell`: reads lines to the end or to `quit`.
pub fn run(arguments: &Arguments, out: &mut dyn Write) -> Result<(), Failure> {
    let mut shell = Shell::new(arguments, out)?;
    if shell.disk.notch() == Notch::Closed {
        shell.tell_notch()?;
    }
    let mut input = io::stdin().lock();
    let terminal = input.is_terminal();
    let mut failed = 0;
    while let Some(line) = next_line(&mut input, terminal)? {
        match shell.line(&line) {
            Ok(true) => {}
            Ok(false) => break,
            Err(failure) => {
                failed += 1;
                writeln!(shell.out, "? {failure}")?;
            }
        }
        shell.out.flush()?;
    }
    shell.remind()?;
    match failed {
        0 => Ok(()),
        lines => Err(Failure::new(format!(
            "lines that could not be carried out: {lines}"
        ))),
    }
}

/// Reads a line, with a prompt before it where a person types.
fn next_line(input: &mut dyn BufRead, terminal: bool) -> Result<Option<Vec<u8>>, Failure> {
    if terminal {
        // Where no prompt can be printed, the lines can still be read.
        let _ = write!(io::stderr(), "desk> ");
    }
    let mut line = Vec::new();
    let length = input.read_until(b'\n', &mut line).about("standard input")?;
    Ok((length > 0).then_some(line))
}

/// What a fresh disk can be made as.
fn kind_named(word: &str) -> Result<Kind, Failure> {
    match word {
        "atr" => Ok(Kind::AtrSingle),
        "double" => Ok(Kind::AtrDouble),
        other => Err(Failure::new(format!("{other}: neither atr nor double"))),
    }
}

fn notch_named(word: &str) -> Result<Notch, Failure> {
    match word {
        "open" => Ok(Notch::Open),
        "closed" => Ok(Notch::Closed),
        other => Err(Failure::new(format!("{other}: neither open nor closed"))),
    }
}

impl<'a> Shell<'a> {
    fn new(arguments: &Arguments, out: &'a mut dyn Write) -> Result<Shell<'a>, Failure> {
        let protect = arguments.has(PROTECT);
        let Some(image) = arguments.operands.first() else {
            let notch = if protect { Notch::Closed } else { Notch::Open };
            let disk = Disk::fresh().with_notch(notch);
            return Ok(Shell {
                saved: disk.image().to_vec(),
                disk,
                file: None,
                out,
            });
        };
        let (file, bytes) = ImageFile::open_any(Path::new(image), protect)?;
        Ok(Shell {
            disk: Disk::new(bytes.clone()).with_notch(file.notch()),
            file: Some(file),
            saved: bytes,
            out,
        })
    }

    /// Carries a line out. Says whether to go on.
    fn line(&mut self, line: &[u8]) -> Result<bool, Failure> {
        let Ok(line) = str::from_utf8(line) else {
            return Err(Failure::new(
                "the line is not UTF-8: write single bytes as \\xNN",
            ));
        };
        if line.trim_start().starts_with('#') {
            return Ok(true);
        }
        let words = syntax::words(line)?;
        let Some((first, arguments)) = words.split_first() else {
            return Ok(true);
        };
        match (first.text()?, arguments) {
            ("quit", []) => return Ok(false),
            (verb, arguments) => self.carry_out(verb, arguments)?,
        }
        Ok(true)
    }

    fn carry_out(&mut self, verb: &str, arguments: &[Word]) -> Understood {
        match (verb, arguments) {
            ("open", [n, direction, name]) => self.open(n, direction, name),
            ("get", [n, count]) => self.get(command::GET, n, count),
            ("put", [n, bytes]) => self.put(command::PUT, n, bytes),
            ("get-record", [n, count]) => self.get(command::GET_RECORD, n, count),
            ("put-record", [n, bytes]) => self.put(command::PUT_RECORD, n, bytes),
            ("close", [n]) => self.close(n),
            ("status", [name]) => self.on_name(Disk::status, name),
            ("delete", [name]) => self.on_name(Disk::delete, name),
            ("lock", [name]) => self.on_name(Disk::lock, name),
            ("unlock", [name]) => self.on_name(Disk::unlock, name),
            ("rename", [old, new]) => self.rename(old, new),
            ("format", []) => self.format(),
            ("lent", [bytes, words, verb, arguments @ ..]) => {
                let lengths = Lengths {
                    image: syntax::length(bytes.text()?)?,
                    table: syntax::length(words.text()?)?,
                };
                self.exact(verb.text()?, arguments, Some(lengths))
            }
            ("poke", [sector, byte, new]) => self.poke(value(sector)?, value(byte)?, value(new)?),
            ("channel", [n, kind, slot, sector, offset, left]) => {
                let channel = Channel {
                    kind: value(kind)?,
                    slot: value(slot)?,
                    sector: value(sector)?,
                    offset: value(offset)?,
                    left: value(left)?,
                };
                self.channel(value(n)?, channel)
            }
            ("table", []) => self.table(),
            ("notch", []) => self.tell_notch(),
            ("notch", [notch]) => self.set_notch(notch_named(notch.text()?)?),
            ("fresh", []) => self.fresh(Kind::Raw),
            ("fresh", [kind]) => self.fresh(kind_named(kind.text()?)?),
            ("list", []) => directory::list(&self.disk, self.out),
            ("save", []) => self.save(),
            ("save", [file]) => self.save_new(Path::new(file.text()?)),
            ("help", []) => Ok(write!(self.out, "{HELP}")?),
            _ => self.exact(verb, arguments, None),
        }
    }

    fn exact(&mut self, verb: &str, arguments: &[Word], lengths: Option<Lengths>) -> Understood {
        Exact {
            disk: &mut self.disk,
            lengths,
            out: self.out,
        }
        .carry_out(verb, arguments)
    }

    fn open(&mut self, n: &Word, direction: &Word, name: &Word) -> Understood {
        let direction = match direction.text()? {
            "read" => Direction::Read,
            "write" => Direction::Write,
            other => return Err(Failure::new(format!("{other}: neither read nor write"))),
        };
        let n = value(n)?;
        self.on_name(|disk, name| disk.open(n, direction, name), name)
    }

    /// A get or a get record, with the bytes that came.
    fn get(&mut self, command: u8, n: &Word, count: &Word) -> Understood {
        let mut buffer = vec![0; syntax::length(count.text()?)?];
        let answer = self.disk.cio(value(n)?, command, 0, &[], &mut buffer);
        self.answer(answer)?;
        Ok(dump(&buffer[..answer.count], self.out)?)
    }

    /// A put or a put record.
    fn put(&mut self, command: u8, n: &Word, bytes: &Word) -> Understood {
        let mut buffer = bytes.bytes.clone();
        let answer = self.disk.cio(value(n)?, command, 0, &[], &mut buffer);
        self.answer(answer)
    }

    fn close(&mut self, n: &Word) -> Understood {
        let answer = self.disk.cio(value(n)?, command::CLOSE, 0, &[], &mut []);
        self.answer(answer)
    }

    fn on_name(
        &mut self,
        call: impl FnOnce(&mut Disk<Vec<u8>>, &str) -> Result<(), Status>,
        name: &Word,
    ) -> Understood {
        let name = name.text()?;
        let answer = call(&mut self.disk, name);
        self.status(answer, name)
    }

    /// Either name may be padded, as they are words of their own: to the library the old one ends at a comma only.
    fn rename(&mut self, old: &Word, new: &Word) -> Understood {
        let (old, new) = (old.text()?.trim_end_matches(' '), new.text()?);
        let answer = self.disk.rename(old, new);
        self.status(answer, &format!("{old},{new}"))
    }

    fn format(&mut self) -> Understood {
        let answer = self.disk.format();
        self.status(answer, "")
    }

    /// Changes a byte of a sector or of the header. It is no call, so a header that does not agree does not hinder it; a
    /// closed notch does, as it hinders all that changes the image.
    fn poke(&mut self, sector: u16, byte: u8, new: u8) -> Understood {
        let kind = self.disk.kind().ok_or_else(|| numbered(Status::BadImage))?;
        let place = match sector {
            0 => Some(usize::from(byte)).filter(|&byte| byte < kind.header_bytes()),
            _ => kind.offset(sector, byte.into()),
        };
        let nowhere = || format!("{kind}: sector {sector} has no byte {byte}");
        let place = place.ok_or_else(nowhere)?;
        self.require_open_notch()?;
        self.disk.image_mut()[place] = new;
        Ok(writeln!(self.out, "sector {sector} byte {byte} is {new}")?)
    }

    fn channel(&mut self, n: u8, channel: Channel) -> Understood {
        if n >= CHANNELS {
            return Err(Failure::new(format!("{n}: channels are 0 to 7")));
        }
        self.disk.table_mut().set_channel(n, channel);
        self.print_channel(n)
    }

    fn table(&mut self) -> Understood {
        (0..CHANNELS).try_for_each(|n| self.print_channel(n))
    }

    fn print_channel(&mut self, n: u8) -> Understood {
        let Channel {
            kind,
            slot,
            sector,
            offset,
            left,
        } = self.disk.table().channel(n);
        let state = match kind {
            CLOSED => "closed".to_string(),
            READING => {
                format!("reading  slot {slot}, sector {sector}, offset {offset}, left {left}")
            }
            WRITING => format!("writing  slot {slot}, last sector {sector}"),
            _ => {
                format!("kind {kind}  slot {slot}, sector {sector}, offset {offset}, left {left}")
            }
        };
        Ok(writeln!(self.out, "{n}  {state}")?)
    }

    fn set_notch(&mut self, notch: Notch) -> Understood {
        self.disk.set_notch(notch);
        self.tell_notch()
    }

    /// Says how the notch is, and for a file that is never written, why that is so.
    fn tell_notch(&mut self) -> Understood {
        let protection = self.file.as_ref().and_then(ImageFile::protection);
        let notch = match (self.disk.notch(), protection) {
            (Notch::Open, None) => "open".to_string(),
            (Notch::Open, Some(why)) => format!("open, but save leaves the file alone: {why}"),
            (Notch::Closed, None) => "closed".to_string(),
            (Notch::Closed, Some(why)) => format!("closed: {why}"),
        };
        Ok(writeln!(self.out, "the notch is {notch}")?)
    }

    /// Refuses what would change the image and is no call, where the library refuses the calls that would.
    fn require_open_notch(&self) -> Understood {
        match self.disk.notch() {
            Notch::Open => Ok(()),
            Notch::Closed => Err(Failure::new(numbered(Status::WriteProtected))),
        }
    }

    /// Begins again with another disk. It is no call, so no channel hinders it; a file of another kind, or one that is no
    /// image at all, is not to be overwritten by the next save, nor is one whose notch is closed.
    fn fresh(&mut self, kind: Kind) -> Understood {
        if self.file.is_some() {
            if self.disk.kind() != Some(kind) {
                return Err(Failure::new(format!(
                    "the file is no {kind} and stays as it is"
                )));
            }
            self.require_open_notch()?;
        }
        self.disk = Disk::fresh_as(kind);
        Ok(writeln!(self.out, "a fresh disk with all channels closed")?)
    }

    fn save(&mut self) -> Understood {
        let Some(file) = &mut self.file else {
            return Err(Failure::new("the disk is in memory only: save FILE"));
        };
        file.write_back(self.disk.image())?;
        let path = file.path().display().to_string();
        self.now_saved(&path)
    }

    fn save_new(&mut self, path: &Path) -> Understood {
        image_file::create(path, self.disk.image())?;
        self.now_saved(&path.display().to_string())
    }

    /// Says what was saved, and which channels leave their file open for output in it.
    fn now_saved(&mut self, path: &str) -> Understood {
        self.saved = self.disk.image().to_vec();
        writeln!(self.out, "saved {path}")?;
        for (n, channel) in self.disk.table().channels().enumerate() {
            if channel.kind == WRITING {
                writeln!(
                    self.out,
                    "channel {n} is still writing: its file is saved as open for output; close it and save again"
                )?;
            }
        }
        Ok(())
    }

    /// At the end, says so where changes were not saved to the image's file.
    fn remind(&mut self) -> Understood {
        if self.file.is_some() && self.saved != self.disk.image() {
            writeln!(self.out, "changes not saved")?;
        }
        Ok(())
    }

    fn answer(&mut self, answer: Answer) -> Understood {
        Ok(print_answer(answer, self.out)?)
    }

    /// Prints the answer of a call on a name, or on no file. Such a call reports no count.
    fn status(&mut self, answer: Result<(), Status>, name: &str) -> Understood {
        let status = answer.err().unwrap_or(Status::Success);
        let status = numbered_name(status, name);
        Ok(writeln!(self.out, "{status}; count 0")?)
    }
}
