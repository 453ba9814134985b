//! The shell's calls with every argument as it is: lines of this kind are also what the comparison prints.

use crate::{
    dump::dump,
    failure::{numbered, numbered_recovery, Failure},
    syntax::{buffer, value, Word},
};
use hilugsaban::{command, raw, Answer, Disk};
use std::io::{self, Write};

/// Why a line could not be carried out, if so.
pub type Understood = Result<(), Failure>;

/// How many bytes of image and words of table a call is lent.
#[derive(Clone, Copy)]
pub struct Lengths {
    pub image: usize,
    pub table: usize,
}

/// One call on a disk.
pub struct Exact<'a> {
    pub disk: &'a mut Disk<Vec<u8>>,
    /// As many as there are, where none are given.
    pub lengths: Option<Lengths>,
    pub out: &'a mut dyn Write,
}

impl Exact<'_> {
    pub fn carry_out(&mut self, verb: &str, arguments: &[Word]) -> Understood {
        match (verb, arguments) {
            ("cio", [channel, command, direction, name, buffer]) => {
                // In the order of the line, so that the first number that is wrong is the one named.
                let request = raw::Request::new(value(channel)?, value(command)?);
                let request = raw::Request {
                    direction: value(direction)?,
                    name: &name.bytes,
                    ..request
                };
                self.cio(request, buffer)
            }
            ("sector", [device, unit, command, sector, buffer]) => {
                let block = [value(device)?, value(unit)?, value(command)?];
                self.sector(block, value(sector)?, buffer)
            }
            ("recover", [slot]) => self.recover(value(slot)?),
            ("show", [slot, sector]) => self.show(value(slot)?, value(sector)?),
            ("thin-get", [words @ .., buffer]) => self.thin_get(record(words)?, buffer),
            ("thin-put", [words @ .., buffer]) => self.thin_put(record(words)?, buffer),
            ("name", [name, eleven]) => self.name(&name.bytes, eleven),
            ("header", []) => {
                let notch = self.notch();
                let word = self.lend(|image, _| raw::header(image, notch));
                self.answer(word)
            }
            _ => {
                let count = arguments.len();
                Err(Failure::new(format!(
                    "no call {verb} with {count} arguments: see help"
                )))
            }
        }
    }

    /// The disk's notch, as the library takes it.
    fn notch(&self) -> u8 {
        self.disk.notch() as u8
    }

    /// Lends image and table at the lengths asked for, zeros behind what there is.
    fn lend<T>(&mut self, call: impl FnOnce(&mut [u8], &mut [u16]) -> T) -> T {
        let mut image = self.disk.image().to_vec();
        let mut table = self.disk.table().words().to_vec();
        if let Some(lengths) = self.lengths {
            image.resize(lengths.image, 0);
            table.resize(lengths.table, 0);
        }
        let answer = call(&mut image, &mut table);
        copy_common(self.disk.image_mut(), &image);
        copy_common(self.disk.table_mut().words_mut(), &table);
        answer
    }

    fn cio(&mut self, request: raw::Request, lent: &Word) -> Understood {
        let mut buffer = buffer(lent)?;
        let mut request = raw::Request {
            notch: self.notch(),
            buffer: &mut buffer,
            ..request
        };
        let word = self.lend(|image, table| raw::cio(image, table, &mut request));
        self.answer(word)?;
        if matches!(request.command, command::GET | command::GET_RECORD) {
            dump(request.buffer, self.out)?;
        }
        Ok(())
    }

    /// `block` is device, unit and command.
    fn sector(&mut self, block: [u8; 3], sector: u16, lent: &Word) -> Understood {
        let [device, unit, command] = block;
        let mut buffer = buffer(lent)?;
        let notch = self.notch();
        let word = self
            .lend(|image, _| raw::sector(image, notch, device, unit, command, sector, &mut buffer));
        self.answer(word)?;
        if command == command::READ_SECTOR {
            dump(&buffer, self.out)?;
        }
        Ok(())
    }

    fn recover(&mut self, slot: u8) -> Understood {
        let notch = self.notch();
        let word = self.lend(|image, _| raw::recover(image, notch, slot));
        let Answer { status, count } = Answer::from_word(word);
        let status = numbered_recovery(status);
        Ok(writeln!(self.out, "{status}; count {count}")?)
    }

    fn show(&mut self, slot: u8, sector: u16) -> Understood {
        let shown = self.lend(|image, _| {
            let disk = Disk::new(&*image);
            let bytes = disk.show(slot, sector)?;
            let offset = bytes.as_ptr().addr() - image.as_ptr().addr();
            Some((offset, bytes.to_vec()))
        });
        let Some((offset, bytes)) = shown else {
            return Ok(writeln!(self.out, "no")?);
        };
        writeln!(self.out, "yes; offset {offset}, length {}", bytes.len())?;
        Ok(dump(&bytes, self.out)?)
    }

    fn thin_get(&mut self, mut record: Vec<u16>, lent: &Word) -> Understood {
        let mut buffer = buffer(lent)?;
        let word = self.lend(|image, _| raw::thin_get(image, &mut record, &mut buffer));
        self.answer(word)?;
        self.record(&record)?;
        Ok(dump(&buffer, self.out)?)
    }

    fn thin_put(&mut self, mut record: Vec<u16>, lent: &Word) -> Understood {
        let buffer = buffer(lent)?;
        let notch = self.notch();
        let word = self.lend(|image, _| raw::thin_put(image, notch, &mut record, &buffer));
        self.answer(word)?;
        self.record(&record)
    }

    fn name(&mut self, name: &[u8], lent: &Word) -> Understood {
        let mut eleven = buffer(lent)?;
        self.answer(raw::name(name, &mut eleven))?;
        Ok(dump(&eleven, self.out)?)
    }

    fn answer(&mut self, word: u64) -> Understood {
        Ok(print_answer(Answer::from_word(word), self.out)?)
    }

    /// The record of a thin call after it.
    fn record(&mut self, words: &[u16]) -> Understood {
        write!(self.out, "record")?;
        for word in words {
            write!(self.out, " {word}")?;
        }
        Ok(writeln!(self.out)?)
    }
}

/// Prints the answer of a call.
pub fn print_answer(answer: Answer, out: &mut dyn Write) -> io::Result<()> {
    let Answer { status, count } = answer;
    writeln!(out, "{}; count {count}", numbered(status))
}

/// The words of a channel record.
fn record(words: &[Word]) -> Result<Vec<u16>, String> {
    words.iter().map(value).collect()
}

/// Copies as many as both have.
fn copy_common<T: Copy>(to: &mut [T], from: &[T]) {
    let common = to.len().min(from.len());
    to[..common].copy_from_slice(&from[..common]);
}
