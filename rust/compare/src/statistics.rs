//! How often each status came for each kind of call.

use std::collections::BTreeMap;
use std::fmt::{self, Display, Formatter};

use model::image::Kind;

use crate::ending::Ending;
use crate::step::{Buffer, Call, Cio, Step};
use crate::world::{succeeded, Reply, World};

/// Counts of answers by kind of call and status.
type Answers = BTreeMap<&'static str, BTreeMap<u8, usize>>;

/// Counts of answers, of calls by kind of image, and of calls with the notch closed.
#[derive(Default)]
pub struct Statistics {
    answers: Answers,
    /// Those of calls with a name that a blank ends.
    by_blank: Answers,
    /// Those of records that were cut: by the buffer's end within a line, or by a disk that was full
    /// before a put record's own end of line.
    cut: Answers,
    /// Those of gets and get records that succeeded and ended at the end of a sector.
    endings: BTreeMap<Ending, Answers>,
    images: BTreeMap<Kind, usize>,
    protected: usize,
}

impl Statistics {
    /// Counts the answer of a call on an image of the kind, which found all eight channels open
    /// or not.
    pub fn count(&mut self, image: Kind, all_open: bool, step: &Step, answer: u64) {
        if let Step::Call { call, notch, .. } = step {
            let (kind, status) = (kind(call, all_open), (answer % 256) as u8);
            add(&mut self.answers, kind, status);
            if let Some(kind) = kind_by_blank(call, kind) {
                add(&mut self.by_blank, kind, status);
            }
            if let Some(kind) = kind_cut(call, kind, answer) {
                add(&mut self.cut, kind, status);
            }
            *self.images.entry(image).or_default() += 1;
            self.protected += usize::from(*notch != 0);
        }
    }

    /// Counts how a call that left the world so has ended. One that is lent another length may have
    /// found another disk there, and is left out.
    pub fn count_ending(&mut self, world: &World, step: &Step, reply: &Reply) {
        let Step::Call {
            call,
            lengths: None,
            ..
        } = step
        else {
            return;
        };
        if let Some(ending) = Ending::of(world, call, reply) {
            let answers = self.endings.entry(ending).or_default();
            add(answers, kind(call, false), (reply.answer % 256) as u8);
        }
    }

    /// The calls on images of a kind.
    pub fn calls_on(&self, image: Kind) -> usize {
        self.images.get(&image).copied().unwrap_or_default()
    }

    /// The statuses that came for a kind of call, in order.
    pub fn statuses(&self, kind: &str) -> Vec<u8> {
        statuses(&self.answers, kind)
    }

    /// The same for calls with a name that a blank ends; a rename whose first name it ends is a
    /// kind of its own.
    pub fn statuses_by_blank(&self, kind: &str) -> Vec<u8> {
        statuses(&self.by_blank, kind)
    }

    /// The same for records that were cut: `get record` by its buffer's end, `put record` before its
    /// own end of line.
    pub fn statuses_cut(&self, kind: &str) -> Vec<u8> {
        statuses(&self.cut, kind)
    }

    /// The same for gets and get records that ended so.
    pub fn statuses_at(&self, ending: Ending, kind: &str) -> Vec<u8> {
        let answers = self.endings.get(&ending);
        answers.map_or(Vec::new(), |answers| statuses(answers, kind))
    }
}

fn add(answers: &mut Answers, kind: &'static str, status: u8) {
    let statuses = answers.entry(kind).or_default();
    *statuses.entry(status).or_default() += 1;
}

fn statuses(answers: &Answers, kind: &str) -> Vec<u8> {
    answers
        .get(kind)
        .into_iter()
        .flat_map(|statuses| statuses.keys().copied())
        .collect()
}

/// The kind of a call, for the table.
fn kind(call: &Call, all_open: bool) -> &'static str {
    match call {
        Call::Cio(cio) if cio.command == 3 && all_open => "open, all eight open",
        Call::Cio(cio) => kind_of_cio(cio),
        Call::Recover { .. } => "recover",
        Call::Sector { .. } => "sector",
        Call::Show { .. } => "show",
        Call::ThinGet { .. } => "thin get",
        Call::ThinPut { .. } => "thin put",
        Call::Name { .. } => "name",
        Call::Header => "header",
    }
}

/// The kind of a call with a name whose first ending byte is a blank; none of any other call, and
/// none of commands that take no name.
fn kind_by_blank(call: &Call, kind: &'static str) -> Option<&'static str> {
    if matches!(
        kind,
        "close" | "get" | "get record" | "other commands" | "put" | "put record"
    ) {
        return None;
    }
    let name = call.name();
    let is_ending = |byte: &u8| matches!(byte, 0 | 0x9b | b' ');
    let (text, behind) = name.split_at(name.iter().position(is_ending)?);
    match kind {
        _ if behind[0] != b' ' => None,
        "rename" if !text.contains(&b',') => Some("rename, first name"),
        _ => Some(kind),
    }
}

/// The kind of a record whose answer tells that it was cut: one that had all bytes of its buffer
/// moved and was refused all the same.
fn kind_cut(call: &Call, kind: &'static str, answer: u64) -> Option<&'static str> {
    let (status, count) = (answer % 256, answer / 256);
    let length = call.buffer().map_or(0, Buffer::len);
    let moved_all = !succeeded(answer) && count == length as u64;
    match kind {
        "get record" if moved_all && count > 0 => Some(kind),
        "put record" if moved_all && status == 162 => Some(kind),
        _ => None,
    }
}

/// A CIO command by its number, an open by its direction too.
fn kind_of_cio(cio: &Cio) -> &'static str {
    match (cio.command, cio.direction) {
        (3, 4) => "open 4",
        (3, 8) => "open 8",
        (3, _) => "open, other direction",
        (5, _) => "get record",
        (7, _) => "get",
        (9, _) => "put record",
        (11, _) => "put",
        (12, _) => "close",
        (13, _) => "status",
        (32, _) => "rename",
        (33, _) => "delete",
        (35, _) => "lock",
        (36, _) => "unlock",
        (254, _) => "format",
        _ => "other commands",
    }
}

impl Display for Statistics {
    fn fmt(&self, out: &mut Formatter) -> fmt::Result {
        writeln!(out, "How often each status came (status: times):")?;
        write_rows(&self.answers, out)?;
        for (image, text) in [
            (Kind::Raw, "on raw images"),
            (Kind::AtrSingle, "on ATR, single density"),
            (Kind::AtrDouble, "on ATR, double density"),
        ] {
            writeln!(out, "{text:>22} {:>7}", self.calls_on(image))?;
        }
        writeln!(out, "{:>22} {:>7}", "with the notch closed", self.protected)?;
        let by_blank: usize = self.by_blank.values().flat_map(BTreeMap::values).sum();
        writeln!(out, "{:>22} {by_blank:>7}", "name ended by a blank")?;
        writeln!(
            out,
            "How often each status came for a name ended by a blank:"
        )?;
        write_rows(&self.by_blank, out)?;
        writeln!(
            out,
            "How often each status came for a get record whose buffer was full before the line's end, \
             and for a put record of which only its own end of line did not fit:"
        )?;
        write_rows(&self.cut, out)?;
        for (ending, answers) in &self.endings {
            writeln!(
                out,
                "How often each status came for a get that succeeded at the end of a sector, {ending}:"
            )?;
            write_rows(answers, out)?;
        }
        Ok(())
    }
}

/// A row for each kind of call.
fn write_rows(answers: &Answers, out: &mut Formatter) -> fmt::Result {
    for (kind, statuses) in answers {
        let calls: usize = statuses.values().sum();
        write!(out, "{kind:>22} {calls:>7} |")?;
        for (status, times) in statuses {
            write!(out, " {status}: {times} ")?;
        }
        writeln!(out)?;
    }
    Ok(())
}
