//! A file deleted and recovered, told in some lines. Every answer shown is the library's.

use crate::{
    arguments::Arguments,
    contents::read_file,
    directory,
    failure::{numbered, About, Failure},
};
use hilugsaban::{Direction, Disk, Status};
use std::io::Write;

const CHANNEL: u8 = 0;

/// The directory slot of the old ENDS.DAT: the second file made.
const OLD_SLOT: u8 = 1;

struct Demo<'a> {
    disk: Disk<Vec<u8>>,
    out: &'a mut dyn Write,
}

/// `desk demo`.
pub fn run(_: &Arguments, out: &mut dyn Write) -> Result<(), Failure> {
    let mut demo = Demo {
        disk: Disk::fresh(),
        out,
    };
    let splits = times(20, 2931);
    demo.tell("A fresh disk. The timing desk writes the heats, then the ends with their splits.")?;
    demo.write("HEATS.DAT", &times(9, 3105))?;
    demo.write("ENDS.DAT", &splits)?;
    demo.list()?;
    demo.tell("Both are deleted by mistake. Their bytes are still on the disk.")?;
    demo.delete("HEATS.DAT")?;
    demo.delete("ENDS.DAT")?;
    demo.recovered(&splits)?;
    demo.overwritten()
}

/// Lines of lanes and times, each ended as Atari text is.
fn times(lines: u32, first: u32) -> Vec<u8> {
    let line = |i: u32| {
        let hundredths = first + 37 * i % 211;
        format!(
            "LANE {}  {}.{:02}\u{9B}",
            i % 8 + 1,
            hundredths / 100,
            hundredths % 100
        )
    };
    (0..lines)
        .flat_map(|i| line(i).chars().map(|c| c as u8).collect::<Vec<u8>>())
        .collect()
}

impl Demo<'_> {
    /// A new file has the name of the old one, until it is renamed.
    fn recovered(&mut self, splits: &[u8]) -> Result<(), Failure> {
        self.tell("A new ENDS.DAT is begun. It takes the lowest deleted slot and the lowest free sectors.")?;
        self.write("ENDS.DAT", b"LANE 1\x9B")?;
        self.list()?;
        self.tell("The old ENDS.DAT cannot be had back while another file has its name.")?;
        self.recover()?;
        self.tell("The new one is renamed. None of the old one's sectors was given out since.")?;
        self.rename("ENDS.DAT", "NEWENDS.DAT")?;
        self.recover()?;
        let same = self.read("ENDS.DAT")? == splits;
        self.tell(if same {
            "Its splits are what was written, byte for byte."
        } else {
            "Its splits are not what was written."
        })
    }

    /// Another file needs the sectors of the deleted one.
    fn overwritten(&mut self) -> Result<(), Failure> {
        self.tell("It is deleted again, and NEWENDS.DAT is written anew, long enough to need its sectors.")?;
        self.delete("ENDS.DAT")?;
        self.write("NEWENDS.DAT", &times(40, 2870))?;
        self.tell("What was overwritten is not handed out as the old file.")?;
        self.recover()?;
        self.list()
    }

    fn tell(&mut self, text: &str) -> Result<(), Failure> {
        Ok(writeln!(self.out, "{text}")?)
    }

    /// Prints a call with its answer.
    fn call(&mut self, call: &str, status: Status, done: &str) -> Result<(), Failure> {
        let done = if status.is_success() { done } else { "" };
        Ok(writeln!(
            self.out,
            "    {call:<34} {}{done}",
            numbered(status)
        )?)
    }

    fn write(&mut self, name: &str, bytes: &[u8]) -> Result<(), Failure> {
        self.disk
            .open(CHANNEL, Direction::Write, name)
            .about(name)?;
        self.disk.put(CHANNEL, bytes).about(name)?;
        self.disk.close(CHANNEL).about(name)?;
        self.call(
            &format!("write {name}"),
            Status::Success,
            &format!(", {} bytes", bytes.len()),
        )
    }

    fn read(&mut self, name: &str) -> Result<Vec<u8>, Failure> {
        let bytes = read_file(&mut self.disk, name)?;
        self.call(
            &format!("read {name}"),
            Status::Success,
            &format!(", {} bytes", bytes.len()),
        )?;
        Ok(bytes)
    }

    fn delete(&mut self, name: &str) -> Result<(), Failure> {
        let status = self.disk.delete(name).err().unwrap_or(Status::Success);
        self.call(&format!("delete {name}"), status, "")
    }

    fn rename(&mut self, old: &str, new: &str) -> Result<(), Failure> {
        let status = self.disk.rename(old, new).err().unwrap_or(Status::Success);
        self.call(&format!("rename {old} to {new}"), status, "")
    }

    fn recover(&mut self) -> Result<(), Failure> {
        let call = format!("recover slot {OLD_SLOT}");
        match self.disk.recover(OLD_SLOT) {
            Ok(sectors) => self.call(
                &call,
                Status::Success,
                &format!(", {sectors} sectors taken back"),
            ),
            Err(status) => self.call(&call, status, ""),
        }
    }

    /// The directory, indented.
    fn list(&mut self) -> Result<(), Failure> {
        let mut listing = Vec::new();
        directory::list(&self.disk, &mut listing)?;
        for line in String::from_utf8_lossy(&listing).lines() {
            writeln!(self.out, "        {line}")?;
        }
        Ok(())
    }
}
