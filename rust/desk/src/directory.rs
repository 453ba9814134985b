//! The directory of a disk, read through sector calls.
//!
//! Slots are read and the volume table is probed by hand until there are calls for it: request P3 (the directory as a file) and
//! request P7 (look at a stranger's disk) bring them.

use crate::{
    contents::read_to_end,
    failure::{numbered, numbered_recovery, About, Failure},
};
use hilugsaban::{Channel, Disk, Incomplete, Notch, Status};
use std::io::Write;

const VOLUME_TABLE: u16 = 360;
const DIRECTORY: std::ops::RangeInclusive<u16> = 361..=368;
/// What the directory uses of each of its sectors, in double density the first half.
const DIRECTORY_BYTES: usize = 128;
const SLOT_BYTES: usize = 16;

/// A slot of the directory.
pub struct Slot {
    pub number: u8,
    flag: u8,
    /// Its count of sectors.
    sectors: u16,
    /// Eight bytes of name and three of extension, padded with blanks.
    pub name: [u8; 11],
}

impl Slot {
    fn from_bytes(number: u8, bytes: &[u8]) -> Slot {
        let mut name = [0; 11];
        name.copy_from_slice(&bytes[5..SLOT_BYTES]);
        Slot {
            number,
            flag: bytes[0],
            sectors: u16::from_le_bytes([bytes[1], bytes[2]]),
            name,
        }
    }

    pub fn is_deleted(&self) -> bool {
        self.flag & 0x80 != 0
    }

    fn stands(&self) -> bool {
        self.flag & 0xC0 == 0x40
    }

    fn is_locked(&self) -> bool {
        self.flag & 0x20 != 0
    }

    fn is_open_for_output(&self) -> bool {
        self.flag & 0x01 != 0
    }

    /// The name as a person writes it; bytes that no name has are escaped.
    fn text(&self) -> String {
        let (name, extension) = self.name.split_at(8);
        let name = name.trim_ascii_end().escape_ascii().to_string();
        match extension.trim_ascii_end() {
            b"" => name,
            extension => format!("{name}.{}", extension.escape_ascii()),
        }
    }
}

/// The slots up to the first whose flag is zero, where every search stops.
pub fn slots(disk: &mut Disk<Vec<u8>>) -> Result<Vec<Slot>, Status> {
    let mut bytes = Vec::new();
    for sector in DIRECTORY {
        bytes.extend(&disk.whole_sector(sector)?[..DIRECTORY_BYTES]);
    }
    let slots = (0..).zip(bytes.chunks_exact(SLOT_BYTES));
    Ok(slots
        .map(|(number, bytes)| Slot::from_bytes(number, bytes))
        .take_while(|slot| slot.flag != 0)
        .collect())
}

/// Prints a line for each file and deleted file, and the free sectors. Whether a deleted file can be recovered is found by
/// recovering it on a copy of the disk, whose notch is open.
pub fn list(disk: &Disk<Vec<u8>>, out: &mut dyn Write) -> Result<(), Failure> {
    let mut disk = disk.clone().with_notch(Notch::Open);
    let slots = slots(&mut disk).about("directory")?;
    writeln!(out, "slot  name          sectors   bytes")?;
    for slot in &slots {
        let (bytes, notes) = if slot.is_deleted() {
            deleted(&disk, slot)
        } else {
            standing(&disk, slot)
        };
        let line = format!(
            "{:>4}  {:<12}  {:>7}  {bytes:>6}  {notes}",
            slot.number,
            slot.text(),
            slot.sectors
        );
        writeln!(out, "{}", line.trim_end())?;
    }
    let table = disk.whole_sector(VOLUME_TABLE).about("volume table")?;
    let free = u16::from_le_bytes([table[3], table[4]]);
    if table_is_good(&disk) {
        writeln!(out, "{free} free sectors")?;
    } else {
        writeln!(
            out,
            "{free} free sectors by a volume table that is damaged (163)"
        )?;
    }
    Ok(())
}

/// Bytes and notes of a slot that is not deleted.
fn standing(disk: &Disk<Vec<u8>>, slot: &Slot) -> (String, String) {
    if !slot.stands() {
        return ("-".into(), format!("not a file: flag ${:02X}", slot.flag));
    }
    let mut notes = Vec::new();
    if slot.is_locked() {
        notes.push("locked".to_string());
    }
    if slot.is_open_for_output() {
        notes.push("open for output".to_string());
    }
    let bytes = match length(disk, slot) {
        Ok(bytes) => bytes.to_string(),
        Err(Incomplete { status, count }) => {
            notes.push(format!("{}, after {count} bytes", numbered(status)));
            "-".to_string()
        }
    };
    (bytes, notes.join(", "))
}

/// Bytes and notes of a deleted slot.
fn deleted(disk: &Disk<Vec<u8>>, slot: &Slot) -> (String, String) {
    let mut copy = disk.clone();
    let recovered = copy
        .recover(slot.number)
        .and_then(|_| Ok(length(&copy, slot)?));
    match recovered {
        Ok(bytes) => (bytes.to_string(), "deleted, can be recovered".into()),
        Err(status) => (
            "-".into(),
            format!(
                "deleted, cannot be recovered: {}",
                numbered_recovery(status)
            ),
        ),
    }
}

/// The number of bytes of the file in a slot, read to its end.
fn length(disk: &Disk<Vec<u8>>, slot: &Slot) -> Result<usize, Incomplete> {
    let channel = Channel::reading(slot.number.into(), slot.sectors);
    Ok(read_to_end(disk, channel)?.len())
}

/// Whether the library finds the volume table good: it looks at it before it looks for a name.
fn table_is_good(disk: &Disk<Vec<u8>>) -> bool {
    disk.clone().unlock("A") != Err(Status::BadTable)
}
