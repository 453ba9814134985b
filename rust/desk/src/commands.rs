//! The commands that work on one image file.

use crate::{
    arguments::Arguments,
    contents::read_file,
    directory,
    dump::dump,
    failure::{numbered, numbered_name, numbered_recovery, About, Failure},
    header,
    image_file::{self, ImageFile},
    syntax,
    text::{for_disk, for_host},
    whole_file,
};
use hilugsaban::{padded_name, Direction, Disk, Kind, Notch, Status};
use std::{
    ffi::OsStr,
    fs::File,
    io::{self, Read, Write},
    path::Path,
};

type Outcome = Result<(), Failure>;

/// Where no channel is open, any serves.
const CHANNEL: u8 = 0;

/// The options of `new`.
pub const ATR: &str = "--atr";
pub const DOUBLE: &str = "--double";

/// The option of `get` and `put`.
pub const TEXT: &str = "--text";

/// The option of every command that takes an image which is there already.
pub const PROTECT: &str = "--protect";

/// The disk in these bytes of a file, if its header is right.
fn disk(bytes: Vec<u8>, notch: Notch, image: &OsStr) -> Result<Disk<Vec<u8>>, Failure> {
    let mut disk = Disk::new(bytes).with_notch(notch);
    header::require(&mut disk).about(image.display())?;
    Ok(disk)
}

/// Reads an image to look at it. Nothing is to change it, so its notch is closed, with [`PROTECT`] and without.
fn load(image: &OsStr) -> Result<Disk<Vec<u8>>, Failure> {
    disk(image_file::read(Path::new(image))?, Notch::Closed, image)
}

/// Changes the image that a command names first: it is written back if every call succeeded.
fn edit<T>(
    arguments: &Arguments,
    calls: impl FnOnce(&mut Disk<Vec<u8>>) -> Result<T, Failure>,
) -> Result<T, Failure> {
    let image = &arguments.operands[0];
    let (mut file, bytes) = ImageFile::open(Path::new(image), arguments.has(PROTECT))?;
    let mut disk = disk(bytes, file.notch(), image)?;
    require_unprotected(&mut disk, &file).about(image.display())?;
    let answer = calls(&mut disk)?;
    file.write_back(disk.image())?;
    Ok(answer)
}

/// Refuses to change the image of a protected file, before the command reads names, as the library does. It is the library
/// that is asked, for a slot that no disk has.
fn require_unprotected(disk: &mut Disk<Vec<u8>>, file: &ImageFile) -> Result<(), Failure> {
    let Some(protection) = file.protection() else {
        return Ok(());
    };
    let refused = |status| {
        let refusal = numbered(status);
        format!("{refusal} ({protection}); the file was left alone")
    };
    disk.recover(u8::MAX).map_err(refused)?;
    Ok(())
}

/// An argument that is no path.
fn text(argument: &OsStr) -> Result<&str, Failure> {
    argument
        .to_str()
        .ok_or(Status::BadName)
        .about(argument.display())
}

/// A name on the disk, without the blanks that may pad it. One that a blank would cut short is refused.
fn name(argument: &OsStr) -> Result<&str, Failure> {
    let name = text(argument)?.trim_end_matches(' ');
    if name.contains(' ') {
        let refusal = numbered_name(Status::BadName, name);
        return Err(Failure::new(format!("{name}: {refusal}")));
    }
    Ok(name)
}

pub fn new(arguments: &Arguments, _: &mut dyn Write) -> Outcome {
    let kind = match (arguments.has(ATR), arguments.has(DOUBLE)) {
        (_, true) => Kind::AtrDouble,
        (true, false) => Kind::AtrSingle,
        (false, false) => Kind::Raw,
    };
    let disk = Disk::fresh_as(kind);
    image_file::create(Path::new(&arguments.operands[0]), disk.image())
}

pub fn convert(arguments: &Arguments, _: &mut dyn Write) -> Outcome {
    let image = &arguments.operands[0];
    let disk = load(image)?;
    let converted = other_form(&disk).about(image.display())?;
    image_file::create(Path::new(&arguments.operands[1]), converted.image())
}

/// The same sectors in an image of the other kind of single density.
fn other_form(disk: &Disk<Vec<u8>>) -> Result<Disk<Vec<u8>>, Failure> {
    let (from, to) = match disk.kind() {
        Some(Kind::Raw) => (Kind::Raw, Kind::AtrSingle),
        Some(Kind::AtrSingle) => (Kind::AtrSingle, Kind::Raw),
        _ => {
            return Err(Failure::new(
                "a double density disk has no raw form: its sectors of 256 bytes have no place in a raw image, whose sectors have 128",
            ))
        }
    };
    let mut converted = Disk::fresh_as(to);
    let sectors = &disk.image()[from.header_bytes()..];
    converted.image_mut()[to.header_bytes()..].copy_from_slice(sectors);
    Ok(converted)
}

pub fn list(arguments: &Arguments, out: &mut dyn Write) -> Outcome {
    directory::list(&load(&arguments.operands[0])?, out)
}

pub fn get(arguments: &Arguments, out: &mut dyn Write) -> Outcome {
    let image = &arguments.operands[0];
    let mut disk = load(image)?;
    let name = name(&arguments.operands[1])?;
    let mut bytes = read_file(&mut disk, name)?;
    if arguments.has(TEXT) {
        bytes = for_host(bytes).about(name)?;
    }
    match arguments.operands.get(2) {
        Some(file) if file == "-" => Ok(out.write_all(&bytes)?),
        Some(file) if whole_file::same(Path::new(image), Path::new(file)) => {
            let file = file.display();
            Err(Failure::new(format!("{file}: is the image itself")))
        }
        Some(file) => whole_file::write(Path::new(file), &bytes).about(file.display()),
        None => {
            let own_name = name.rsplit(':').next().unwrap_or(name);
            whole_file::create(Path::new(own_name), &bytes).about(own_name)
        }
    }
}

pub fn put(arguments: &Arguments, _: &mut dyn Write) -> Outcome {
    let file = &arguments.operands[1];
    if file == "-" && arguments.operands.len() < 3 {
        return Err(Failure::new("standard input needs a NAME"));
    }
    let own_name = Path::new(file)
        .file_name()
        .unwrap_or(file)
        .to_ascii_uppercase();
    let mut bytes = if file == "-" {
        read_input(io::stdin().lock())
    } else {
        File::open(file).and_then(read_input)
    }
    .about(file.display())?;
    if arguments.has(TEXT) {
        bytes = for_disk(bytes).about(file.display())?;
    }
    edit(arguments, |disk| {
        let name = name(arguments.operands.get(2).unwrap_or(&own_name))?;
        disk.open(CHANNEL, Direction::Write, name).about(name)?;
        disk.put(CHANNEL, &bytes).about(name)?;
        disk.close(CHANNEL).about(name)
    })
}

/// Reads the bytes to put, but of an input that no disk can hold only the first byte too many, which the put refuses.
fn read_input(input: impl Read) -> io::Result<Vec<u8>> {
    const LONGEST: usize = Kind::AtrDouble.longest_file();
    let mut bytes = Vec::new();
    input.take(LONGEST as u64 + 1).read_to_end(&mut bytes)?;
    Ok(bytes)
}

pub fn delete(arguments: &Arguments, _: &mut dyn Write) -> Outcome {
    on_names(arguments, Disk::delete)
}

pub fn lock(arguments: &Arguments, _: &mut dyn Write) -> Outcome {
    on_names(arguments, Disk::lock)
}

pub fn unlock(arguments: &Arguments, _: &mut dyn Write) -> Outcome {
    on_names(arguments, Disk::unlock)
}

/// Makes the same call for each name behind the image.
fn on_names(
    arguments: &Arguments,
    call: fn(&mut Disk<Vec<u8>>, &str) -> Result<(), Status>,
) -> Outcome {
    edit(arguments, |disk| {
        for argument in &arguments.operands[1..] {
            let name = name(argument)?;
            call(disk, name).about(name)?;
        }
        Ok(())
    })
}

pub fn rename(arguments: &Arguments, _: &mut dyn Write) -> Outcome {
    edit(arguments, |disk| {
        let (old, new) = (name(&arguments.operands[1])?, name(&arguments.operands[2])?);
        disk.rename(old, new).about(format!("{old} to {new}"))
    })
}

pub fn recover(arguments: &Arguments, out: &mut dyn Write) -> Outcome {
    let (slot, sectors) = edit(arguments, |disk| {
        let which = text(&arguments.operands[1])?;
        let slot = if which.starts_with(|first: char| first.is_ascii_digit() || first == '$') {
            syntax::number(which)?
        } else {
            deleted_slot(disk, name(&arguments.operands[1])?)?
        };
        let refused = |status| format!("slot {slot}: {}", numbered_recovery(status));
        Ok((slot, disk.recover(slot).map_err(refused)?))
    })?;
    Ok(writeln!(
        out,
        "slot {slot} recovered, sectors taken back: {sectors}"
    )?)
}

/// The slot of the deleted file with a name: the only one, or of several the only one that can be recovered.
fn deleted_slot(disk: &mut Disk<Vec<u8>>, name: &str) -> Result<u8, Failure> {
    let padded = padded_name(name).about(name)?;
    let slots = directory::slots(disk).about("directory")?;
    let named = slots
        .iter()
        .filter(|slot| slot.is_deleted() && slot.name == padded);
    let tried: Vec<_> = named
        .map(|slot| (slot.number, disk.clone().recover(slot.number)))
        .collect();
    let mut able = tried.iter().filter(|(_, answer)| answer.is_ok());
    match (&tried[..], able.next(), able.next()) {
        ([(only, _)], _, _) | (_, Some((only, _)), None) => Ok(*only),
        ([], ..) => Err(Failure::new(format!(
            "{name}: 170 no deleted file has this name"
        ))),
        _ => {
            let each = tried.iter().map(|(slot, answer)| match answer {
                Ok(_) => format!("slot {slot}: can be recovered"),
                Err(status) => format!("slot {slot}: {}", numbered_recovery(*status)),
            });
            let each: Vec<String> = each.collect();
            Err(Failure::new(format!(
                "{name}: several were deleted, name the slot ({})",
                each.join("; ")
            )))
        }
    }
}

pub fn sector(arguments: &Arguments, out: &mut dyn Write) -> Outcome {
    let number: u16 = syntax::number(text(&arguments.operands[1])?)?;
    let bytes = load(&arguments.operands[0])?
        .whole_sector(number)
        .about(format!("sector {number}"))?;
    Ok(dump(&bytes, out)?)
}
