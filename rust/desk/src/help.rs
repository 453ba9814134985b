//! The commands with their help.

use crate::{
    arguments::Arguments,
    commands::{self, ATR, DOUBLE, PROTECT, TEXT},
    demo,
    failure::Failure,
    shell,
};
use std::{ffi::OsStr, io::Write};

/// A command of the program.
pub struct Command {
    pub name: &'static str,
    pub arguments: &'static str,
    pub options: &'static [&'static str],
    /// Fewest and most arguments.
    pub least: usize,
    pub most: usize,
    pub summary: &'static str,
    pub details: &'static str,
    pub run: fn(&Arguments, &mut dyn Write) -> Result<(), Failure>,
}

impl Command {
    /// How the command is called.
    pub fn usage(&self) -> String {
        let option = self.if_protectable("[--protect] ");
        let usage = format!("usage: desk {} {option}{}", self.name, self.arguments);
        usage.trim_end().to_string()
    }

    /// What `desk NAME --help` prints.
    pub fn help(&self) -> String {
        let protection = self.if_protectable(PROTECTION);
        let (usage, summary, details) = (self.usage(), self.summary, self.details);
        format!("{usage}\n\n{summary}.\n{details}{protection}")
    }

    /// A text of the commands that take `--protect`; nothing for the others.
    fn if_protectable(&self, text: &'static str) -> &'static str {
        if self.options.contains(&PROTECT) {
            text
        } else {
            ""
        }
    }
}

/// What each command that takes `--protect` says about it.
const PROTECTION: &str = "
With --protect, and where the file may not be written, the image's write-protect notch is closed: what would
change the image is refused with 144, and the file is left alone. A file that nobody has the permission to
write may not be written by root either.
";

pub fn find(name: &OsStr) -> Option<&'static Command> {
    COMMANDS.iter().find(|command| name == command.name)
}

/// What `desk --help` prints.
pub fn overview() -> String {
    let mut text = String::from(
        "desk works on files of Atari DOS 2 disk images: raw images of 92,160 bytes, and ATR files of single density\n\
         (92,176 bytes) and of double density (183,952 bytes).\n\nusage:\n",
    );
    for command in COMMANDS {
        let usage = format!("{} {}", command.name, command.arguments);
        text += &format!("  desk {usage:<31} {}\n", command.summary);
    }
    text += "
desk COMMAND --help says more about one of them. Names on a disk are like ENDS.DAT, capitals only; blanks
may pad them. A refusal is printed with its status number. The exit status is 0, or 1 where anything failed;
an image is written back only when everything succeeded.
With --protect, which all but new and demo take, the image's write-protect notch is closed, as it is where
the file may not be written: what would change the image is refused with 144, and the file is left alone.
";
    text
}

const COMMANDS: &[Command] = &[
    Command {
        name: "new",
        arguments: "[--atr|--double] IMAGE",
        options: &[ATR, DOUBLE],
        least: 1,
        most: 1,
        summary: "Make a fresh image",
        details: "It has no files and 707 free sectors: a raw image of single density, with --atr an ATR file of single\n\
                  density, with --double an ATR file of double density. The file must not exist yet, so that --protect is\n\
                  not taken.\n",
        run: commands::new,
    },
    Command {
        name: "convert",
        arguments: "IMAGE FILE",
        options: &[PROTECT],
        least: 2,
        most: 2,
        summary: "Make an ATR file of a raw image, or a raw image of an ATR file",
        details: "The sectors are the same in both. FILE must not exist yet, and IMAGE stays as it is.\n\
                  A disk of double density cannot be converted: it has no raw form.\n",
        run: commands::convert,
    },
    Command {
        name: "list",
        arguments: "IMAGE",
        options: &[PROTECT],
        least: 1,
        most: 1,
        summary: "List the files of an image",
        details: "Each with its slot in the directory, sectors and bytes; whether it is locked, open for output or\n\
                  damaged; for a deleted file, whether it can still be recovered, or the status that refuses it.\n",
        run: commands::list,
    },
    Command {
        name: "get",
        arguments: "[--text] IMAGE NAME [FILE]",
        options: &[PROTECT, TEXT],
        least: 2,
        most: 3,
        summary: "Copy a file out of an image",
        details: "FILE is NAME in the current folder if none is given, and must not exist then; - is standard output.\n\
                  A FILE that exists is replaced, but for the image itself.\n\
                  Nothing is written if the file cannot be read to its end.\n\
                  With --text each end of line, $9B, becomes a newline. No other byte changes, so that a last line without\n\
                  an end gets no newline. A file that has a newline, $0A, in it already is refused.\n",
        run: commands::get,
    },
    Command {
        name: "put",
        arguments: "[--text] IMAGE FILE [NAME]",
        options: &[PROTECT, TEXT],
        least: 2,
        most: 3,
        summary: "Copy a file into an image",
        details: "NAME is the file's own name in capitals if none is given. FILE - is standard input.\n\
                  A file of that name on the disk is replaced.\n\
                  With --text each newline becomes an end of line, $9B. No other byte changes, so that a carriage return\n\
                  stays and a last line without a newline gets no end. A FILE that has a $9B in it already is refused. So\n\
                  get --text gives back what put --text took.\n",
        run: commands::put,
    },
    Command {
        name: "delete",
        arguments: "IMAGE NAME...",
        options: &[PROTECT],
        least: 2,
        most: usize::MAX,
        summary: "Delete files",
        details: "All of them, or none if one is refused. See desk recover.\n",
        run: commands::delete,
    },
    Command {
        name: "recover",
        arguments: "IMAGE SLOT|NAME",
        options: &[PROTECT],
        least: 2,
        most: 2,
        summary: "Take a deleted file back",
        details: "By its slot in the directory (see desk list) or by its name. It is refused unless every sector of\n\
                  the file is still free and still its own.\n",
        run: commands::recover,
    },
    Command {
        name: "rename",
        arguments: "IMAGE OLD NEW",
        options: &[PROTECT],
        least: 3,
        most: 3,
        summary: "Rename a file",
        details: "",
        run: commands::rename,
    },
    Command {
        name: "lock",
        arguments: "IMAGE NAME...",
        options: &[PROTECT],
        least: 2,
        most: usize::MAX,
        summary: "Lock files against writing, renaming and deleting",
        details: "All of them, or none if one is refused.\n",
        run: commands::lock,
    },
    Command {
        name: "unlock",
        arguments: "IMAGE NAME...",
        options: &[PROTECT],
        least: 2,
        most: usize::MAX,
        summary: "Unlock files",
        details: "All of them, or none if one is refused.\n",
        run: commands::unlock,
    },
    Command {
        name: "sector",
        arguments: "IMAGE N",
        options: &[PROTECT],
        least: 2,
        most: 2,
        summary: "Print the bytes of a sector",
        details: "N is 1 to 720, also in hexadecimal ($168 or 0x168). In double density sectors 1 to 3 have 128 bytes\n\
                  and the others 256.\n",
        run: commands::sector,
    },
    Command {
        name: "shell",
        arguments: "[IMAGE]",
        options: &[PROTECT],
        least: 0,
        most: 1,
        summary: "Make calls one by one",
        details: shell::HELP,
        run: shell::run,
    },
    Command {
        name: "demo",
        arguments: "",
        options: &[],
        least: 0,
        most: 0,
        summary: "Show a file deleted and recovered, on a disk in memory",
        details: "",
        run: demo::run,
    },
];
