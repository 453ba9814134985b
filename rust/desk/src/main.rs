//! Works on files of Atari DOS 2 disk images, in the manner of mtools: each command reads an image, makes its calls of the
//! proved library, and writes the image back when all of them succeeded.
#![forbid(unsafe_code)]

mod arguments;
mod commands;
mod contents;
mod demo;
mod directory;
mod dump;
mod exact;
mod failure;
mod header;
mod help;
mod image_file;
mod shell;
mod syntax;
mod text;
mod whole_file;

use std::{
    env,
    ffi::{OsStr, OsString},
    io::{self, Write},
    process::ExitCode,
};

use arguments::{is_help, Arguments};
use failure::Failure;
use help::Command;

fn main() -> ExitCode {
    let arguments: Vec<OsString> = env::args_os().skip(1).collect();
    let mut out = io::stdout().lock();
    let outcome = run(&arguments, &mut out).and_then(|()| Ok(out.flush()?));
    match outcome {
        Ok(()) => ExitCode::SUCCESS,
        Err(failure) => {
            failure.report();
            ExitCode::FAILURE
        }
    }
}

/// Finds the command and runs it, or prints help.
fn run(arguments: &[OsString], out: &mut dyn Write) -> Result<(), Failure> {
    let Some((first, rest)) = arguments.split_first() else {
        return Err(Failure::new("no command given: see desk --help"));
    };
    if is_help(first) || first == "help" {
        let text = match rest.first() {
            Some(name) if !is_help(name) => command_named(name)?.help(),
            _ => help::overview(),
        };
        return Ok(write!(out, "{text}")?);
    }
    let command = command_named(first)?;
    match Arguments::read(command, rest)? {
        Some(arguments) => (command.run)(&arguments, out),
        None => Ok(write!(out, "{}", command.help())?),
    }
}

fn command_named(name: &OsStr) -> Result<&'static Command, Failure> {
    let unknown = || format!("no command {}: see desk --help", name.display());
    Ok(help::find(name).ok_or_else(unknown)?)
}
