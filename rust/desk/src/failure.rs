//! Why a command failed, in one line.

use hilugsaban::{Incomplete, Status};
use std::{
    fmt::Display,
    io::{self, Write},
};

/// A message for the person at the terminal.
#[derive(Debug)]
pub struct Failure(String);

impl Failure {
    pub fn new(message: impl Into<String>) -> Failure {
        Failure(message.into())
    }

    /// Prints the message, if there is one. Where it cannot be printed, the exit status has to do.
    pub fn report(&self) {
        if !self.0.is_empty() {
            let _ = writeln!(io::stderr(), "desk: {self}");
        }
    }
}

impl Display for Failure {
    fn fmt(&self, f: &mut std::fmt::Formatter<'_>) -> std::fmt::Result {
        f.write_str(&self.0)
    }
}

impl From<String> for Failure {
    fn from(message: String) -> Failure {
        Failure(message)
    }
}

/// An error of the output. One that nobody reads any more needs no message.
impl From<io::Error> for Failure {
    fn from(error: io::Error) -> Failure {
        match error.kind() {
            io::ErrorKind::BrokenPipe => Failure::new(""),
            _ => Failure::new(format!("output: {error}")),
        }
    }
}

/// A status with its number, as every message shows it.
pub fn numbered(status: Status) -> String {
    format!("{} {status}", status.number())
}

/// The answer of a recovery, as [`numbered`]. It is asked for a slot and not for a name, so two refusals mean something else.
pub fn numbered_recovery(status: Status) -> String {
    match status {
        Status::NotFound => format!("{} no deleted file is in this slot", status.number()),
        Status::BadName => format!("{} the name in this slot is not legal", status.number()),
        _ => numbered(status),
    }
}

/// The answer of a call on a name, as [`numbered`]. A blank ends a name: one that has something behind it is malformed for that.
pub fn numbered_name(status: Status, name: &str) -> String {
    match status {
        Status::BadName if name.trim_end_matches(' ').contains(' ') => format!(
            "{} a blank ends a name, and something stands behind it",
            status.number()
        ),
        _ => numbered(status),
    }
}

/// Says what an error is about.
pub trait About<T> {
    fn about(self, what: impl Display) -> Result<T, Failure>;
}

impl<T> About<T> for Result<T, Status> {
    fn about(self, what: impl Display) -> Result<T, Failure> {
        self.map_err(|status| Failure(format!("{what}: {}", numbered(status))))
    }
}

impl<T> About<T> for Result<T, Incomplete> {
    fn about(self, what: impl Display) -> Result<T, Failure> {
        self.map_err(|Incomplete { status, count }| {
            Failure(format!("{what}: {}, after {count} bytes", numbered(status)))
        })
    }
}

impl<T> About<T> for Result<T, Failure> {
    fn about(self, what: impl Display) -> Result<T, Failure> {
        self.map_err(|failure| Failure(format!("{what}: {failure}")))
    }
}

impl<T> About<T> for io::Result<T> {
    fn about(self, what: impl Display) -> Result<T, Failure> {
        self.map_err(|error| Failure(format!("{what}: {error}")))
    }
}
