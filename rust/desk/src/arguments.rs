//! The words behind a command.

use crate::{failure::Failure, help::Command};
use std::ffi::OsString;

/// What a command is called with.
pub struct Arguments {
    /// Those of the command's options that were given.
    options: Vec<&'static str>,
    pub operands: Vec<OsString>,
}

impl Arguments {
    /// As many as the command takes, or none where help is asked for. Behind -- nothing is an option.
    pub fn read(command: &Command, words: &[OsString]) -> Result<Option<Arguments>, Failure> {
        let mut arguments = Arguments {
            options: Vec::new(),
            operands: Vec::new(),
        };
        let mut words = words.iter();
        while let Some(word) = words.next() {
            if is_help(word) {
                return Ok(None);
            } else if word == "--" {
                arguments.operands.extend(words.by_ref().cloned());
            } else if word != "-" && word.as_encoded_bytes().starts_with(b"-") {
                arguments.options.push(option(command, word)?);
            } else {
                arguments.operands.push(word.clone());
            }
        }
        let count = arguments.operands.len();
        if count < command.least || count > command.most {
            return Err(Failure::new(command.usage()));
        }
        Ok(Some(arguments))
    }

    /// Whether an option was given.
    pub fn has(&self, option: &str) -> bool {
        self.options.contains(&option)
    }
}

/// The option of the command that a word names.
fn option(command: &Command, word: &OsString) -> Result<&'static str, Failure> {
    let known = command.options.iter().find(|option| word == **option);
    let unknown = || {
        let (word, name) = (word.display(), command.name);
        format!("no option {word}: see desk {name} --help")
    };
    Ok(known.copied().ok_or_else(unknown)?)
}

pub fn is_help(word: &OsString) -> bool {
    word == "--help" || word == "-h"
}
