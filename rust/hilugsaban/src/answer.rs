//! What a call answers: a status and a count.

use std::{error::Error, fmt, io};

/// Declares each status once: its name, its number and its message.
macro_rules! statuses {
    ($($name:ident = $number:literal, $message:literal;)*) => {
        /// A status number, by name.
        ///
        /// ```
        /// use hilugsaban::Status;
        ///
        /// assert_eq!(Status::NotFound.number(), 170);
        /// assert_eq!(Status::NotFound.to_string(), "no file has this name");
        /// ```
        #[derive(Clone, Copy, PartialEq, Eq, Hash, Debug)]
        #[non_exhaustive]
        #[repr(u8)]
        pub enum Status {
            $(#[doc = concat!(stringify!($number), ": ", $message, ".")] $name = $number,)*
        }

        impl Status {
            /// Every status, by rising number.
            pub const ALL: &'static [Status] = &[$(Status::$name),*];

            /// The status with this number.
            pub fn from_number(number: u8) -> Option<Status> {
                match number {
                    $($number => Some(Status::$name),)*
                    _ => None,
                }
            }

            /// What it means, in a few words.
            pub fn message(self) -> &'static str {
                match self {
                    $(Status::$name => $message,)*
                }
            }
        }
    };
}

statuses! {
    Success = 1, "success";
    EndReached = 3, "success, and the file's end was reached";
    ChannelOpen = 129, "the channel is open and must be closed for this command";
    BadDevice = 130, "the name does not begin with D: or D1:";
    WriteOnly = 131, "the channel is open for writing only";
    BadCommand = 132, "no such command";
    ChannelClosed = 133, "the channel is closed";
    BadChannel = 134, "no such channel: they are 0 to 7";
    ReadOnly = 135, "the channel is open for reading only";
    EndOfFile = 136, "the file has ended";
    TruncatedRecord = 137, "the line did not end within the buffer, and its rest was dropped";
    NoDevice = 138, "no such device: only device $31, unit 1 answers";
    BadRequest = 139, "no such sector or sector command";
    WriteProtected = 144, "the write-protect notch is closed";
    BadUnit = 160, "no such drive: there is only drive 1";
    DiskFull = 162, "no sector is free";
    BadTable = 163, "the disk's volume table is damaged";
    BadChain = 164, "the file's sectors, or its channel, do not fit together";
    BadName = 165, "the name is malformed: capitals and digits, a letter first, at most 8 and 3";
    FileLocked = 167, "the file is locked";
    NotServed = 168, "the command or direction is not served";
    NoSlot = 169, "the directory is full";
    NotFound = 170, "no file has this name";
    FileHeld = 200, "the file is open, or for a format a channel";
    NameTaken = 201, "another file has this name";
    LostChain = 202, "not all sectors of the deleted file are still free and its own";
    BadImage = 203, "the image is not 92160, 92176 or 183952 bytes long";
    BadLength = 204, "the buffer is not as long as the sector";
    BadHeader = 205, "the image's header does not agree with its length";
    BadArgument = 255, "a channel of no known kind, or a table, channel or name buffer of the wrong length";
}

impl Status {
    /// The number that the library answers.
    pub fn number(self) -> u8 {
        self as u8
    }

    /// Whether the call did all that was asked for.
    ///
    /// ```
    /// use hilugsaban::Status;
    ///
    /// let successes = Status::ALL.iter().filter(|status| status.is_success());
    /// assert_eq!(successes.collect::<Vec<_>>(), [&Status::Success, &Status::EndReached]);
    /// ```
    pub fn is_success(self) -> bool {
        matches!(self, Status::Success | Status::EndReached)
    }

    /// `Ok` for a success, else the refusal.
    pub fn ok(self) -> Result<(), Status> {
        if self.is_success() {
            Ok(())
        } else {
            Err(self)
        }
    }
}

impl fmt::Display for Status {
    fn fmt(&self, f: &mut fmt::Formatter<'_>) -> fmt::Result {
        f.write_str(self.message())
    }
}

impl Error for Status {}

impl From<Status> for io::Error {
    fn from(status: Status) -> io::Error {
        use io::ErrorKind::*;
        let kind = match status {
            Status::NotFound => NotFound,
            Status::FileLocked | Status::WriteOnly | Status::ReadOnly => PermissionDenied,
            Status::WriteProtected => ReadOnlyFilesystem,
            Status::FileHeld | Status::ChannelOpen => ResourceBusy,
            Status::NameTaken => AlreadyExists,
            Status::DiskFull | Status::NoSlot => StorageFull,
            Status::EndOfFile => UnexpectedEof,
            Status::BadTable
            | Status::BadChain
            | Status::LostChain
            | Status::BadImage
            | Status::BadHeader => InvalidData,
            _ => InvalidInput,
        };
        io::Error::new(kind, status)
    }
}

/// Status and count of a call.
#[derive(Clone, Copy, PartialEq, Eq, Debug)]
#[must_use]
pub struct Answer {
    /// Whether the call did what was asked, or why not.
    pub status: Status,
    /// Bytes of a get, put, record or sector call, sectors of a recovery, the place of a name's ending byte, else 0.
    pub count: usize,
}

impl Answer {
    /// Takes the word that a call of [`raw`](crate::raw) answers apart.
    ///
    /// # Panics
    /// If its status is one that this version of the crate does not know; the linked archive is of another version then.
    pub fn from_word(word: u64) -> Answer {
        let number = (word & 255) as u8;
        let Some(status) = Status::from_number(number) else {
            panic!("libcapi.a answered {number}, a status that this version of the crate does not know")
        };
        Answer {
            status,
            count: (word >> 8) as usize,
        }
    }

    /// The count of a success, else the refusal alone.
    pub fn ok(self) -> Result<usize, Status> {
        self.status.ok().map(|()| self.count)
    }

    /// The count of a success, else the refusal with the count of what was done.
    pub fn complete(self) -> Result<usize, Incomplete> {
        let Answer { status, count } = self;
        match status.ok() {
            Ok(()) => Ok(count),
            Err(status) => Err(Incomplete { status, count }),
        }
    }

    /// The same of a get or get record, with whether it came to the file's end.
    pub fn got(self) -> Result<Got, Incomplete> {
        let end_reached = self.status == Status::EndReached;
        let count = self.complete()?;
        Ok(Got { count, end_reached })
    }
}

/// What a get brought that transferred all its bytes, or a get record that transferred a whole line.
#[derive(Clone, Copy, PartialEq, Eq, Debug)]
pub struct Got {
    /// The bytes that came; of a line with its end of line.
    pub count: usize,
    /// Whether the last of them is the file's last, which is [`Status::EndReached`]: a next get would find the file ended, with
    /// [`Status::EndOfFile`] and no bytes. It is false where only empty sectors follow, as they do in no file that was written
    /// by puts, and for a get of no bytes.
    pub end_reached: bool,
}

/// A get or put that did not transfer all its bytes, or a get record or put record that did not transfer a whole line.
#[derive(Clone, Copy, PartialEq, Eq, Debug)]
pub struct Incomplete {
    /// Why it stopped.
    pub status: Status,
    /// The bytes transferred before that.
    pub count: usize,
}

impl fmt::Display for Incomplete {
    fn fmt(&self, f: &mut fmt::Formatter<'_>) -> fmt::Result {
        write!(f, "{} after {} bytes", self.status, self.count)
    }
}

impl Error for Incomplete {
    fn source(&self) -> Option<&(dyn Error + 'static)> {
        Some(&self.status)
    }
}

/// The error of its status; the count is lost.
impl From<Incomplete> for io::Error {
    fn from(incomplete: Incomplete) -> io::Error {
        incomplete.status.into()
    }
}

impl From<Incomplete> for Status {
    fn from(incomplete: Incomplete) -> Status {
        incomplete.status
    }
}

#[cfg(test)]
mod tests {
    use super::*;

    #[test]
    fn numbers_name_their_status() {
        for &status in Status::ALL {
            assert_eq!(Status::from_number(status.number()), Some(status));
        }
        assert_eq!(
            (0..=255).filter_map(Status::from_number).count(),
            Status::ALL.len()
        );
        assert!(Status::ALL
            .windows(2)
            .all(|pair| pair[0].number() < pair[1].number()));
    }

    #[test]
    fn words_come_apart() {
        assert_eq!(
            Answer::from_word(136 + 256 * 88_375),
            Answer {
                status: Status::EndOfFile,
                count: 88_375
            }
        );
        assert_eq!(Answer::from_word(1).ok(), Ok(0));
        assert_eq!(Answer::from_word(170).ok(), Err(Status::NotFound));
        assert_eq!(Answer::from_word(3 + 256 * 9).ok(), Ok(9));
        assert_eq!(Answer::from_word(3 + 256 * 9).complete(), Ok(9));
        for (status, end_reached) in [(1, false), (3, true)] {
            let got = Answer::from_word(status + 256 * 9).got();
            let count = 9;
            assert_eq!(got, Ok(Got { count, end_reached }));
        }
        let ended = Answer::from_word(136 + 256 * 9);
        assert_eq!(ended.got().unwrap_err(), ended.complete().unwrap_err());
        let full = Answer::from_word(162 + 256 * 3).complete().unwrap_err();
        assert_eq!(full.to_string(), "no sector is free after 3 bytes");
        assert_eq!(Status::from(full), Status::DiskFull);
        assert_eq!(io::Error::from(full).kind(), io::ErrorKind::StorageFull);
    }
}
