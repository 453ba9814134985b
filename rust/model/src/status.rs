//! Status numbers, and the answer of a call.

/// The status numbers of the paper's table, in the table's order, and those of its other sections.
#[derive(Clone, Copy, Debug, PartialEq, Eq)]
#[repr(u8)]
pub enum Status {
    /// The lent table or record is no table of channels (a rule of the C interface).
    Malformed = 255,
    /// The image has none of the three lengths; for the header's writer, no ATR image's.
    WrongImage = 203,
    /// The header of an ATR image does not agree with its length.
    WrongHeader = 205,
    /// The channel is above 7.
    NoSuchChannel = 134,
    /// The command is 0 to 2.
    ReservedCommand = 132,
    /// A command not listed, or an open with a direction other than 4 and 8.
    WrongCommand = 168,
    /// The command needs a closed channel.
    ChannelOpen = 129,
    /// A get or put, or one of a record, on a closed channel.
    ChannelClosed = 133,
    /// A get or get record on a writing channel.
    WriteOnly = 131,
    /// A put or put record on a reading channel.
    ReadOnly = 135,
    /// The notch is closed, and the call could change the image.
    Protected = 144,
    /// The name does not begin with `D`, an optional digit and a colon.
    NoSuchDevice = 130,
    /// The digit is not 1.
    NoSuchDrive = 160,
    /// The name is malformed.
    WrongName = 165,
    /// The volume table is not good.
    WrongVolumeTable = 163,
    /// The name is not found; for a recovery, there is no deleted slot of that number.
    NotFound = 170,
    /// The file is locked.
    Locked = 167,
    /// The slot is held by a channel, or a channel is open where a format is asked for.
    Held = 200,
    /// The chain, or a place on it, is not as it must be.
    WrongChain = 164,
    /// Another standing slot has the new name.
    NameTaken = 201,
    /// There is no slot for a new file.
    NoSlot = 169,
    /// There is no free sector.
    NoSector = 162,
    /// A get or get record succeeded, and its channel is at the end of a sector whose next sector is 0.
    EndReached = 3,
    /// The file ended before the buffer was full; for a get record, before the line ended too.
    EndOfFile = 136,
    /// The buffer of a get record was full before the line ended, and the line's rest was dropped.
    TruncatedRecord = 137,
    /// The deleted file's sectors cannot be taken back.
    NotRecoverable = 202,
    /// A sector call to another device or unit.
    WrongUnit = 138,
    /// A sector call with another command, or for no sector of the disk.
    WrongSector = 139,
    /// A sector call with a buffer of another length than the sector's.
    WrongBuffer = 204,
}

/// A status other than 1, with the count that is reported beside it. Of these 3 alone is a success.
#[derive(Clone, Copy, Debug, PartialEq, Eq)]
pub struct Stop {
    pub status: Status,
    pub count: usize,
}

impl From<Status> for Stop {
    /// Most refusals report the count 0.
    fn from(status: Status) -> Stop {
        Stop { status, count: 0 }
    }
}

/// What a call answers: the count with the status 1, or another status and its count.
pub type Outcome = Result<usize, Stop>;

/// The one number of the C interface: status + 256 * count.
pub fn number(outcome: Outcome) -> u64 {
    let (status, count) = match outcome {
        Ok(count) => (1, count),
        Err(stop) => (stop.status as u8, stop.count),
    };
    u64::from(status) + 256 * count as u64
}
