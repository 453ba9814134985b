//! Wrong variants of the model: what a comparison must be able to notice.
//!
//! `Model(Right)` is right. `Model(fault)`, for one of the [`Fault`]s, makes that one mistake.
//! [`Right`] answers as a constant that it makes none, so the right model carries no trace of
//! the others when compiled.

use crate::Model;

/// How a model is wrong, if it is.
pub trait Variant: Copy + 'static {
    /// Does this variant make the mistake?
    fn has(self, fault: Fault) -> bool;
}

/// The variant without a mistake.
#[derive(Clone, Copy, Debug)]
pub struct Right;

impl Variant for Right {
    #[inline(always)]
    fn has(self, _: Fault) -> bool {
        false
    }
}

impl Variant for Fault {
    fn has(self, fault: Fault) -> bool {
        self == fault
    }
}

/// Declares the faults, and the list of their texts.
macro_rules! faults {
    ($($name:ident: $text:literal,)*) => {
        /// The mistakes that a model can make.
        #[derive(Clone, Copy, Debug, PartialEq, Eq)]
        pub enum Fault {
            $(#[doc = $text] $name,)*
        }

        /// Every fault with what it does wrong.
        pub const FAULTS: &[(Fault, &str)] = &[$((Fault::$name, $text),)*];
    };
}

faults! {
    // Kinds of images.
    HeaderBeforeLength: "an image of another length that does not begin as a header does answers 205",
    HeaderWhole: "bytes 7 to 15 of a header must be zero",
    HeaderWithoutHighByte: "byte 6 of a header is not looked at",
    HeaderInBytes: "a header has the length in bytes and not in units of 16",
    HeaderNotSkipped: "the sectors of an ATR image begin with its header",
    HeaderIntoRaw: "a header is written into a raw image too",
    HeaderRestKept: "writing a header leaves bytes 7 to 15",
    OldHeaderLookedAt: "a header is not written over one that does not agree",
    // The volume table.
    MapFromLowEnd: "map bits are counted from the low end",
    GoodWithoutReserved: "a table with sector 368 marked free is good",
    GoodWithoutCount: "the free count is not compared with the map",
    FreeCountNotLowered: "giving out a sector does not lower the free count",
    FreeCountNotRaised: "freeing a chain does not raise the free count",
    HighestFree: "a sector given out is the highest free one",
    // The directory.
    SearchSkipsOutput: "a search skips files open for output",
    DirectoryPacked: "a search takes names from 256 bytes of a directory's sector, not from 128",
    SearchPastZero: "a search goes on behind a flag byte of zero",
    HeldSlotTaken: "a new file takes a slot that a channel holds",
    // File sectors.
    LinkAt125: "the last three bytes of a double density sector are at 125 to 127",
    AnyCountFits: "a double density sector may hold any number of bytes",
    HighLinkBits: "the high link bits are the top of byte 125",
    ChainWithoutSlot: "a chain is clean with sectors of another slot",
    ChainUnmarked: "a chain is clean with sectors that are marked free",
    LongestChain: "a chain of 707 sectors is not clean",
    // Channels.
    ClosedKeepsWords: "a closed channel keeps its other words",
    UnusedWordsCleared: "a call clears the words that its channel does not use, changed or not",
    OffsetNotTested: "get does not test the offset of a lent record",
    // Names.
    OtherDriveNoDevice: "another drive number answers 130",
    DigitFirst: "a name may begin with a digit",
    NoEndingByte: "a name may end with the lent bytes",
    NinthLetter: "a ninth letter is cut off",
    ZeroPadding: "rename pads the new name with 0",
    // Names that end in a blank.
    BlankEndsNoName: "a blank does not end a name",
    BlankEndsNoSecondName: "a blank does not end the second of rename's names",
    BlankEndsNoDevice: "a blank does not end a device alone",
    BlankEndsFirstName: "a blank ends the first of rename's names too",
    BlankBehindPoint: "a blank directly behind the point does not end a name",
    BlanksPassedOver: "a name goes on behind a blank, so that D:A B is AB",
    BlanksPadOnly: "behind the blanks of a name only 0, $9B or nothing may follow",
    DevicePaddedOnly: "behind the blanks of a device alone only 0, $9B or nothing may follow",
    LongPadding: "a name with more than 255 blanks behind it is malformed",
    PlaceBehindEnding: "the place of a name's end is that of the byte behind the ending one",
    PlaceFromText: "the place of a name's end is counted from behind the device",
    PlaceOfLastBlank: "the place of a padded name's end is that of its last blank",
    PlaceBehindPadding: "the place of a padded name's end is that of the byte behind its blanks",
    RefusedNamePlace: "a refused name reports the place of its first ending byte",
    // The order of refusals.
    ChannelBeforeImage: "134 comes before 203",
    ChannelBeforeHeader: "134 comes before 205",
    UnitBeforeHeader: "138 comes before 205",
    AllOpenFirst: "an open with all eight channels open answers 200 before 129",
    NoBytesFirst: "a get or put of no bytes answers 1 before 131 and 135",
    DirectionAfterName: "an open looks at its direction behind the name",
    SearchBeforeTable: "170 comes before 163",
    HeldBeforeLocked: "200 comes before 167",
    NoSectorFirst: "162 comes before 169",
    LockOfLocked: "lock and unlock of a locked file answer 167",
    OpenOfRead: "an open for reading answers 200 for every slot that is held",
    // The write-protect notch.
    NotchOneOnly: "a notch other than 0 and 1 is open",
    NotchBeforeChannel: "144 comes before 129, 133 and 135",
    NotchBeforeDirection: "an open with a bad direction answers 144 before 168",
    NotchAfterName: "144 comes after names are read",
    NotchAfterNoBytes: "a put of no bytes answers 1 with the notch closed",
    NotchOfAnyClose: "with the notch closed the close of every channel answers 144",
    NotchAfterOutputFlag: "close of a writing channel whose slot is not $43 answers 164 before 144",
    ProtectedCloseFrees: "close with 144 frees the channel",
    NotchAfterSlot: "recovery answers 170 before 144",
    NotchOfSectorReads: "with the notch closed a sector read answers 144",
    NotchBeforeSector: "a sector write answers 144 before 139",
    NotchAfterBuffer: "a sector write answers 204 before 144",
    NotchBeforeLength: "writing a header answers 144 before 203",
    ThinPutUnprotected: "the thin put does not look at the notch",
    // Lines of text.
    GetRecordNotServed: "get record answers 168",
    PutRecordNotServed: "put record answers 168",
    EmptyRecordFirst: "a get record into an empty buffer answers 1 before 133 and 131",
    EmptyRecordTested: "a get record into an empty buffer answers 164 where its channel does not fit the disk",
    EmptyRecordDrops: "a get record into an empty buffer drops a line",
    LineEndPassed: "get record passes over the $9B of a line and does not deliver it",
    LineEndLeft: "get record leaves the $9B of a line to be read again",
    LineRestCleared: "get record clears the buffer behind a line",
    LastLineEnds: "get record of a last line without $9B answers 1",
    LineEndFits: "get record answers 1 where the $9B stands directly behind what fills the buffer",
    LineEndsWithFile: "get record answers 1 where the file ends directly behind what fills the buffer",
    LongLineLeft: "get record leaves the rest of a line that the buffer does not hold to be read",
    LongLineToSector: "get record drops the rest of a line to the end of its sector only",
    LongLineEndLeft: "get record leaves the $9B of a line whose rest it drops",
    LongLineNotCounted: "get record with 137 reports no bytes",
    EndWhileDropping: "get record answers 136 where the file ends while it drops",
    DamageWhileDropping: "get record answers 137 at a bad sector while it drops",
    OwnEndCounted: "put record reports its own $9B",
    OwnEndAlways: "put record adds a $9B behind the one that is there",
    OwnEndForgotten: "put record answers 1 where only its own $9B does not fit",
    OwnEndTakesCount: "put record reports no bytes where only its own $9B does not fit",
    OwnEndTested: "put record makes its 164 tests again before its own $9B",
    PutRecordGoesOn: "put record writes the bytes behind its first $9B too",
    EmptyLineNotPut: "put record of an empty buffer answers 1 and writes nothing",
    PutRecordUnprotected: "put record does not look at the notch",
    EmptyLineUnprotected: "put record of an empty buffer does not look at the notch",
    // The file's end.
    EndNotReported: "get and get record answer 1 at the file's end",
    EndOfRecordsOnly: "get answers 1 at the file's end, and get record 3",
    EndOfGetsOnly: "get record answers 1 at the file's end, and get 3",
    ThinGetWithoutEnd: "the thin get answers 1 at the file's end",
    EndOfPuts: "put answers 3, since it leaves its channel at the file's end",
    EndOfNoBytes: "a get of no bytes answers 3 at the file's end",
    EndOfEmptyRecord: "a get record into an empty buffer answers 3 at the file's end",
    EndOfEverySector: "get answers 3 at the end of a sector that another follows",
    EndWithinSector: "get answers 3 within a sector whose next sector is 0",
    LineEndsWithinSector: "get record answers 3 within a sector whose next sector is 0",
    EndBeforeEmptySectors: "get answers 3 where only empty sectors follow",
    EndByLeft: "get answers 3 where another sector follows and none is left to enter",
    EndOnlyWithNoneLeft: "get answers 3 only where no sector is left to enter",
    EndByLowLink: "get answers 3 where the low eight bits of the next sector are 0",
    EndOfFullSectors: "get answers 3 only at the end of a full sector",
    EndOfUsedSectors: "get answers 3 only at the end of a sector that is marked used",
    EndOfStandingFiles: "get answers 3 only for a slot that stands",
    EndNotCounted: "get with 3 reports no bytes",
    EndClearsLeft: "get with 3 leaves no sectors to enter",
    EndRewinds: "get with 3 leaves its channel before the file's first byte",
    ShortGetReachesEnd: "get answers 3 where the file ends before the buffer is full",
    NothingReachesEnd: "get answers 3 with no bytes where the file has ended",
    LastLineReachesEnd: "get record of a last line without $9B answers 3",
    FullLineReachesEnd: "get record answers 3 where the file ends directly behind what fills the buffer",
    DroppedEndReached: "get record answers 3 where the file ends while it drops",
    DroppedLineReachesEnd: "get record answers 3 where the $9B that it drops is the file's last byte",
    // Commands.
    NoSuchReserved: "commands 0 to 2 answer 168",
    CountKept: "a file opened again for output counts on from its old length",
    BytesInUseKept: "a sector given out keeps its old count of bytes in use",
    SectorTooEarly: "put gives out a sector as soon as the last one is full",
    PutFills125: "put fills 125 bytes of a sector in either density",
    FirstPutOnly: "put stores into an empty file and only reports afterwards",
    ByteCountNotStored: "put does not write byte 127",
    NoCountOfPart: "put with 162 reports no bytes",
    PutBehindEnd: "put does not ask that the last sector has next sector 0",
    PutAnyCount: "put takes a slot with a count above 707",
    LeftNotLowered: "get lowers the sectors left to enter for empty sectors alone",
    LeftIgnored: "get enters a sector with bytes when none are left to enter",
    EndTooEarly: "get answers 136 when it delivers the last byte",
    EmptySectorEnds: "get ends at a sector with count 0",
    RestCleared: "get clears the rest of the buffer",
    OutputFlagKept: "close leaves the flag $43",
    CloseKeepsChannel: "close with 164 leaves the channel open",
    StatusOfLocked: "status of a locked file answers 1",
    SameNameTaken: "rename to a file's own name answers 201",
    LockClears: "lock clears the flag that it should set",
    DeleteKeepsFlag: "delete adds $80 to the flag",
    DeleteWithoutChain: "delete of a file whose chain is not clean frees nothing and answers 1",
    FormatKeepsData: "format clears the volume table and the directory alone",
    FormatClearsHeader: "format clears the header",
    FormatClearsHalves: "format clears the first 128 bytes of each sector alone",
    FormatUnderChannel: "format does not ask whether a channel is open",
    // Recovery.
    RecoverAnySlotNumber: "recovery does not look at the slot number in the sectors",
    RecoverTakenName: "recovery does not look for another file of the name",
    RecoverIllegalName: "recovery takes back a file without a legal name",
    RecoverPastZero: "recovery takes back a slot behind a flag byte of zero",
    RecoverFixedCount: "recovery always reports one sector",
    RecoverCountKept: "recovery does not lower the free count",
    // Sector calls and showing.
    WriteShort: "a sector write leaves the last byte",
    LastSector: "a sector call refuses sector 720",
    BufferFirst: "204 comes before 139",
    BootSectorsLong: "sectors 1 to 3 of a double density disk have 256 bytes",
    FourthSectorEarly: "a double density disk has two sectors of 128 bytes before sector 4",
    ReportsSingle: "a sector call always reports 128",
    ShowWholeSector: "showing hands back all data bytes",
    ShowWithoutHeader: "showing does not count the header into the offset",
    ShowUnused: "showing answers no for an empty sector",
    // Thin calls, and names taken apart.
    ThinKeepsRecord: "the thin put does not advance the record",
    ThinStateFirst: "a thin call answers 133 before 203",
    RefusedNameWritten: "a refused name blanks the eleven bytes",
}

impl<V: Variant> Model<V> {
    /// Does this model make the mistake?
    #[inline(always)]
    pub(crate) fn wrong(self, fault: Fault) -> bool {
        self.0.has(fault)
    }
}
