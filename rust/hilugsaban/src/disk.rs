//! A disk image with its channels, and the calls on it.

use crate::{
    answer::{Answer, Got, Incomplete},
    name::lent,
    raw, Channel, Kind, LineWriter, Lines, Notch, Reader, Status, Table, Writer,
};

/// Numbers of the commands, for [`Disk::cio`] and [`Disk::sector`].
pub mod command {
    /// Opens a file on a closed channel.
    pub const OPEN: u8 = 3;
    /// Reads a line from a channel.
    pub const GET_RECORD: u8 = 5;
    /// Reads from a channel.
    pub const GET: u8 = 7;
    /// Writes a line to a channel.
    pub const PUT_RECORD: u8 = 9;
    /// Writes to a channel.
    pub const PUT: u8 = 11;
    /// Closes a channel.
    pub const CLOSE: u8 = 12;
    /// Asks whether a file is there and not locked.
    pub const STATUS: u8 = 13;
    /// Renames a file.
    pub const RENAME: u8 = 32;
    /// Deletes a file.
    pub const DELETE: u8 = 33;
    /// Locks a file.
    pub const LOCK: u8 = 35;
    /// Unlocks a file.
    pub const UNLOCK: u8 = 36;
    /// Makes the disk fresh.
    pub const FORMAT: u8 = 254;
    /// Reads a sector, in a sector call.
    pub const READ_SECTOR: u8 = 0x52;
    /// Writes a sector, in a sector call; 0x50 does the same.
    pub const WRITE_SECTOR: u8 = 0x57;
}

/// The device and unit that sector calls answer for.
const SECTOR_DEVICE: u8 = 0x31;
const SECTOR_UNIT: u8 = 1;

/// What a file is opened for.
#[derive(Clone, Copy, PartialEq, Eq, Debug)]
#[repr(u8)]
pub enum Direction {
    /// A standing file, from its first byte.
    Read = 4,
    /// A new file, or a standing one emptied.
    Write = 8,
}

/// A disk image, owned or borrowed, with its table of channels and its [`Notch`].
///
/// `B` is anything that lends bytes: `Vec<u8>`, `Box<[u8]>`, `&mut [u8]`; a `&[u8]` can be shown and read by thin calls. An
/// image that has not the length of one of the three [kinds](Kind) is refused by each call, as is an ATR file whose header
/// does not agree with its length.
///
/// ```
/// use hilugsaban::{Direction, Disk, Status};
///
/// let mut bytes = vec![0; 92160];
/// let mut disk = Disk::new(&mut bytes[..]);
/// disk.format()?;
/// disk.open(1, Direction::Write, "A")?;
/// assert_eq!(disk.put(1, b"three")?, 5);
/// disk.close(1)?;
/// assert_eq!(&bytes[3 * 128..][..5], b"three");
///
/// assert_eq!(Disk::new([0; 100]).delete("A"), Err(Status::BadImage));
/// assert_eq!(Disk::new([0; 92176]).delete("A"), Err(Status::BadHeader));
/// # Ok::<(), Box<dyn std::error::Error>>(())
/// ```
#[derive(Clone, Debug)]
pub struct Disk<B> {
    image: B,
    table: Table,
    notch: Notch,
}

impl Disk<Vec<u8>> {
    /// A freshly formatted disk in a raw image.
    pub fn fresh() -> Disk<Vec<u8>> {
        Disk::fresh_as(Kind::Raw)
    }

    /// A freshly formatted disk in an image of a kind.
    ///
    /// ```
    /// # use hilugsaban::{Direction, Disk, Kind, Status};
    /// let mut disk = Disk::fresh_as(Kind::AtrDouble);
    /// disk.open(0, Direction::Write, "A")?;
    /// assert_eq!(disk.put(0, &[7; 254])?, 254);
    /// assert_eq!(disk.show(0, 4), Some(&[7; 253][..]));
    /// # Ok::<(), Box<dyn std::error::Error>>(())
    /// ```
    pub fn fresh_as(kind: Kind) -> Disk<Vec<u8>> {
        let mut disk = Disk::new(vec![0; kind.image_bytes()]);
        if kind.header_bytes() > 0 {
            disk.write_header()
                .expect("a header is written into an ATR file");
        }
        disk.format()
            .expect("an image with its header and all channels closed is formatted");
        disk
    }
}

impl<B> Disk<B> {
    /// The disk in these bytes, with all channels closed and its notch open.
    pub fn new(image: B) -> Disk<B> {
        Disk::with_table(image, Table::new())
    }

    /// The disk in these bytes, with its channels as they were and its notch open.
    pub fn with_table(image: B, table: Table) -> Disk<B> {
        Disk {
            image,
            table,
            notch: Notch::Open,
        }
    }

    /// The same disk with its notch as given.
    pub fn with_notch(self, notch: Notch) -> Disk<B> {
        Disk { notch, ..self }
    }

    /// The write-protect notch.
    pub fn notch(&self) -> Notch {
        self.notch
    }

    /// Opens or closes the write-protect notch.
    pub fn set_notch(&mut self, notch: Notch) {
        self.notch = notch;
    }

    /// The channels.
    pub fn table(&self) -> &Table {
        &self.table
    }

    /// The channels, to be changed.
    pub fn table_mut(&mut self) -> &mut Table {
        &mut self.table
    }

    /// The image and the channels.
    pub fn into_parts(self) -> (B, Table) {
        (self.image, self.table)
    }
}

impl<B: AsRef<[u8]>> Disk<B> {
    /// The image.
    pub fn image(&self) -> &[u8] {
        self.image.as_ref()
    }

    /// What the image is by its length. Whether the header of an ATR file agrees is for the library to say.
    pub fn kind(&self) -> Option<Kind> {
        Kind::of_length(self.image().len())
    }

    /// The data of one file sector, as part of the image: none if a get for this slot could not enter the sector.
    ///
    /// ```
    /// # use hilugsaban::{Direction, Disk};
    /// # let mut disk = Disk::fresh();
    /// disk.open(0, Direction::Write, "A")?;
    /// disk.put(0, b"three")?;
    /// assert_eq!(disk.show(0, 4), Some(&b"three"[..]));
    /// assert_eq!(disk.show(1, 4), None);
    /// # Ok::<(), Box<dyn std::error::Error>>(())
    /// ```
    pub fn show(&self, slot: u8, sector: u16) -> Option<&[u8]> {
        let word = raw::show(self.image(), slot, sector);
        let (offset, length) = ((word >> 18) as usize, (word >> 8 & 1023) as usize);
        (word & 255 == 1).then(|| &self.image()[offset..offset + length])
    }

    /// A get on a channel that is not in the table, which it moves on.
    ///
    /// ```
    /// # use hilugsaban::{Channel, Direction, Disk};
    /// # let mut disk = Disk::fresh();
    /// # disk.open(0, Direction::Write, "A")?;
    /// # disk.put(0, b"three")?;
    /// let mut channel = Channel::reading(0, 1);
    /// let mut bytes = [0; 2];
    /// assert_eq!(disk.thin_get(&mut channel, &mut bytes)?.count, 2);
    /// assert_eq!((&bytes, channel.sector, channel.offset), (b"th", 4, 2));
    /// # Ok::<(), Box<dyn std::error::Error>>(())
    /// ```
    pub fn thin_get(&self, channel: &mut Channel, buffer: &mut [u8]) -> Result<Got, Incomplete> {
        let mut words = channel.words();
        let word = raw::thin_get(self.image(), &mut words, buffer);
        *channel = words.into();
        Answer::from_word(word).got()
    }
}

impl<B: AsMut<[u8]>> Disk<B> {
    /// The image, to be changed.
    pub fn image_mut(&mut self) -> &mut [u8] {
        self.image.as_mut()
    }

    /// One CIO command, every argument lent as it is: the name needs its device and its ending byte.
    ///
    /// ```
    /// use hilugsaban::{command, Disk, Status};
    ///
    /// let mut disk = Disk::fresh();
    /// let answer = disk.cio(0, command::OPEN, 4, b"D:A\x9B", &mut []);
    /// assert_eq!((answer.status, answer.count), (Status::NotFound, 0));
    /// ```
    pub fn cio(
        &mut self,
        channel: u8,
        command: u8,
        direction: u8,
        name: &[u8],
        buffer: &mut [u8],
    ) -> Answer {
        let mut request = raw::Request {
            notch: self.notch as u8,
            direction,
            name,
            buffer,
            ..raw::Request::new(channel, command)
        };
        let (image, table) = (self.image.as_mut(), self.table.words_mut());
        Answer::from_word(raw::cio(image, table, &mut request))
    }

    /// Opens a file on a closed channel: to read a standing one, or to write a new one or a standing one anew.
    pub fn open(&mut self, channel: u8, direction: Direction, name: &str) -> Result<(), Status> {
        self.cio(
            channel,
            command::OPEN,
            direction as u8,
            &lent(name),
            &mut [],
        )
        .status
        .ok()
    }

    /// Fills the buffer from a reading channel, and says whether that came to the file's end. Where the file ends before the
    /// buffer is full it is [`Incomplete`] with [`Status::EndOfFile`], and the rest of the buffer stays as it was.
    ///
    /// ```
    /// # use hilugsaban::{Direction, Disk, Got, Incomplete, Status};
    /// # let mut disk = Disk::fresh();
    /// # disk.open(0, Direction::Write, "A")?;
    /// # disk.put(0, b"three")?;
    /// # disk.close(0)?;
    /// let mut buffer = *b"....";
    /// disk.open(0, Direction::Read, "A")?;
    /// assert_eq!(disk.get(0, &mut buffer)?, Got { count: 4, end_reached: false });
    /// let end = Incomplete { status: Status::EndOfFile, count: 1 };
    /// assert_eq!(disk.get(0, &mut buffer), Err(end));
    /// assert_eq!(&buffer, b"ehre");
    /// disk.close(0)?;
    ///
    /// disk.open(0, Direction::Read, "A")?;
    /// assert_eq!(disk.get(0, &mut [0; 5])?, Got { count: 5, end_reached: true });
    /// # Ok::<(), Box<dyn std::error::Error>>(())
    /// ```
    pub fn get(&mut self, channel: u8, buffer: &mut [u8]) -> Result<Got, Incomplete> {
        self.cio(channel, command::GET, 0, &[], buffer).got()
    }

    /// Adds bytes at the end of a writing channel's file. On a full disk it is [`Incomplete`] with [`Status::DiskFull`], and
    /// the bytes that fitted stay.
    pub fn put(&mut self, channel: u8, bytes: &[u8]) -> Result<usize, Incomplete> {
        // A copy, since the archive takes one buffer for get and put alike, as memory that it may write: a shared slice must
        // not be lent to it so, whatever a put does with it.
        self.cio(channel, command::PUT, 0, &[], &mut bytes.to_vec())
            .complete()
    }

    /// Reads a line from a reading channel into the buffer, its [`END_OF_LINE`](crate::END_OF_LINE) included, and answers its
    /// length, and whether it is the file's last. The rest of the buffer stays as it was.
    ///
    /// A line that does not end within the buffer is [`Incomplete`] with [`Status::TruncatedRecord`]: the buffer is full, and
    /// the line's rest was read and dropped, so that the channel stands before the next line. So it is where the line has just
    /// the buffer's length without its end, and where the file ends directly behind it. A file that ends within a line is
    /// [`Incomplete`] with [`Status::EndOfFile`] and what came. With an empty buffer nothing is read.
    ///
    /// ```
    /// # use hilugsaban::{Direction, Disk, Incomplete, Status};
    /// # let mut disk = Disk::fresh();
    /// # disk.open(0, Direction::Write, "A")?;
    /// # disk.put(0, b"one\x9Bthree\x9Bend")?;
    /// # disk.close(0)?;
    /// let mut buffer = *b"....";
    /// disk.open(0, Direction::Read, "A")?;
    /// assert_eq!(disk.get_record(0, &mut buffer)?.count, 4);
    /// assert_eq!(&buffer, b"one\x9B");
    /// let cut = Incomplete { status: Status::TruncatedRecord, count: 4 };
    /// assert_eq!(disk.get_record(0, &mut buffer), Err(cut));
    /// assert_eq!(&buffer, b"thre");
    /// let end = Incomplete { status: Status::EndOfFile, count: 3 };
    /// assert_eq!(disk.get_record(0, &mut buffer), Err(end));
    /// assert_eq!(&buffer, b"ende");
    /// # Ok::<(), Box<dyn std::error::Error>>(())
    /// ```
    pub fn get_record(&mut self, channel: u8, buffer: &mut [u8]) -> Result<Got, Incomplete> {
        self.cio(channel, command::GET_RECORD, 0, &[], buffer).got()
    }

    /// Adds a line at the end of a writing channel's file: the bytes through their first
    /// [`END_OF_LINE`](crate::END_OF_LINE), or where they have none all of them and then one. Answers how many of the bytes were
    /// written; an end of line that they do not have is not counted.
    ///
    /// On a full disk it is [`Incomplete`] with [`Status::DiskFull`], and the bytes that fitted stay; where the count is that of
    /// all bytes, only the end of line did not fit.
    ///
    /// ```
    /// # use hilugsaban::{Direction, Disk};
    /// # let mut disk = Disk::fresh();
    /// disk.open(0, Direction::Write, "A")?;
    /// assert_eq!(disk.put_record(0, b"one")?, 3);
    /// assert_eq!(disk.put_record(0, b"two\x9Bthree")?, 4);
    /// assert_eq!(disk.put_record(0, b"")?, 0);
    /// assert_eq!(disk.show(0, 4), Some(&b"one\x9Btwo\x9B\x9B"[..]));
    /// # Ok::<(), Box<dyn std::error::Error>>(())
    /// ```
    pub fn put_record(&mut self, channel: u8, bytes: &[u8]) -> Result<usize, Incomplete> {
        // A copy for the same reason as in `put`.
        self.cio(channel, command::PUT_RECORD, 0, &[], &mut bytes.to_vec())
            .complete()
    }

    /// Closes a channel. It is closed also where the answer is [`Status::BadChain`]; a writing channel whose close answers
    /// [`Status::WriteProtected`] stays open.
    pub fn close(&mut self, channel: u8) -> Result<(), Status> {
        self.cio(channel, command::CLOSE, 0, &[], &mut [])
            .status
            .ok()
    }

    /// Whether a file is there: `Ok`, [`Status::FileLocked`] or [`Status::NotFound`].
    pub fn status(&mut self, name: &str) -> Result<(), Status> {
        self.on_name(command::STATUS, name)
    }

    /// Gives a file another name. The new name has no device, and it alone may be padded with blanks.
    ///
    /// ```
    /// # use hilugsaban::{Direction, Disk, Status};
    /// # let mut disk = Disk::fresh();
    /// # disk.open(0, Direction::Write, "A")?;
    /// # disk.close(0)?;
    /// disk.rename("A", "B.TXT")?;
    /// assert_eq!(disk.status("A"), Err(Status::NotFound));
    /// assert_eq!(disk.status("B.TXT"), Ok(()));
    /// # Ok::<(), Status>(())
    /// ```
    pub fn rename(&mut self, old: &str, new: &str) -> Result<(), Status> {
        self.on_name(command::RENAME, &format!("{old},{new}"))
    }

    /// Deletes a file. Its bytes stay until their sectors are given out again, see [`Disk::recover`].
    pub fn delete(&mut self, name: &str) -> Result<(), Status> {
        self.on_name(command::DELETE, name)
    }

    /// Locks a file against writing, renaming and deleting.
    ///
    /// ```
    /// # use hilugsaban::{Direction, Disk, Status};
    /// # let mut disk = Disk::fresh();
    /// # disk.open(0, Direction::Write, "A")?;
    /// # disk.close(0)?;
    /// disk.lock("A")?;
    /// assert_eq!(disk.delete("A"), Err(Status::FileLocked));
    /// disk.unlock("A")?;
    /// assert_eq!(disk.delete("A"), Ok(()));
    /// # Ok::<(), Status>(())
    /// ```
    pub fn lock(&mut self, name: &str) -> Result<(), Status> {
        self.on_name(command::LOCK, name)
    }

    /// Takes a lock off, see [`Disk::lock`].
    pub fn unlock(&mut self, name: &str) -> Result<(), Status> {
        self.on_name(command::UNLOCK, name)
    }

    /// Makes the disk fresh: no files, 707 free sectors. The header of an ATR file stays. Every channel must be closed.
    pub fn format(&mut self) -> Result<(), Status> {
        self.on_name(command::FORMAT, "D:")
    }

    /// A command on a name. It runs on the lowest closed channel; where all eight are open, the library answers
    /// [`Status::ChannelOpen`].
    fn on_name(&mut self, command: u8, name: &str) -> Result<(), Status> {
        let channel = self.table.closed().unwrap_or(0);
        self.cio(channel, command, 0, &lent(name), &mut [])
            .status
            .ok()
    }

    /// Takes the deleted file in a directory slot back, and answers its number of sectors.
    pub fn recover(&mut self, slot: u8) -> Result<usize, Status> {
        Answer::from_word(raw::recover(self.image.as_mut(), self.notch as u8, slot)).ok()
    }

    /// A sector call, every argument lent as it is.
    pub fn sector(
        &mut self,
        device: u8,
        unit: u8,
        command: u8,
        sector: u16,
        buffer: &mut [u8],
    ) -> Answer {
        Answer::from_word(raw::sector(
            self.image.as_mut(),
            self.notch as u8,
            device,
            unit,
            command,
            sector,
            buffer,
        ))
    }

    /// Reads a sector into a buffer of its size, see [`Kind::sector_bytes`].
    ///
    /// ```
    /// # use hilugsaban::{Disk, Status};
    /// # let mut disk = Disk::fresh();
    /// let mut volume_table = [0; 128];
    /// assert_eq!(disk.read_sector(360, &mut volume_table)?, 128);
    /// assert_eq!(u16::from_le_bytes([volume_table[3], volume_table[4]]), 707);
    /// assert_eq!(disk.read_sector(721, &mut volume_table), Err(Status::BadRequest));
    /// # Ok::<(), Status>(())
    /// ```
    pub fn read_sector(&mut self, sector: u16, buffer: &mut [u8]) -> Result<usize, Status> {
        self.sector(
            SECTOR_DEVICE,
            SECTOR_UNIT,
            command::READ_SECTOR,
            sector,
            buffer,
        )
        .ok()
    }

    /// The bytes of a sector, as many as it has.
    ///
    /// ```
    /// # use hilugsaban::{Disk, Kind, Status};
    /// let mut disk = Disk::fresh_as(Kind::AtrDouble);
    /// assert_eq!(disk.whole_sector(1)?.len(), 128);
    /// assert_eq!(disk.whole_sector(4)?.len(), 256);
    /// # Ok::<(), Status>(())
    /// ```
    pub fn whole_sector(&mut self, sector: u16) -> Result<Vec<u8>, Status> {
        let kind = Kind::of_length(self.image.as_mut().len()).ok_or(Status::BadImage)?;
        let mut bytes = vec![0; kind.sector_bytes(sector)];
        self.read_sector(sector, &mut bytes)?;
        Ok(bytes)
    }

    /// Writes a sector from bytes of its size.
    ///
    /// ```
    /// # use hilugsaban::{Disk, Status};
    /// # let mut disk = Disk::fresh();
    /// assert_eq!(disk.write_sector(720, &[0x5A; 128])?, 128);
    /// assert_eq!(disk.image()[719 * 128..], [0x5A; 128]);
    /// assert_eq!(disk.write_sector(720, b"short"), Err(Status::BadLength));
    /// # Ok::<(), Status>(())
    /// ```
    pub fn write_sector(&mut self, sector: u16, bytes: &[u8]) -> Result<usize, Status> {
        // A copy for the same reason as in `put`.
        self.sector(
            SECTOR_DEVICE,
            SECTOR_UNIT,
            command::WRITE_SECTOR,
            sector,
            &mut bytes.to_vec(),
        )
        .ok()
    }

    /// A put on a channel that is not in the table, which it moves on. It copies the bytes once, [`Disk::put`] twice.
    ///
    /// ```
    /// # use hilugsaban::{Direction, Disk};
    /// # let mut disk = Disk::fresh();
    /// disk.open(0, Direction::Write, "A")?;
    /// let mut channel = disk.table().channel(0);
    /// assert_eq!(disk.thin_put(&mut channel, &[7; 126])?, 126);
    /// assert_eq!(channel.sector, 5);
    /// # Ok::<(), Box<dyn std::error::Error>>(())
    /// ```
    pub fn thin_put(&mut self, channel: &mut Channel, bytes: &[u8]) -> Result<usize, Incomplete> {
        let mut words = channel.words();
        let notch = self.notch as u8;
        let word = raw::thin_put(self.image.as_mut(), notch, &mut words, bytes);
        *channel = words.into();
        Answer::from_word(word).complete()
    }

    /// Writes the header of an ATR file, whatever stands in its place. A raw image has none.
    ///
    /// ```
    /// # use hilugsaban::{Disk, Status};
    /// let mut disk = Disk::new(vec![0; 92176]);
    /// assert_eq!(disk.format(), Err(Status::BadHeader));
    /// disk.write_header()?;
    /// assert_eq!(disk.image()[..7], [0x96, 0x02, 0x80, 0x16, 0x80, 0x00, 0x00]);
    /// disk.format()?;
    /// assert_eq!(Disk::fresh().write_header(), Err(Status::BadImage));
    /// # Ok::<(), Status>(())
    /// ```
    pub fn write_header(&mut self) -> Result<(), Status> {
        Answer::from_word(raw::header(self.image.as_mut(), self.notch as u8))
            .status
            .ok()
    }

    /// An open channel as [`std::io::Read`].
    pub fn reader(&mut self, channel: u8) -> Reader<'_, B> {
        Reader::new(self, channel)
    }

    /// An open channel as [`std::io::Write`].
    pub fn writer(&mut self, channel: u8) -> Writer<'_, B> {
        Writer::new(self, channel)
    }

    /// The lines of a reading channel's file, from where the channel stands.
    pub fn lines(&mut self, channel: u8) -> Lines<'_, B> {
        Lines::new(self, channel)
    }

    /// A writing channel as a writer of lines.
    pub fn line_writer(&mut self, channel: u8) -> LineWriter<'_, B> {
        LineWriter::new(self, channel)
    }
}
