//! Lines of text, read and written through open channels.

use crate::{
    answer::{Incomplete, Status},
    Disk,
};
use std::{io, iter::FusedIterator};

/// The byte that ends a line. It is one of the three that end a name, too.
pub const END_OF_LINE: u8 = 0x9B;

/// Bytes that a line is first read into.
const FIRST_BUFFER: usize = 128;

/// A line of a file, without its end of line.
#[derive(Clone, PartialEq, Eq, Debug)]
pub struct Line {
    /// What stands before the end of line.
    pub bytes: Vec<u8>,
    /// Whether there was an end of line. Only what stands last in a file, or before damage, can be without.
    pub ended: bool,
}

/// The lines of a file, read from an open channel by [`Disk::get_record`]. Between two lines the channel stands behind the one
/// that was handed out last.
///
/// Nothing is dropped: a line that is longer than the buffer is read again into a longer one, from where the channel stood. What
/// stands behind the last end of line is handed out as a line that has not [`ended`](Line::ended), unless it is nothing. A
/// refusal is handed out once, and is the last item; the bytes before a damaged sector come first, as a line that has not
/// ended. The end of the file is no item.
///
/// ```
/// use hilugsaban::{Direction, Disk, Line};
///
/// let mut disk = Disk::fresh();
/// disk.open(0, Direction::Write, "A")?;
/// disk.put(0, b"one\x9B\x9Btw")?;
/// disk.close(0)?;
/// disk.open(0, Direction::Read, "A")?;
/// let mut lines = disk.lines(0);
/// let line = |bytes: &[u8], ended| Some(Ok(Line { bytes: bytes.to_vec(), ended }));
/// assert_eq!(lines.next(), line(b"one", true));
/// assert_eq!(lines.next(), line(b"", true));
/// assert_eq!(lines.next(), line(b"tw", false));
/// assert_eq!(lines.next(), None);
/// # Ok::<(), Box<dyn std::error::Error>>(())
/// ```
#[derive(Debug)]
pub struct Lines<'a, B> {
    disk: &'a mut Disk<B>,
    channel: u8,
    buffer: Vec<u8>,
    over: bool,
}

impl<'a, B> Lines<'a, B> {
    pub(crate) fn new(disk: &'a mut Disk<B>, channel: u8) -> Lines<'a, B> {
        Lines {
            disk,
            channel,
            buffer: vec![0; FIRST_BUFFER],
            over: false,
        }
    }
}

impl<B: AsMut<[u8]>> Lines<'_, B> {
    /// Reads a line into the buffer. A full buffer with no end of line may be short of something, so the channel goes back to
    /// where it stood, and the buffer gets twice as long; it does so until even a chain that loops has come to its end.
    fn read(&mut self) -> Result<usize, Incomplete> {
        let before = self.disk.table().clone();
        loop {
            match self.disk.get_record(self.channel, &mut self.buffer) {
                Err(cut) if cut.count == self.buffer.len() => {
                    self.disk.table_mut().clone_from(&before);
                    self.buffer.resize(2 * cut.count, 0);
                }
                answer => return answer.map(|got| got.count),
            }
        }
    }
}

impl<B: AsMut<[u8]>> Iterator for Lines<'_, B> {
    type Item = Result<Line, Status>;

    fn next(&mut self) -> Option<Result<Line, Status>> {
        if self.over {
            return None;
        }
        let (length, ended) = match self.read() {
            Ok(count) => (count - 1, true),
            Err(Incomplete { status, count: 0 }) => {
                self.over = true;
                return (status != Status::EndOfFile).then_some(Err(status));
            }
            Err(Incomplete { count, .. }) => (count, false),
        };
        let bytes = self.buffer[..length].to_vec();
        Some(Ok(Line { bytes, ended }))
    }
}

impl<B: AsMut<[u8]>> FusedIterator for Lines<'_, B> {}

/// Writes lines to the file of an open channel by [`Disk::put_record`].
#[derive(Debug)]
pub struct LineWriter<'a, B> {
    disk: &'a mut Disk<B>,
    channel: u8,
}

impl<'a, B> LineWriter<'a, B> {
    pub(crate) fn new(disk: &'a mut Disk<B>, channel: u8) -> LineWriter<'a, B> {
        LineWriter { disk, channel }
    }
}

impl<B: AsMut<[u8]>> LineWriter<'_, B> {
    /// Adds a line and its end of line. A line that holds an end of line itself would be cut short there: it is an error of kind
    /// [`io::ErrorKind::InvalidInput`], and nothing is written.
    ///
    /// A full disk is an error of kind [`io::ErrorKind::StorageFull`], with the bytes that fitted written; a closed notch one of
    /// kind [`io::ErrorKind::ReadOnlyFilesystem`].
    ///
    /// ```
    /// use hilugsaban::{Direction, Disk};
    /// use std::io::ErrorKind;
    ///
    /// let mut disk = Disk::fresh();
    /// disk.open(0, Direction::Write, "A")?;
    /// let mut lines = disk.line_writer(0);
    /// lines.write_line(b"one")?;
    /// let two = lines.write_line(b"one\x9Btwo").unwrap_err();
    /// assert_eq!(two.kind(), ErrorKind::InvalidInput);
    /// assert_eq!(disk.show(0, 4), Some(&b"one\x9B"[..]));
    /// # Ok::<(), Box<dyn std::error::Error>>(())
    /// ```
    pub fn write_line(&mut self, line: &[u8]) -> io::Result<()> {
        if line.contains(&END_OF_LINE) {
            let message = "the line holds an end of line, $9B";
            return Err(io::Error::new(io::ErrorKind::InvalidInput, message));
        }
        self.disk.put_record(self.channel, line)?;
        Ok(())
    }
}
