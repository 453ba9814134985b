//! Open channels as the standard library's readers and writers.

use crate::{
    answer::{Incomplete, Status},
    Disk,
};
use std::io::{self, Read, Write};

/// Reads the file of an open channel. The end of the file is a read of no bytes.
///
/// A damaged chain is an error, but the bytes before the damage are read first.
#[derive(Debug)]
pub struct Reader<'a, B> {
    disk: &'a mut Disk<B>,
    channel: u8,
}

impl<'a, B> Reader<'a, B> {
    pub(crate) fn new(disk: &'a mut Disk<B>, channel: u8) -> Reader<'a, B> {
        Reader { disk, channel }
    }
}

impl<B: AsMut<[u8]>> Read for Reader<'_, B> {
    fn read(&mut self, buffer: &mut [u8]) -> io::Result<usize> {
        match self.disk.get(self.channel, buffer) {
            Err(Incomplete {
                status: Status::EndOfFile,
                count,
            }) => Ok(count),
            answer => transferred(answer.map(|got| got.count)),
        }
    }
}

/// Writes to the file of an open channel. Nothing is held back, so a flush does nothing.
///
/// A full disk is an error of kind [`io::ErrorKind::StorageFull`], but the bytes that fit are written first. A closed notch is
/// an error of kind [`io::ErrorKind::ReadOnlyFilesystem`].
#[derive(Debug)]
pub struct Writer<'a, B> {
    disk: &'a mut Disk<B>,
    channel: u8,
}

impl<'a, B> Writer<'a, B> {
    pub(crate) fn new(disk: &'a mut Disk<B>, channel: u8) -> Writer<'a, B> {
        Writer { disk, channel }
    }
}

impl<B: AsMut<[u8]>> Write for Writer<'_, B> {
    fn write(&mut self, bytes: &[u8]) -> io::Result<usize> {
        transferred(self.disk.put(self.channel, bytes))
    }

    fn flush(&mut self) -> io::Result<()> {
        Ok(())
    }
}

/// Bytes that were transferred count as a success; the next call then meets the refusal with none.
fn transferred(answer: Result<usize, Incomplete>) -> io::Result<usize> {
    match answer {
        Ok(count) => Ok(count),
        Err(Incomplete { status, count: 0 }) => Err(status.into()),
        Err(Incomplete { count, .. }) => Ok(count),
    }
}
