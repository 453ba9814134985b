//! Lines of text: get record, put record, the lines of a channel, and what writes lines.

use hilugsaban::{Direction, Disk, Got, Incomplete, Kind, Line, Notch, Status, END_OF_LINE};
use std::io::{self, ErrorKind};

/// A disk on which channel 0 writes the file A.
fn writing(kind: Kind) -> Disk<Vec<u8>> {
    let mut disk = Disk::fresh_as(kind);
    disk.open(0, Direction::Write, "A").unwrap();
    disk
}

/// A disk on which channel 0 reads the file A, which has these bytes.
fn reading(kind: Kind, bytes: &[u8]) -> Disk<Vec<u8>> {
    let mut disk = writing(kind);
    assert_eq!(disk.put(0, bytes), Ok(bytes.len()));
    read_again(disk)
}

/// The same disk with its channel at the beginning of the file that it wrote.
fn read_again(mut disk: Disk<Vec<u8>>) -> Disk<Vec<u8>> {
    disk.close(0).unwrap();
    disk.open(0, Direction::Read, "A").unwrap();
    disk
}

/// What a get, a put or one of a record answers that did not transfer all.
fn stopped<T>(status: Status, count: usize) -> Result<T, Incomplete> {
    Err(Incomplete { status, count })
}

/// What a get or get record answers that did.
fn got(count: usize, end_reached: bool) -> Result<Got, Incomplete> {
    Ok(Got { count, end_reached })
}

/// An item of the lines that has ended, or not.
fn line(bytes: &[u8], ended: bool) -> Option<Result<Line, Status>> {
    let bytes = bytes.to_vec();
    Some(Ok(Line { bytes, ended }))
}

#[test]
fn get_record_tells_how_a_line_came() {
    for kind in Kind::ALL {
        let mut disk = reading(kind, b"ab\x9Babcd\x9Babc\x9Babc");
        let mut buffer = *b"....";
        assert_eq!(disk.get_record(0, &mut []), got(0, false));
        assert_eq!(disk.get_record(0, &mut buffer), got(3, false));
        assert_eq!(&buffer, b"ab\x9B.");
        let cut = stopped(Status::TruncatedRecord, 4);
        assert_eq!(disk.get_record(0, &mut buffer), cut);
        assert_eq!(&buffer, b"abcd");
        assert_eq!(disk.get_record(0, &mut buffer), got(4, false));
        assert_eq!(disk.table().channel(0).offset, 12);
        buffer.fill(b'.');
        let end = stopped(Status::EndOfFile, 3);
        assert_eq!(disk.get_record(0, &mut buffer), end);
        assert_eq!(&buffer, b"abc.");
        let end = stopped(Status::EndOfFile, 0);
        assert_eq!(disk.get_record(0, &mut buffer), end);
    }
}

#[test]
fn get_record_tells_the_last_line() {
    for kind in Kind::ALL {
        let mut disk = reading(kind, b"ab\x9B\x9Bcd\x9B");
        let mut buffer = [0; 9];
        for (count, end_reached) in [(3, false), (1, false), (3, true)] {
            let line = disk.get_record(0, &mut buffer);
            assert_eq!(line, got(count, end_reached));
        }
        assert_eq!(disk.get_record(0, &mut []), got(0, false));
        let ended = stopped(Status::EndOfFile, 0);
        assert_eq!(disk.get_record(0, &mut buffer), ended);
        // A line that was cut is none that came, also at the file's end.
        for bytes in [&b"abc"[..], b"abc\x9B", b"abcd\x9B"] {
            let mut disk = reading(kind, bytes);
            let cut = stopped(Status::TruncatedRecord, 3);
            assert_eq!(disk.get_record(0, &mut buffer[..3]), cut);
        }
    }
}

#[test]
fn records_have_the_checks_of_get_and_put() {
    let mut disk = writing(Kind::Raw);
    let mut buffer = [0; 3];
    let write_only = stopped(Status::WriteOnly, 0);
    assert_eq!(disk.get_record(0, &mut buffer), write_only);
    let closed = Status::ChannelClosed;
    assert_eq!(disk.get_record(1, &mut buffer), stopped(closed, 0));
    assert_eq!(disk.put_record(1, b"a"), stopped(closed, 0));
    assert_eq!(disk.put_record(8, b"a"), stopped(Status::BadChannel, 0));
    disk.set_notch(Notch::Closed);
    for bytes in [&b""[..], b"a", b"\x9B"] {
        let protected = stopped(Status::WriteProtected, 0);
        assert_eq!(disk.put_record(0, bytes), protected);
    }
    disk.set_notch(Notch::Open);
    let mut disk = read_again(disk);
    assert_eq!(disk.put_record(0, b""), stopped(Status::ReadOnly, 0));
}

#[test]
fn put_record_counts_the_callers_bytes() {
    for kind in Kind::ALL {
        let mut disk = writing(kind);
        for (bytes, count) in [
            (&b"one"[..], 3),
            (b"two\x9B", 4),
            (b"\x9Bthree", 1),
            (b"", 0),
        ] {
            assert_eq!(disk.put_record(0, bytes), Ok(count));
        }
        let mut buffer = [0; 10];
        let mut disk = read_again(disk);
        assert_eq!(disk.get(0, &mut buffer), got(10, true));
        assert_eq!(&buffer, b"one\x9Btwo\x9B\x9B\x9B");
    }
}

#[test]
fn an_end_of_line_that_does_not_fit_is_a_full_disk() {
    for kind in Kind::ALL {
        let mut disk = writing(kind);
        let bytes = vec![b'x'; kind.longest_file() - 5];
        assert_eq!(disk.put(0, &bytes), Ok(bytes.len()));
        assert_eq!(disk.put_record(0, b"five5"), stopped(Status::DiskFull, 5));
        assert_eq!(disk.put_record(0, b""), stopped(Status::DiskFull, 0));
        let full = disk.line_writer(0).write_line(b"").unwrap_err();
        assert_eq!(full.kind(), ErrorKind::StorageFull);
        let mut lines: Vec<_> = read_again(disk).lines(0).collect();
        let last = lines.pop().unwrap().unwrap();
        assert!(lines.is_empty() && !last.ended);
        assert!(last.bytes == [&bytes[..], b"five5"].concat());
    }
}

#[test]
fn lines_come_whole_whatever_their_length() {
    for kind in Kind::ALL {
        let lengths = [0, 1, 127, 128, 129, 255, 256, 0, 5000, 40_000, 7];
        let mut disk = writing(kind);
        for (place, length) in lengths.into_iter().enumerate() {
            let bytes = vec![b'a' + place as u8; length];
            disk.line_writer(0).write_line(&bytes).unwrap();
        }
        let mut disk = read_again(disk);
        let mut lines = disk.lines(0);
        for (place, length) in lengths.into_iter().enumerate() {
            let bytes = vec![b'a' + place as u8; length];
            assert!(lines.next() == line(&bytes, true), "{kind}, {length}");
        }
        assert_eq!(lines.next(), None);
        assert_eq!(lines.next(), None);
    }
}

#[test]
fn a_file_of_one_line_without_an_end_comes_whole() {
    for kind in Kind::ALL {
        let bytes: Vec<u8> = (0..kind.longest_file()).map(|i| (i % 150) as u8).collect();
        let mut disk = reading(kind, &bytes);
        let mut lines = disk.lines(0);
        assert!(lines.next() == line(&bytes, false));
        assert_eq!(lines.next(), None);
    }
    let mut disk = reading(Kind::Raw, b"");
    assert_eq!(disk.lines(0).next(), None);
    let mut disk = reading(Kind::Raw, &[b'x'; 128]);
    assert_eq!(disk.lines(0).next(), line(&[b'x'; 128], false));
}

#[test]
fn between_two_lines_the_channel_stands_behind_the_first() {
    let long = [b'x'; 1000];
    let mut disk = reading(Kind::Raw, &[&long[..], b"\x9Bnext\x9B"].concat());
    let mut buffer = [0; 5];
    assert_eq!(disk.lines(0).next(), line(&long, true));
    assert_eq!(disk.get(0, &mut buffer), got(5, true));
    assert_eq!(&buffer, b"next\x9B");
    assert_eq!(disk.lines(0).next(), None);
}

#[test]
fn a_damaged_chain_is_met_behind_the_bytes_before_it() {
    // Sector 5 holds too many bytes: 125 stand before it. Sector 6: 250, more than the first buffer.
    for (sector, before) in [(5, 125), (6, 250)] {
        let mut disk = reading(Kind::Raw, &[b'x'; 500]);
        disk.image_mut()[(sector - 1) * 128 + 127] = 126;
        let mut lines = disk.lines(0);
        assert_eq!(lines.next(), line(&vec![b'x'; before], false));
        assert_eq!(lines.next(), Some(Err(Status::BadChain)));
        assert_eq!(lines.next(), None, "a refusal is the last item");
    }
}

#[test]
fn a_chain_that_loops_comes_to_an_end() {
    let mut disk = reading(Kind::Raw, &[b'x'; 125]);
    disk.image_mut()[3 * 128 + 126] = 4;
    let mut channel = disk.table().channel(0);
    channel.left = u16::MAX;
    disk.table_mut().set_channel(0, channel);
    let mut lines = disk.lines(0);
    let all = lines.next().unwrap().unwrap();
    assert_eq!((all.bytes.len(), all.ended), (125 * 65_535, false));
    assert_eq!(lines.next(), Some(Err(Status::BadChain)));
}

#[test]
fn lines_of_a_channel_that_does_not_read_are_refused_once() {
    let mut disk = writing(Kind::Raw);
    for (channel, status) in [
        (0, Status::WriteOnly),
        (1, Status::ChannelClosed),
        (8, Status::BadChannel),
        (255, Status::BadChannel),
    ] {
        let mut lines = disk.lines(channel);
        assert_eq!(lines.next(), Some(Err(status)));
        assert_eq!(lines.next(), None);
    }
    let mut short = Disk::new([0; 5]);
    assert_eq!(short.lines(0).next(), Some(Err(Status::BadImage)));
}

#[test]
fn no_line_is_cut_at_an_end_of_line_inside() {
    let mut disk = writing(Kind::Raw);
    let before = disk.image().to_vec();
    for bytes in [&b"\x9B"[..], b"a\x9B", b"a\x9Bb"] {
        let inside = disk.line_writer(0).write_line(bytes).unwrap_err();
        assert_eq!(inside.kind(), ErrorKind::InvalidInput);
        assert_eq!(inside.to_string(), "the line holds an end of line, $9B");
    }
    assert!(disk.image() == before);
    disk.line_writer(0).write_line(b"a").unwrap();
    assert_eq!(disk.show(0, 4), Some(&[b'a', END_OF_LINE][..]));
}

#[test]
fn a_writer_of_lines_meets_a_closed_notch_as_a_read_only_medium() {
    let mut disk = writing(Kind::Raw).with_notch(Notch::Closed);
    for bytes in [&b""[..], b"a"] {
        let protected = disk.line_writer(0).write_line(bytes).unwrap_err();
        assert_eq!(protected.kind(), ErrorKind::ReadOnlyFilesystem);
    }
    let cut = Incomplete {
        status: Status::TruncatedRecord,
        count: 4,
    };
    assert_eq!(io::Error::from(cut).kind(), ErrorKind::InvalidInput);
}
