//! The safe calls on whole disks: files, refusals, damage, streams.

use hilugsaban::{
    command, padded_name, raw, read_name, Answer, Channel, Direction, Disk, Got, Incomplete, Kind,
    Notch, ReadName, Status, CHANNELS, CLOSED, READING, WRITING,
};
use std::io::{self, ErrorKind, Read, Write};

/// Makes a file with these bytes.
fn make(disk: &mut Disk<Vec<u8>>, name: &str, bytes: &[u8]) {
    disk.open(0, Direction::Write, name).unwrap();
    assert_eq!(disk.put(0, bytes), Ok(bytes.len()));
    disk.close(0).unwrap();
}

/// What a get answers that brought all bytes.
fn got(count: usize, end_reached: bool) -> Result<Got, Incomplete> {
    Ok(Got { count, end_reached })
}

/// What a get answers that is at the file's end.
const ENDED: Result<Got, Incomplete> = Err(Incomplete {
    status: Status::EndOfFile,
    count: 0,
});

/// The bytes of a file.
fn read(disk: &mut Disk<Vec<u8>>, name: &str) -> Vec<u8> {
    let mut bytes = Vec::new();
    disk.open(0, Direction::Read, name).unwrap();
    disk.reader(0).read_to_end(&mut bytes).unwrap();
    disk.close(0).unwrap();
    bytes
}

#[test]
fn a_file_comes_back() {
    let bytes: Vec<u8> = (0..1000u32).map(|i| (i * i / 7) as u8).collect();
    let mut disk = Disk::fresh();
    make(&mut disk, "A.DAT", &bytes);
    make(&mut disk, "B", b"");
    assert_eq!(read(&mut disk, "A.DAT"), bytes);
    assert_eq!(read(&mut disk, "D1:B"), b"");
    make(&mut disk, "A.DAT", b"short");
    assert_eq!(read(&mut disk, "A.DAT"), b"short");
}

#[test]
fn get_reports_what_came() {
    let mut disk = Disk::fresh();
    make(&mut disk, "A", b"abc");
    disk.open(7, Direction::Read, "A").unwrap();
    let mut bytes = *b".....";
    assert_eq!(
        disk.get(7, &mut bytes),
        Err(Incomplete {
            status: Status::EndOfFile,
            count: 3
        })
    );
    assert_eq!(&bytes, b"abc..");
    assert_eq!(disk.get(7, &mut []), got(0, false));
    let mut in_io = || -> io::Result<Got> { Ok(disk.get(7, &mut bytes)?) };
    assert_eq!(in_io().unwrap_err().kind(), ErrorKind::UnexpectedEof);
}

#[test]
fn get_tells_the_files_end_with_its_last_byte() {
    for kind in Kind::ALL {
        let data = kind.sector_bytes(4) - 3;
        for length in [1, 5, data, data + 1, 3 * data, kind.longest_file()] {
            let mut disk = Disk::fresh_as(kind);
            make(&mut disk, "A", &vec![7; length]);
            disk.open(0, Direction::Read, "A").unwrap();
            let mut channel = disk.table().channel(0);
            let mut bytes = vec![0; length];
            let but_one = length - 1;
            assert_eq!(disk.get(0, &mut bytes[..but_one]), got(but_one, false));
            assert_eq!(disk.get(0, &mut bytes[but_one..]), got(1, true));
            assert!(bytes == vec![7; length]);
            let whole = disk.thin_get(&mut channel, &mut bytes);
            assert_eq!(whole, got(length, true), "{kind}, {length}");
            assert_eq!(disk.table().channel(0), channel);
            for _ in 0..2 {
                assert_eq!(disk.get(0, &mut []), got(0, false));
                assert_eq!(disk.get(0, &mut [0]), ENDED);
                assert_eq!(disk.thin_get(&mut channel, &mut [0]), ENDED);
            }
        }
    }
}

#[test]
fn where_an_empty_sector_follows_the_end_is_not_told() {
    let mut disk = Disk::fresh();
    make(&mut disk, "A", &[7; 126]);
    disk.image_mut()[4 * 128 + 127] = 0;
    disk.open(0, Direction::Read, "A").unwrap();
    assert_eq!(disk.get(0, &mut [0; 125]), got(125, false));
    assert_eq!(disk.get(0, &mut [0]), ENDED);
}

#[test]
fn the_end_is_told_by_the_link_alone() {
    let mut disk = Disk::fresh();
    make(&mut disk, "A", &[7; 125]);
    let mut channel = Channel::reading(0, 9);
    let mut bytes = [0; 125];
    assert_eq!(disk.thin_get(&mut channel, &mut bytes), got(125, true));
    assert_eq!(channel.left, 8);
    disk.image_mut()[3 * 128 + 126] = 5;
    let mut channel = Channel::reading(0, 1);
    assert_eq!(disk.thin_get(&mut channel, &mut bytes), got(125, false));
    let no_more = Incomplete {
        status: Status::BadChain,
        count: 0,
    };
    assert_eq!(disk.thin_get(&mut channel, &mut bytes), Err(no_more));
}

#[test]
fn a_reader_ends_with_a_read_of_no_bytes() {
    let mut disk = Disk::fresh();
    make(&mut disk, "A", b"abcd");
    disk.open(0, Direction::Read, "A").unwrap();
    let mut bytes = [0; 2];
    for count in [2, 2, 0, 0] {
        assert_eq!(disk.reader(0).read(&mut bytes).unwrap(), count);
    }
}

#[test]
fn a_full_disk_keeps_what_fitted() {
    let mut disk = Disk::fresh();
    disk.open(0, Direction::Write, "A").unwrap();
    assert_eq!(disk.put(0, &[7; 88_375]), Ok(88_375));
    assert_eq!(
        disk.put(0, &[7]),
        Err(Incomplete {
            status: Status::DiskFull,
            count: 0
        })
    );

    let mut disk = Disk::fresh();
    disk.open(0, Direction::Write, "A").unwrap();
    let error = disk.writer(0).write_all(&[7; 88_376]).unwrap_err();
    assert_eq!(error.kind(), ErrorKind::StorageFull);
    disk.close(0).unwrap();
    assert_eq!(read(&mut disk, "A").len(), 88_375);
}

#[test]
fn names_are_changed_locked_and_deleted() {
    let mut disk = Disk::fresh();
    make(&mut disk, "A", b"a");
    make(&mut disk, "B", b"b");
    assert_eq!(disk.rename("A", "B"), Err(Status::NameTaken));
    assert_eq!(disk.rename("A", "D:C"), Err(Status::BadName));
    assert_eq!(disk.rename("A,B", "C"), Err(Status::BadName));
    assert_eq!(disk.rename("D:A", "C"), Ok(()));
    assert_eq!(disk.lock("C"), Ok(()));
    assert_eq!(disk.status("C"), Err(Status::FileLocked));
    assert_eq!(disk.delete("C"), Err(Status::FileLocked));
    assert_eq!(disk.unlock("C"), Ok(()));
    assert_eq!(disk.delete("C"), Ok(()));
    assert_eq!(disk.status("C"), Err(Status::NotFound));
    assert_eq!(disk.status("C\0"), Err(Status::BadName));
    assert_eq!(disk.status("E:C"), Err(Status::BadDevice));
    assert_eq!(disk.recover(0), Ok(1));
    assert_eq!(read(&mut disk, "C"), b"a");
    assert_eq!(disk.recover(0), Err(Status::NotFound));
}

#[test]
fn names_may_be_padded_with_blanks() {
    for blanks in [0, 1, 6, 300] {
        let mut disk = Disk::fresh();
        let padded = |name: &str| name.to_string() + &" ".repeat(blanks);
        make(&mut disk, &padded("A.DAT"), b"bytes");
        assert_eq!(disk.status("A.DAT"), Ok(()));
        assert_eq!(read(&mut disk, &padded("D1:A.DAT")), b"bytes");
        assert_eq!(disk.lock(&padded("A.DAT")), Ok(()));
        assert_eq!(disk.status(&padded("A.DAT")), Err(Status::FileLocked));
        assert_eq!(disk.unlock(&padded("D:A.DAT")), Ok(()));
        assert_eq!(disk.rename("A.DAT", &padded("B")), Ok(()));
        assert_eq!(disk.delete(&padded("B")), Ok(()));
        assert_eq!(disk.status(&padded("B")), Err(Status::NotFound));
        assert_eq!(padded_name(&padded("A.DAT")), Ok(*b"A       DAT"));
    }
}

#[test]
fn only_the_new_name_of_a_rename_may_be_padded() {
    let mut disk = Disk::fresh();
    make(&mut disk, "A", b"bytes");
    for (old, new) in [
        ("A ", "B"),
        ("A  ", "B "),
        ("A", " B"),
        ("A", " "),
        ("A", "B C"),
    ] {
        assert_eq!(disk.rename(old, new), Err(Status::BadName), "{old}, {new}");
    }
    assert_eq!(disk.rename("A", "B  "), Ok(()));
    assert_eq!(read(&mut disk, "B"), b"bytes");
}

#[test]
fn a_name_is_not_cut_short_at_a_blank() {
    let mut disk = Disk::fresh();
    make(&mut disk, "A", b"bytes");
    let before = disk.image().to_vec();
    for name in ["A B", "A .DAT", " A", "A B ", "D:A ,", "A \0", "A\u{9b} "] {
        assert_eq!(disk.open(0, Direction::Read, name), Err(Status::BadName));
        assert_eq!(disk.open(0, Direction::Write, name), Err(Status::BadName));
        for call in [Disk::status, Disk::delete, Disk::lock, Disk::unlock] {
            assert_eq!(call(&mut disk, name), Err(Status::BadName), "{name:?}");
        }
        assert_eq!(padded_name(name), Err(Status::BadName), "{name:?}");
    }
    assert_eq!(disk.status("E:A B"), Err(Status::BadDevice));
    assert_eq!(disk.status("D2:A B"), Err(Status::BadUnit));
    assert!(disk.image() == before);
    disk.set_notch(Notch::Closed);
    assert_eq!(disk.delete("A B"), Err(Status::WriteProtected));
}

#[test]
fn a_name_is_read_with_the_place_of_its_end() {
    for (lent, padded, end) in [
        (b"D:A\x9B".as_slice(), b"A          ", 3),
        (b"D:A\0", b"A          ", 3),
        (b"D:A ", b"A          ", 3),
        (b"D:A    \x9B", b"A          ", 3),
        (b"D:A B\x9B", b"A          ", 3),
        (b"D:A. ", b"A          ", 4),
        (b"D1:A.TXT\x9B", b"A       TXT", 8),
        (b"D1:ABCDEFGH.TXT  ", b"ABCDEFGHTXT", 15),
    ] {
        let padded = *padded;
        assert_eq!(read_name(lent), Ok(ReadName { padded, end }), "{lent:?}");
    }
    for (lent, status) in [
        (b"D:A".as_slice(), Status::BadName),
        (b"D: ", Status::BadName),
        (b"D: A\x9B", Status::BadName),
        (b"D2:A ", Status::BadUnit),
        (b"E:A ", Status::BadDevice),
        (b"", Status::BadDevice),
    ] {
        assert_eq!(read_name(lent), Err(status), "{lent:?}");
        assert_eq!(raw::name(lent, &mut [0; 11]), status.number().into());
    }
}

#[test]
fn a_blank_ends_names_that_are_lent_as_they_are() {
    let mut disk = Disk::fresh();
    make(&mut disk, "A", b"bytes");
    let mut call = |command, name: &[u8]| {
        let answer = disk.cio(0, command, 0, name, &mut []);
        (answer.status, answer.count)
    };
    assert_eq!(call(command::STATUS, b"D:A B\x9B"), (Status::Success, 0));
    assert_eq!(call(command::RENAME, b"D:A ,B "), (Status::BadName, 0));
    assert_eq!(call(command::RENAME, b"D:A,B "), (Status::Success, 0));
    assert_eq!(call(command::STATUS, b"D:B "), (Status::Success, 0));
    assert_eq!(call(command::STATUS, b"D: "), (Status::BadName, 0));
    assert_eq!(call(command::FORMAT, b"D1: "), (Status::Success, 0));
    assert!(disk.image() == Disk::fresh().image());
}

#[test]
fn name_commands_use_a_closed_channel() {
    let mut disk = Disk::fresh();
    make(&mut disk, "A", b"a");
    for channel in 0..CHANNELS {
        assert_eq!(disk.status("A"), Ok(()));
        disk.open(channel, Direction::Read, "A").unwrap();
        assert_eq!(disk.table().channel(channel), Channel::reading(0, 1));
    }
    assert_eq!(disk.status("A"), Err(Status::ChannelOpen));
    assert_eq!(disk.close(5), Ok(()));
    assert_eq!(disk.delete("A"), Err(Status::FileHeld));
    assert_eq!(disk.format(), Err(Status::FileHeld));
    assert_eq!(disk.close(8), Err(Status::BadChannel));
}

#[test]
fn channels_are_tested_each_time() {
    let mut disk = Disk::fresh();
    assert_eq!(
        disk.get(0, &mut [0]),
        Err(Incomplete {
            status: Status::ChannelClosed,
            count: 0
        })
    );
    disk.table_mut().set_channel(
        0,
        Channel {
            kind: WRITING,
            slot: 300,
            ..Channel::default()
        },
    );
    assert_eq!(
        disk.put(0, b"a"),
        Err(Incomplete {
            status: Status::BadChain,
            count: 0
        })
    );
    assert_eq!(disk.close(0), Err(Status::BadChain));
    assert_eq!(disk.table().channel(0).kind, CLOSED);
    disk.table_mut().set_channel(
        3,
        Channel {
            kind: 9,
            ..Channel::default()
        },
    );
    assert_eq!(disk.status("A"), Err(Status::BadArgument));
}

#[test]
fn sectors_are_read_and_written() {
    let mut disk = Disk::fresh();
    let mut sector = [0; 128];
    assert_eq!(disk.write_sector(720, &[0x5A; 128]), Ok(128));
    assert_eq!(disk.read_sector(720, &mut sector), Ok(128));
    assert_eq!(sector, [0x5A; 128]);
    assert_eq!(disk.write_sector(0, &sector), Err(Status::BadRequest));
    assert_eq!(disk.write_sector(1, &sector[1..]), Err(Status::BadLength));
    assert_eq!(
        disk.sector(0x31, 2, 0x52, 1, &mut sector).status,
        Status::NoDevice
    );
}

#[test]
fn damage_is_met_behind_the_bytes_before_it() {
    let mut disk = Disk::fresh();
    make(&mut disk, "A", &[7; 300]);
    disk.image_mut()[5 * 128 + 127] = 126;
    let mut bytes = Vec::new();
    disk.open(0, Direction::Read, "A").unwrap();
    let error = disk.reader(0).read_to_end(&mut bytes).unwrap_err();
    assert_eq!(error.kind(), ErrorKind::InvalidData);
    assert_eq!(
        error.get_ref().and_then(|e| e.downcast_ref()),
        Some(&Status::BadChain)
    );
    assert_eq!(bytes, [7; 250]);
    disk.close(0).unwrap();
    assert_eq!(disk.delete("A"), Err(Status::BadChain));
    disk.image_mut()[359 * 128] = 0;
    assert_eq!(disk.delete("A"), Err(Status::BadTable));
}

#[test]
fn thin_calls_and_showing_take_borrowed_bytes() {
    let mut disk = Disk::fresh();
    disk.open(0, Direction::Write, "A").unwrap();
    let mut channel = disk.table().channel(0);
    assert_eq!(disk.thin_put(&mut channel, &[1; 126]), Ok(126));
    assert_eq!(channel.sector, 5);
    assert_eq!(
        disk.thin_get(&mut channel, &mut [0]),
        Err(Incomplete {
            status: Status::WriteOnly,
            count: 0
        })
    );

    let (image, table) = disk.into_parts();
    let disk = Disk::with_table(&image[..], table);
    assert_eq!(disk.table().channel(0).kind, WRITING);
    assert_eq!(disk.show(0, 4), Some(&[1; 125][..]));
    assert_eq!(
        disk.show(0, 5).map(<[u8]>::as_ptr),
        Some(image[4 * 128..].as_ptr())
    );
    assert_eq!(disk.show(0, 6), Some(&[][..]));
    assert_eq!(
        (disk.show(0, 3), disk.show(1, 4), disk.show(64, 4)),
        (None, None, None)
    );
    let (mut channel, mut bytes) = (Channel::reading(0, 2), [0; 127]);
    assert_eq!(
        disk.thin_get(&mut channel, &mut bytes),
        Err(Incomplete {
            status: Status::EndOfFile,
            count: 126
        })
    );
    assert_eq!(
        (channel.kind, channel.sector, channel.offset, channel.left),
        (READING, 5, 1, 0)
    );
    assert_eq!(Disk::new(&image[1..]).show(0, 4), None);
}

#[test]
fn every_kind_of_disk_is_filled_and_read_back() {
    for kind in Kind::ALL {
        let mut disk = Disk::fresh_as(kind);
        assert_eq!(disk.kind(), Some(kind));
        let bytes: Vec<u8> = (0..kind.longest_file()).map(|i| (i % 251) as u8).collect();
        make(&mut disk, "A", &bytes);
        assert!(read(&mut disk, "A") == bytes);
        assert_eq!(
            disk.open(0, Direction::Write, "B"),
            Err(Status::DiskFull),
            "{kind:?}"
        );
        disk.delete("A").unwrap();
        assert_eq!(disk.recover(0), Ok(707));
        assert!(read(&mut disk, "A") == bytes);
    }
}

#[test]
fn raw_and_atr_single_hold_the_same_sectors() {
    let [raw, atr] = [Kind::Raw, Kind::AtrSingle].map(|kind| {
        let mut disk = Disk::fresh_as(kind);
        make(&mut disk, "A", &[7; 1000]);
        disk.into_parts().0
    });
    assert!(raw == atr[Kind::AtrSingle.header_bytes()..]);
}

#[test]
fn sectors_have_their_own_size() {
    let mut disk = Disk::fresh_as(Kind::AtrDouble);
    for (sector, bytes) in [(1, 128), (3, 128), (4, 256), (360, 256), (720, 256)] {
        assert_eq!(disk.write_sector(sector, &vec![0x5A; bytes]), Ok(bytes));
        assert_eq!(disk.whole_sector(sector), Ok(vec![0x5A; bytes]));
        assert_eq!(
            disk.read_sector(sector, &mut vec![0; 384 - bytes]),
            Err(Status::BadLength)
        );
    }
    assert_eq!(disk.whole_sector(0), Err(Status::BadRequest));
    assert_eq!(disk.whole_sector(721), Err(Status::BadRequest));
    assert_eq!(Disk::new([0; 5]).whole_sector(1), Err(Status::BadImage));
}

#[test]
fn a_header_has_to_agree_with_the_length() {
    for kind in [Kind::AtrSingle, Kind::AtrDouble] {
        let mut disk = Disk::fresh_as(kind);
        make(&mut disk, "A", b"a");
        let sound = disk.image().to_vec();
        for place in 0..7 {
            disk.image_mut()[place] ^= 1;
            assert_eq!(disk.status("A"), Err(Status::BadHeader));
            assert_eq!(disk.recover(0), Err(Status::BadHeader));
            assert_eq!(disk.whole_sector(1), Err(Status::BadHeader));
            assert_eq!(disk.show(0, 4), None);
            let damaged = io::Error::from(disk.format().unwrap_err());
            assert_eq!(damaged.kind(), ErrorKind::InvalidData);
            disk.image_mut()[place] ^= 1;
        }
        disk.image_mut()[..16].fill(0xFF);
        assert_eq!(disk.write_header(), Ok(()));
        assert!(disk.image() == sound);
        disk.image_mut()[7..16].fill(0xFF);
        assert_eq!(disk.status("A"), Ok(()));
        disk.format().unwrap();
        assert_eq!(disk.image()[7..16], [0xFF; 9]);
    }
    assert_eq!(Disk::fresh().write_header(), Err(Status::BadImage));
}

/// A disk with the file A in slot 0, which channel 4 reads, the deleted file B in slot 1, the file C in slot 2, which channel 3
/// writes, and the file D in slot 3.
fn busy_disk(kind: Kind) -> Disk<Vec<u8>> {
    let mut disk = Disk::fresh_as(kind);
    for name in ["A", "B"] {
        make(&mut disk, name, b"bytes");
    }
    disk.open(3, Direction::Write, "C").unwrap();
    disk.open(4, Direction::Read, "A").unwrap();
    make(&mut disk, "D", b"more bytes");
    disk.delete("B").unwrap();
    disk
}

/// What a call leaves: image and channels.
fn left_by(disk: &Disk<Vec<u8>>) -> (Vec<u8>, Vec<u16>) {
    (disk.image().to_vec(), disk.table().words().to_vec())
}

/// A call of a disk, whatever it answers beside its status.
type Call = fn(&mut Disk<Vec<u8>>) -> Result<(), Status>;

/// Calls of every kind that could change the image of [`busy_disk`], each with its answer where the notch is open.
const CHANGING_CALLS: [(&str, Call, Result<(), Status>); 19] = [
    ("open", |disk| disk.open(0, Direction::Write, "NEW"), Ok(())),
    ("put", |disk| Ok(disk.put(3, b"more").map(drop)?), Ok(())),
    (
        "put of none",
        |disk| Ok(disk.put(3, b"").map(drop)?),
        Ok(()),
    ),
    (
        "put record",
        |disk| Ok(disk.put_record(3, b"more").map(drop)?),
        Ok(()),
    ),
    (
        "put record of none",
        |disk| Ok(disk.put_record(3, b"").map(drop)?),
        Ok(()),
    ),
    ("close", |disk| disk.close(3), Ok(())),
    ("rename", |disk| disk.rename("D", "E"), Ok(())),
    ("delete", |disk| disk.delete("D"), Ok(())),
    ("lock", |disk| disk.lock("D"), Ok(())),
    ("unlock", |disk| disk.unlock("D"), Ok(())),
    ("recover", |disk| disk.recover(1).map(drop), Ok(())),
    (
        "write",
        |disk| disk.write_sector(1, &[7; 128]).map(drop),
        Ok(()),
    ),
    (
        "delete, held",
        |disk| disk.delete("A"),
        Err(Status::FileHeld),
    ),
    ("format", |disk| disk.format(), Err(Status::FileHeld)),
    (
        "lock, no file",
        |disk| disk.lock("NONE"),
        Err(Status::NotFound),
    ),
    (
        "unlock, no name",
        |disk| disk.unlock("1A"),
        Err(Status::BadName),
    ),
    (
        "rename, no device",
        |disk| disk.rename("E:A", "B"),
        Err(Status::BadDevice),
    ),
    (
        "recover, no slot",
        |disk| disk.recover(64).map(drop),
        Err(Status::NotFound),
    ),
    (
        "write, short",
        |disk| disk.write_sector(1, &[7]).map(drop),
        Err(Status::BadLength),
    ),
];

#[test]
fn a_closed_notch_refuses_every_call_that_could_change_the_image() {
    for kind in Kind::ALL {
        for (call, make_call, served) in CHANGING_CALLS {
            let mut disk = busy_disk(kind).with_notch(Notch::Closed);
            let before = left_by(&disk);
            let answer = make_call(&mut disk);
            assert_eq!(answer, Err(Status::WriteProtected), "{kind:?}, {call}");
            assert!(left_by(&disk) == before, "{kind:?}, {call}");
            disk.set_notch(Notch::Open);
            assert_eq!(make_call(&mut disk), served, "{kind:?}, {call}");
        }
    }
}

#[test]
fn channel_direction_and_sector_are_looked_at_before_the_notch() {
    let mut disk = busy_disk(Kind::Raw).with_notch(Notch::Closed);
    for bytes in [&b""[..], b"more"] {
        let refused = |status| Err(Incomplete { status, count: 0 });
        assert_eq!(disk.put(0, bytes), refused(Status::ChannelClosed));
        assert_eq!(disk.put(4, bytes), refused(Status::ReadOnly));
        assert_eq!(disk.write_sector(0, bytes), Err(Status::BadRequest));
    }
    let open_on_3 = disk.open(3, Direction::Write, "NEW");
    assert_eq!(open_on_3, Err(Status::ChannelOpen));
    let no_direction = disk.cio(0, command::OPEN, 5, b"E:", &mut []);
    assert_eq!(no_direction.status, Status::NotServed);
    assert_eq!(disk.close(8), Err(Status::BadChannel));
    disk.image_mut()[359 * 128] = 0;
    assert_eq!(disk.delete("D"), Err(Status::WriteProtected));
}

#[test]
fn what_only_reads_is_served_with_the_notch_closed() {
    for kind in Kind::ALL {
        let mut disk = busy_disk(kind).with_notch(Notch::Closed);
        let image = disk.image().to_vec();
        let mut bytes = [0; 5];
        assert_eq!(disk.get(4, &mut bytes), got(5, true));
        assert_eq!(&bytes, b"bytes");
        assert_eq!(disk.close(4), Ok(()));
        assert_eq!(disk.close(4), Ok(()));
        assert_eq!(read(&mut disk, "A"), b"bytes");
        assert_eq!(disk.status("A"), Ok(()));
        assert_eq!(disk.show(0, 4), Some(&b"bytes"[..]));
        assert_eq!(disk.whole_sector(4).unwrap()[..5], *b"bytes");
        let mut channel = Channel::reading(0, 1);
        assert_eq!(disk.thin_get(&mut channel, &mut bytes), got(5, true));
        assert!(disk.image() == image);
    }
}

#[test]
fn a_writing_channel_stays_open_while_the_notch_is_closed() {
    let mut disk = busy_disk(Kind::Raw).with_notch(Notch::Closed);
    let writing = disk.table().channel(3);
    let slot_of_no_output = Channel { slot: 0, ..writing };
    for channel in [writing, slot_of_no_output] {
        disk.table_mut().set_channel(3, channel);
        assert_eq!(disk.close(3), Err(Status::WriteProtected));
        assert_eq!(disk.table().channel(3), channel);
    }
    disk.set_notch(Notch::Open);
    assert_eq!(disk.close(3), Err(Status::BadChain));
    assert_eq!(disk.table().channel(3), Channel::default());
}

#[test]
fn a_thin_put_moves_no_channel_while_the_notch_is_closed() {
    let mut disk = busy_disk(Kind::AtrDouble).with_notch(Notch::Closed);
    let before = left_by(&disk);
    let writing = disk.table().channel(3);
    let mut channel = writing;
    for bytes in [&b""[..], &[7; 300]] {
        let refused = Incomplete {
            status: Status::WriteProtected,
            count: 0,
        };
        assert_eq!(disk.thin_put(&mut channel, bytes), Err(refused));
        assert_eq!(channel, writing);
    }
    assert!(left_by(&disk) == before);
    disk.set_notch(Notch::Open);
    assert_eq!(disk.thin_put(&mut channel, &[7; 300]), Ok(300));
    assert_ne!(channel, writing);
}

#[test]
fn a_header_is_written_with_the_notch_open_only() {
    for kind in [Kind::AtrSingle, Kind::AtrDouble] {
        let mut disk = Disk::new(vec![0; kind.image_bytes()]).with_notch(Notch::Closed);
        assert_eq!(disk.write_header(), Err(Status::WriteProtected));
        assert!(disk.image().iter().all(|&byte| byte == 0));
        disk.set_notch(Notch::Open);
        assert_eq!(disk.write_header(), Ok(()));
        assert_eq!(disk.format(), Ok(()));
    }
    let mut disk = Disk::fresh().with_notch(Notch::Closed);
    assert_eq!(disk.write_header(), Err(Status::BadImage));
}

#[test]
fn a_disk_is_formatted_with_the_notch_open_only() {
    for kind in Kind::ALL {
        let mut disk = Disk::fresh_as(kind).with_notch(Notch::Closed);
        disk.image_mut()[kind.header_bytes()..].fill(0xA5);
        let before = left_by(&disk);
        assert_eq!(disk.format(), Err(Status::WriteProtected));
        assert!(left_by(&disk) == before);
        disk.set_notch(Notch::Open);
        assert_eq!(disk.format(), Ok(()));
        assert!(disk.image() == Disk::fresh_as(kind).image());
    }
}

#[test]
fn a_writer_meets_a_closed_notch_as_a_read_only_medium() {
    let mut disk = busy_disk(Kind::Raw).with_notch(Notch::Closed);
    let error = disk.writer(3).write_all(b"more").unwrap_err();
    assert_eq!(error.kind(), ErrorKind::ReadOnlyFilesystem);
    disk.set_notch(Notch::Open);
    disk.writer(3).write_all(b"more").unwrap();
    assert_eq!(disk.show(2, 6), Some(&b"more"[..]));
}

#[test]
fn a_disk_keeps_its_notch() {
    assert_eq!(Notch::default(), Notch::Open);
    assert_eq!(Disk::fresh().notch(), Notch::Open);
    assert_eq!(Disk::new([0; 9]).notch(), Notch::Open);
    let closed = busy_disk(Kind::Raw).with_notch(Notch::Closed);
    assert_eq!(closed.notch(), Notch::Closed);
    assert_eq!(closed.clone().notch(), Notch::Closed);
    assert_eq!(left_by(&closed), left_by(&busy_disk(Kind::Raw)));
}

#[test]
fn every_notch_but_0_is_closed() {
    for notch in 0..=255 {
        let status = if notch == 0 {
            Status::Success
        } else {
            Status::WriteProtected
        };
        let (mut image, mut table) = busy_disk(Kind::AtrSingle).into_parts();
        let mut channel = table.channel(3).words();
        let mut close = raw::Request {
            notch,
            ..raw::Request::new(3, command::CLOSE)
        };
        let words = [
            raw::sector(&mut image, notch, 0x31, 1, 0x50, 720, &mut [7; 128]),
            raw::recover(&mut image, notch, 1),
            raw::thin_put(&mut image, notch, &mut channel, b"a"),
            raw::cio(&mut image, table.words_mut(), &mut close),
            raw::header(&mut image, notch),
        ];
        for word in words {
            assert_eq!(Answer::from_word(word).status, status, "notch {notch}");
        }
    }
}
