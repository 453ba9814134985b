//! Request P4: what the write-protect notch refuses, what it does not, and where 144 stands.
//!
//! `Desk::refused` also tests that the image, the table and the buffer are as they were.

use super::common::*;

/// The commands that could change the disk on a closed channel, with their directions.
const CHANGING: [(u8, u8); 6] = [
    (OPEN, 8),
    (RENAME, 0),
    (DELETE, 0),
    (LOCK, 0),
    (UNLOCK, 0),
    (FORMAT, 0),
];

/// The two commands of a sector write.
const WRITES: [u8; 2] = [0x50, 0x57];

/// File A in slot 0, which channel 1 reads; a deleted file of two sectors in slot 1; file C in
/// slot 2, which channel 2 writes.
fn busy_disk(notch: u8) -> Desk {
    let mut desk = Desk::new();
    desk.make(b"D:A\x9b", b"abc");
    desk.make(b"D:B\x9b", &[2; DATA + 75]);
    assert_eq!(desk.cio(1, OPEN, 4, b"D:A\x9b"), (1, 0));
    assert_eq!(desk.cio(2, OPEN, 8, b"D:C\x9b"), (1, 0));
    assert_eq!(desk.cio(0, DELETE, 0, b"D:B\x9b"), (1, 0));
    desk.notch = notch;
    desk
}

#[test]
fn every_notch_but_0_is_closed() {
    for notch in 1..=255 {
        let mut desk = busy_disk(notch);
        let image = desk.image.clone();
        assert_eq!(desk.refused(0, OPEN, 8, b"D:D\x9b"), 144);
        assert_eq!(desk.refused(2, CLOSE, 0, b""), 144);
        assert_eq!(desk.refused(2, PUT, 0, b""), 144);
        assert_eq!(desk.recover(1), (144, 0));
        assert_eq!(desk.sector(DRIVE, 0x57, 4, SECTOR).0, (144, 0));
        assert_eq!(desk.thin_put(&mut [2, 2, 7, 0, 0], b"x"), (144, 0));
        assert!(desk.image == image);
    }
}

#[test]
fn what_could_change_the_disk_is_refused_before_names_are_read() {
    let mut desk = busy_disk(1);
    for name in [
        b"D:A\x9b".as_slice(),
        b"D:A,D\x9b",
        b"D:\x9b",
        b"D:NONE\x9b",
        b"D:A",
        b"D2:A\x9b",
        b"E:A\x9b",
        b"",
    ] {
        for (command, direction) in CHANGING {
            assert_eq!(desk.refused(0, command, direction, name), 144);
        }
    }
    desk.spoil_table();
    for (command, direction) in CHANGING {
        assert_eq!(desk.refused(0, command, direction, b"D:A\x9b"), 144);
    }
}

#[test]
fn row_144_stands_behind_the_rows_of_the_channel_and_the_direction() {
    let mut desk = busy_disk(1);
    for (command, direction) in CHANGING {
        assert_eq!(desk.refused(8, command, direction, b""), 134);
        assert_eq!(desk.refused(1, command, direction, b""), 129);
        assert_eq!(desk.refused(2, command, direction, b""), 129);
    }
    for direction in (0..=255).filter(|direction| ![4, 8].contains(direction)) {
        assert_eq!(desk.refused(0, OPEN, direction, b"E:"), 168);
    }
    assert_eq!(desk.refused(0, PUT, 0, b""), 133);
    assert_eq!(desk.refused(1, PUT, 0, b""), 135);
    assert_eq!(desk.refused(2, GET, 0, b""), 131);
    for bytes in [&b""[..], b"x"] {
        assert_eq!(desk.put(0, bytes), (133, 0));
        assert_eq!(desk.put(1, bytes), (135, 0));
        assert_eq!(desk.thin_put(&mut [0; 5], bytes), (133, 0));
        assert_eq!(desk.thin_put(&mut [1; 5], bytes), (135, 0));
        assert_eq!(desk.thin_put(&mut [3; 5], bytes), (255, 0));
    }
    desk.image.truncate(9);
    assert_eq!(desk.refused(0, DELETE, 0, b"D:A\x9b"), 203);
    assert_eq!(desk.thin_put(&mut [2; 5], b""), (203, 0));
    desk.set_record(7, [3; 5]);
    assert_eq!(desk.refused(0, DELETE, 0, b"D:A\x9b"), 255);
}

#[test]
fn a_put_of_no_bytes_is_refused_too() {
    let mut desk = busy_disk(1);
    let before = desk.clone();
    let mut record = [2, 2, 7, 5, 6];
    for bytes in [&b""[..], b"x", &[7; 2 * DATA]] {
        assert_eq!(desk.put(2, bytes), (144, 0));
        assert_eq!(desk.thin_put(&mut record, bytes), (144, 0));
    }
    assert_eq!(record, [2, 2, 7, 5, 6]);
    assert!(desk.image == before.image && desk.table == before.table);
    // Before 163, and before 164 for a record that does not fit the disk.
    desk.spoil_table();
    assert_eq!(desk.put(2, b"x"), (144, 0));
    assert_eq!(desk.thin_put(&mut [2, 99, 0, 0, 0], b"x"), (144, 0));
}

#[test]
fn a_writing_channel_whose_close_answers_144_stays_open() {
    let mut desk = busy_disk(1);
    desk.set_record(2, [2, 2, 7, 5, 6]);
    assert_eq!(desk.refused(2, CLOSE, 0, b""), 144);
    assert_eq!(desk.record(2), [2, 2, 7, 5, 6]);
    desk.notch = 0;
    assert_eq!(desk.cio(2, CLOSE, 0, b""), (1, 0));
    assert_eq!((desk.record(2), desk.image[slot(2)]), ([0; 5], 0x42));
    // So does one whose slot is not `$43`, which 164 would close.
    for slot in [0, 2, 63, 64, 99] {
        desk.set_record(2, [2, slot, 7, 0, 0]);
        desk.notch = 1;
        assert_eq!(desk.refused(2, CLOSE, 0, b""), 144);
        desk.notch = 0;
        assert_eq!(desk.cio(2, CLOSE, 0, b""), (164, 0));
        assert_eq!(desk.record(2), [0; 5]);
    }
}

#[test]
fn what_only_reads_is_served() {
    let mut desk = busy_disk(1);
    let image = desk.image.clone();
    assert_eq!(desk.get(1, 3), ((3, 3), b"abc".to_vec()));
    assert_eq!(desk.cio(1, CLOSE, 0, b""), (1, 0));
    assert_eq!(desk.record(1), [0; 5]);
    assert_eq!(desk.cio(1, CLOSE, 0, b""), (1, 0));
    assert_eq!(desk.cio(1, STATUS, 0, b"D:A\x9b"), (1, 0));
    assert_eq!(desk.refused(1, STATUS, 0, b"D2:A\x9b"), 160);
    assert_eq!(desk.bytes(b"D:A\x9b"), b"abc");
    let (answer, bytes) = desk.sector(DRIVE, 0x52, 4, SECTOR);
    assert_eq!((answer, bytes[0]), ((1, SECTOR as u64), b'a'));
    assert_eq!(desk.sector(DRIVE, 0x52, 4, SECTOR - 1).0, (204, 0));
    assert!(desk.image == image);
}

#[test]
fn a_recovery_answers_144_behind_203() {
    let mut desk = busy_disk(1);
    let image = desk.image.clone();
    for slot in 0..=255 {
        assert_eq!(desk.recover(slot), (144, 0));
    }
    desk.spoil_table();
    assert_eq!(desk.recover(1), (144, 0));
    desk.image = image[..9].to_vec();
    assert_eq!(desk.recover(1), (203, 0));
    desk.image = image;
    desk.notch = 0;
    assert_eq!(desk.recover(1), (1, 2));
}

#[test]
fn a_sector_write_answers_144_between_139_and_204() {
    let mut desk = busy_disk(1);
    let image = desk.image.clone();
    for command in WRITES {
        for length in [0, SECTOR - 1, SECTOR, SECTOR + 1] {
            assert_eq!(desk.sector((0x30, 1), command, 4, length).0, (138, 0));
            assert_eq!(desk.sector(DRIVE, command, 0, length).0, (139, 0));
            assert_eq!(desk.sector(DRIVE, command, 721, length).0, (139, 0));
            assert_eq!(desk.sector(DRIVE, command, 720, length).0, (144, 0));
        }
    }
    assert_eq!(desk.sector(DRIVE, 0x51, 4, SECTOR).0, (139, 0));
    assert!(desk.image == image);
    desk.notch = 0;
    for command in WRITES {
        let all = (1, SECTOR as u64);
        assert_eq!(desk.sector(DRIVE, command, 4, SECTOR).0, all);
    }
}
