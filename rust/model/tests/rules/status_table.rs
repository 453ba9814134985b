//! "Status numbers and their order": each row of the table, and its place behind the row before.
//!
//! `Desk::refused` also tests that the image, the table and the buffer are as they were.

use model::Request;

use super::common::*;

const CLOSED_ONLY: [u8; 7] = [OPEN, STATUS, RENAME, DELETE, LOCK, UNLOCK, FORMAT];
/// The commands that ask for a good volume table, with a direction and a name that pass.
const ON_GOOD_TABLE: [(u8, u8, &[u8]); 5] = [
    (OPEN, 8, b"D:A\x9b"),
    (RENAME, 0, b"D:A,C\x9b"),
    (DELETE, 0, b"D:A\x9b"),
    (LOCK, 0, b"D:A\x9b"),
    (UNLOCK, 0, b"D:A\x9b"),
];

/// Files A (slot 0, sector 4) and B (slot 1, sectors 5 and 6).
fn two_files() -> Desk {
    let mut desk = Desk::new();
    desk.make(b"D:A\x9b", b"a");
    desk.make(b"D:B\x9b", &[2; DATA + 75]);
    desk
}

#[test]
fn row_255_malformed_table() {
    let mut desk = two_files();
    for length in [0, 39, 41, 45] {
        let mut words = vec![0; length];
        desk.image.truncate(5);
        let cio = model::cio(&mut desk.image, &mut words, &mut Request::new(9, 0));
        assert_eq!(cio, 255);
    }
    desk.set_record(6, [3, 0, 0, 0, 0]);
    assert_eq!(desk.refused(9, 0, 0, b""), 255);
    for words in [&mut [1; 4][..], &mut [1; 6], &mut [3; 5]] {
        assert_eq!(model::thin_get(&desk.image, words, &mut [0]), 255);
        assert_eq!(desk.thin_put(words, &[0]), (255, 0));
    }
    assert_eq!(model::name(b"E:", &mut [0; 10]), 255);
    assert_eq!(model::name(b"E:", &mut [0; 12]), 255);
}

#[test]
fn row_203_image() {
    for length in [
        0, 15, 92_159, 92_161, 92_175, 92_177, 183_936, 183_951, 183_953,
    ] {
        let mut desk = two_files();
        desk.image.resize(length, 0);
        desk.set_record(0, [2, 0, 4, 0, 0]);
        assert_eq!(desk.refused(8, 0, 0, b""), 203);
        assert_eq!(desk.refused(0, CLOSE, 0, b""), 203);
        assert_eq!(desk.recover(200), (203, 0));
        assert_eq!(desk.sector((0, 0), 0, 0, 0).0, (203, 0));
        assert_eq!(model::thin_get(&desk.image, &mut [0; 5], &mut []), 203);
        assert_eq!(desk.thin_put(&mut [0; 5], &[]), (203, 0));
        assert_eq!(model::show(&desk.image, 0, 4), 0);
    }
}

#[test]
fn row_134_channel() {
    let mut desk = two_files();
    for command in 0..=255 {
        assert_eq!(desk.refused(8, command, 0, b""), 134);
    }
}

#[test]
fn row_132_168_command() {
    let mut desk = two_files();
    desk.set_record(0, [1, 0, 0, 0, 1]);
    for command in 0..=2 {
        assert_eq!(desk.refused(0, command, 0, b""), 132);
    }
    let listed = [
        OPEN, GET_RECORD, GET, PUT_RECORD, PUT, CLOSE, STATUS, RENAME, DELETE, LOCK, UNLOCK, FORMAT,
    ];
    for command in (3..=255).filter(|command| !listed.contains(command)) {
        assert_eq!(desk.refused(0, command, 0, b""), 168);
    }
}

#[test]
fn row_129_open_channel() {
    let mut desk = two_files();
    for record in [[1, 0, 0, 0, 1], [2, 99, 0, 0, 0]] {
        desk.set_record(3, record);
        for command in CLOSED_ONLY {
            assert_eq!(desk.refused(3, command, 0, b""), 129);
        }
    }
}

#[test]
fn with_all_eight_open_an_open_answers_129() {
    // The open's own channel is open too, so that document 01's 161 never comes.
    let mut desk = two_files();
    for channel in 0..8 {
        desk.set_record(channel, [1 + channel as u16 % 2, 0, 0, 0, 1]);
    }
    for channel in 0..8 {
        for direction in 0..=255 {
            assert_eq!(desk.refused(channel, OPEN, direction, b"D:A\x9b"), 129);
        }
    }
}

#[test]
fn row_133_closed_channel() {
    let mut desk = two_files();
    assert_eq!(desk.refused(0, GET, 0, b""), 133);
    assert_eq!(desk.refused(0, PUT, 0, b""), 133);
    assert_eq!(desk.cio(0, GET, 0, b""), (133, 0));
    assert_eq!(model::thin_get(&desk.image, &mut [0; 5], &mut []), 133);
    assert_eq!(desk.thin_put(&mut [0; 5], &[]), (133, 0));
}

#[test]
fn row_131_135_other_direction() {
    let mut desk = two_files();
    desk.set_record(0, [2, 99, 0, 7, 7]);
    desk.set_record(1, [1, 99, 0, 7, 7]);
    desk.spoil_table();
    assert_eq!(desk.refused(0, GET, 0, b""), 131);
    assert_eq!(desk.refused(1, PUT, 0, b""), 135);
    assert_eq!(desk.cio(0, GET, 0, b""), (131, 0));
    assert_eq!(desk.cio(1, PUT, 0, b""), (135, 0));
    assert_eq!(model::thin_get(&desk.image, &mut [2; 5], &mut []), 131);
    assert_eq!(desk.thin_put(&mut [1; 5], &[]), (135, 0));
}

#[test]
fn no_bytes_answer_1_once_135_is_past() {
    let mut desk = two_files();
    desk.set_record(0, [2, 99, 0, 7, 7]);
    desk.set_record(1, [1, 99, 0, 7, 7]);
    desk.spoil_table();
    assert_eq!(desk.cio(0, PUT, 0, b""), (1, 0));
    assert_eq!(desk.cio(1, GET, 0, b""), (1, 0));
    assert_eq!(desk.record(0), [2, 99, 0, 7, 7]);
    assert_eq!(desk.record(1), [1, 99, 0, 7, 7]);
}

#[test]
fn row_168_direction() {
    let mut desk = two_files();
    for direction in (0..=255).filter(|direction| ![4, 8].contains(direction)) {
        assert_eq!(desk.refused(0, OPEN, direction, b"E:"), 168);
    }
}

#[test]
fn row_130_160_165_names() {
    let mut desk = two_files();
    desk.spoil_table();
    let refused: [(u8, &[&[u8]]); 3] = [
        (
            130,
            &[
                b"",
                b"D",
                b"D1",
                b"d:A\x9b",
                b"E:A\x9b",
                b"DX:A\x9b",
                b"D12:A\x9b",
                b"1:A\x9b",
            ],
        ),
        (160, &[b"D0:A\x9b", b"D2:", b"D9:a"]),
        (
            165,
            &[
                b"D:",
                b"D:\x9b",
                b"D:A",
                b"D:a\x9b",
                b"D:1A\x9b",
                b"D:.X\x9b",
                b"D: A\x9b",
                b"D:ABCDEFGHI\x9b",
                b"D:A.ABCD\x9b",
                b"D:A.B.C\x9b",
                b"D:A,B\x9b",
                b"D:A:B\x9b",
                b"D1:A*\x9b",
            ],
        ),
    ];
    for (status, names) in refused {
        for name in names {
            assert_eq!(desk.refused(0, OPEN, 8, name), status);
            for command in [STATUS, DELETE, LOCK, UNLOCK] {
                assert_eq!(desk.refused(0, command, 0, name), status);
            }
            assert_eq!(u64::from(status), model::name(name, &mut [0; 11]));
        }
    }
    for (name, place) in [
        (b"D:A.\x9b.".as_slice(), 4),
        (b"D1:A\0,", 4),
        (b"D:A\x9ba", 3),
    ] {
        assert_eq!(answer(model::name(name, &mut [0; 11])), (1, place));
    }
}

#[test]
fn rename_takes_two_names() {
    let mut desk = two_files();
    for name in [
        b"D:A\x9b".as_slice(),
        b"D:,C\x9b",
        b"D:A,\x9b",
        b"D:A,C",
        b"D:A,C,E\x9b",
    ] {
        assert_eq!(desk.refused(0, RENAME, 0, name), 165);
    }
    for name in [
        b"D:A,D:C\x9b".as_slice(),
        b"D:A\x9b,C\x9b",
        b"D:a,C\x9b",
        b"D:A,c\x9b",
    ] {
        assert_eq!(desk.refused(0, RENAME, 0, name), 165);
    }
    assert_eq!(desk.refused(0, RENAME, 0, b"D3:A,C\x9b"), 160);
    assert_eq!(desk.cio(0, RENAME, 0, b"D1:A,C.DAT\0"), (1, 0));
    assert_eq!(desk.image[slot(0)..][..16], *b"\x42\x01\0\x04\0C       DAT");
}

#[test]
fn format_takes_the_device_alone() {
    let mut desk = two_files();
    assert_eq!(desk.refused(0, FORMAT, 0, b"D:"), 165);
    assert_eq!(desk.refused(0, FORMAT, 0, b"D:A\x9b"), 165);
    assert_eq!(desk.refused(0, FORMAT, 0, b"D2:\x9b"), 160);
    assert_eq!(desk.refused(0, FORMAT, 0, b"E:\x9b"), 130);
    assert_eq!(desk.cio(0, FORMAT, 0, b"D1:\0"), (1, 0));
    assert!(desk.image == Desk::new().image);
}

#[test]
fn row_163_volume_table() {
    // Byte 0, the 707, a bit that is no data sector's with a count that agrees, the count.
    let spoilt: [&[(usize, u8)]; 5] = [
        &[(0, 0)],
        &[(1, 0)],
        &[(10, 0x1f), (3, 193)],
        &[(55, 0x01), (3, 193)],
        &[(3, 0)],
    ];
    for bytes in spoilt {
        let mut desk = two_files();
        assert_eq!(desk.cio(0, DELETE, 0, b"D:B\x9b"), (1, 0));
        for &(byte, value) in bytes {
            desk.image[TABLE + byte] = value;
        }
        desk.set_record(1, [2, 99, 0, 0, 0]);
        for (command, direction, _) in ON_GOOD_TABLE {
            let names: &[u8] = if command == RENAME {
                b"D:Z,A\x9b"
            } else {
                b"D:Z\x9b"
            };
            assert_eq!(desk.refused(0, command, direction, names), 163);
        }
        assert_eq!(desk.put(1, b"x"), (163, 0));
        assert_eq!(desk.recover(1), (163, 0));
        assert_eq!(desk.cio(0, STATUS, 0, b"D:A\x9b"), (1, 0));
        assert_eq!(desk.cio(0, OPEN, 4, b"D:A\x9b"), (1, 0));
        assert_eq!(desk.get(0, 1).0, (3, 1));
        assert_eq!(desk.cio(0, CLOSE, 0, b""), (1, 0));
        assert_eq!(desk.cio(1, CLOSE, 0, b""), (164, 0));
        assert_eq!(desk.cio(0, FORMAT, 0, b"D:\x9b"), (1, 0));
    }
}

#[test]
fn row_170_not_found() {
    let mut desk = two_files();
    for command in [STATUS, DELETE, LOCK, UNLOCK] {
        assert_eq!(desk.refused(0, command, 0, b"D:C\x9b"), 170);
    }
    assert_eq!(desk.refused(0, OPEN, 4, b"D:C\x9b"), 170);
    assert_eq!(desk.refused(0, RENAME, 0, b"D:C,B\x9b"), 170);
    // Nothing stands behind a flag byte of zero, and nothing deleted stands.
    desk.image[slot(0)] = 0;
    assert_eq!(desk.refused(0, STATUS, 0, b"D:B\x9b"), 170);
    desk.image[slot(0)] = 0xc2;
    assert_eq!(desk.refused(0, STATUS, 0, b"D:A\x9b"), 170);
    assert_eq!(desk.cio(0, STATUS, 0, b"D:B\x9b"), (1, 0));
}

#[test]
fn row_167_locked() {
    let mut desk = two_files();
    assert_eq!(desk.cio(0, LOCK, 0, b"D:A\x9b"), (1, 0));
    assert_eq!(desk.image[slot(0)], 0x62);
    desk.set_record(1, [1, 0, 0, 0, 1]);
    assert_eq!(desk.refused(0, OPEN, 8, b"D:A\x9b"), 167);
    assert_eq!(desk.refused(0, STATUS, 0, b"D:A\x9b"), 167);
    assert_eq!(desk.refused(0, RENAME, 0, b"D:A,B\x9b"), 167);
    assert_eq!(desk.refused(0, DELETE, 0, b"D:A\x9b"), 167);
    assert_eq!(desk.cio(0, OPEN, 4, b"D:A\x9b"), (1, 0));
    desk.table = [0; 40];
    assert_eq!(desk.cio(0, LOCK, 0, b"D:A\x9b"), (1, 0));
    assert_eq!(desk.cio(0, UNLOCK, 0, b"D:A\x9b"), (1, 0));
    assert_eq!(desk.image[slot(0)], 0x42);
}

#[test]
fn row_200_held() {
    // By a channel of either kind, or by the flag.
    for (record, flag) in [
        ([1, 0, 0, 0, 1], 0x42),
        ([2, 0, 4, 0, 0], 0x42),
        ([0; 5], 0x43),
    ] {
        let mut desk = two_files();
        desk.set_record(1, record);
        desk.image[slot(0)] = flag;
        desk.set_tail(4, [0xfc, 0, 0]);
        for (command, direction, name) in ON_GOOD_TABLE {
            assert_eq!(desk.refused(0, command, direction, name), 200);
        }
        assert_eq!(desk.refused(0, RENAME, 0, b"D:A,B\x9b"), 200);
        let expected = if flag == 0x43 { (200, 0) } else { (1, 0) };
        assert_eq!(desk.cio(0, OPEN, 4, b"D:A\x9b"), expected);
        assert_eq!(desk.cio(2, STATUS, 0, b"D:A\x9b"), (1, 0));
    }
    // Format answers it if any channel is open, behind the name.
    let mut desk = two_files();
    desk.set_record(1, [1, 63, 0, 0, 1]);
    assert_eq!(desk.refused(0, FORMAT, 0, b"D:A\x9b"), 165);
    assert_eq!(desk.refused(0, FORMAT, 0, b"D:\x9b"), 200);
    // A record's slot above 63 holds nothing, nor do the words of a closed channel.
    desk.set_record(1, [2, 256, 4, 0, 0]);
    desk.set_record(2, [0, 0, 4, 0, 0]);
    assert_eq!(desk.cio(0, DELETE, 0, b"D:A\x9b"), (1, 0));
}

#[test]
fn row_164_chain() {
    // B is in slot 1 on sectors 5 and 6. Places in the image, and what is put there.
    let spoilt: [(usize, u8); 9] = [
        (slot(1) + 1, 0),        // count
        (slot(1) + 1, 1),        // ends too late
        (slot(1) + 1, 3),        // ends too early
        (slot(1) + 2, 0x03),     // count above 707
        (slot(1) + 3, 3),        // first sector
        (tail(5), 0x08),         // slot number
        (tail(5) + 1, 0x07),     // link to a free sector
        (tail(6) + 2, FULL + 1), // bytes in use
        (tail(6) + 1, 0x05),     // loop
    ];
    for (place, value) in spoilt {
        let mut desk = two_files();
        desk.image[place] = value;
        assert_eq!(desk.refused(0, OPEN, 8, b"D:B\x9b"), 164);
        assert_eq!(desk.refused(0, DELETE, 0, b"D:B\x9b"), 164);
        assert_eq!(desk.cio(0, OPEN, 4, b"D:B\x9b"), (1, 0));
        assert_eq!(desk.cio(0, CLOSE, 0, b""), (1, 0));
        assert_eq!(desk.cio(0, LOCK, 0, b"D:B\x9b"), (1, 0));
    }
    let mut desk = two_files();
    assert_eq!(desk.cio(0, DELETE, 0, b"D:B\x9b"), (1, 0));
    assert_eq!(desk.free(), 706);
    assert_eq!(desk.image[slot(1)..][..6], *b"\x80\x02\0\x05\0B");
}

#[test]
fn row_164_put_and_close() {
    let start = || {
        let mut desk = Desk::new();
        assert_eq!(desk.cio(0, OPEN, 8, b"D:A\x9b"), (1, 0));
        assert_eq!(desk.record(0), [2, 0, 4, 0, 0]);
        desk
    };
    let spoilt = [
        (slot(0), 0x42),         // flag
        (slot(0), 0x63),         // flag
        (slot(0) + 2, 0x03),     // count above 707
        (tail(4), 0x04),         // slot number
        (tail(4), 0x01),         // next sector
        (tail(4) + 1, 0x04),     // next sector
        (tail(4) + 2, FULL + 1), // bytes in use
    ];
    for (place, value) in spoilt {
        let mut desk = start();
        desk.image[place] = value;
        assert_eq!(desk.put(0, b"x"), (164, 0));
        assert_eq!(desk.record(0), [2, 0, 4, 0, 0]);
        let closed = if place == slot(0) { (164, 0) } else { (1, 0) };
        assert_eq!(desk.cio(0, CLOSE, 0, b""), closed);
        assert_eq!(desk.record(0), [0; 5]);
    }
    for (slot, last) in [
        (64, 4),
        (256, 4),
        (0, 3),
        (0, 0),
        (0, 360),
        (0, 720),
        (0, 1024),
    ] {
        let mut desk = start();
        desk.set_record(0, [2, slot, last, 5, 6]);
        assert_eq!(desk.refused(0, PUT, 0, b""), 164);
        let closed = if slot == 0 { (1, 0) } else { (164, 0) };
        assert_eq!(desk.cio(0, CLOSE, 0, b""), closed);
        assert_eq!(desk.record(0), [0; 5]);
    }
    // A count of exactly 707 passes, and is counted on.
    let mut desk = start();
    desk.image[slot(0) + 1..][..2].copy_from_slice(&707u16.to_le_bytes());
    assert_eq!(desk.put(0, &[1; DATA + 1]), (1, DATA as u64 + 1));
    assert_eq!(desk.image[slot(0) + 1..][..2], 708u16.to_le_bytes());
}

#[test]
fn row_201_name_taken() {
    let mut desk = two_files();
    desk.make(b"D:C\x9b", b"c");
    assert_eq!(desk.refused(0, RENAME, 0, b"D:A,B\x9b"), 201);
    assert_eq!(desk.cio(0, RENAME, 0, b"D:A,A\x9b"), (1, 0));
    assert_eq!(desk.cio(0, DELETE, 0, b"D:B\x9b"), (1, 0));
    assert_eq!(desk.cio(0, RENAME, 0, b"D:A,B\x9b"), (1, 0));
}

#[test]
fn row_169_162_no_room() {
    // No slot: 64 files. No free sector: a file of 707. Both: 169.
    let mut desk = Desk::new();
    for file in 0..63 {
        desk.make(&[b'D', b':', b'A' + file / 8, b'0' + file % 8, 0], b"x");
    }
    let mut last = desk.clone();
    desk.make(b"D:Z\0", b"x");
    assert_eq!(desk.refused(0, OPEN, 8, b"D:NEW\x9b"), 169);
    desk.image[slot(9)] = 0x80;
    desk.set_record(5, [1, 9, 0, 0, 0]);
    assert_eq!(desk.refused(0, OPEN, 8, b"D:NEW\x9b"), 169);

    last.make(b"D:A0\x9b", &vec![1; DATA * (707 - 62)]);
    assert_eq!(last.free(), 0);
    assert_eq!(last.refused(0, OPEN, 8, b"D:NEW\x9b"), 162);
    last.image[slot(63)] = 0x02;
    assert_eq!(last.refused(0, OPEN, 8, b"D:NEW\x9b"), 169);
    // Neither for a found file, whose chain is freed first.
    assert_eq!(last.cio(0, OPEN, 8, b"D:A0\x9b"), (1, 0));
    assert_eq!(last.free(), 707 - 63);
}

#[test]
fn put_162_keeps_what_fitted() {
    let mut desk = Desk::new();
    desk.make(b"D:A\x9b", &vec![1; DATA * 704]);
    assert_eq!(desk.cio(0, OPEN, 8, b"D:B\x9b"), (1, 0));
    assert_eq!(desk.put(0, &[2; 1000]), (162, 3 * DATA as u64));
    assert_eq!(desk.put(0, &[2; 1]), (162, 0));
    assert_eq!(desk.cio(0, CLOSE, 0, b""), (1, 0));
    assert_eq!(desk.bytes(b"D:B\x9b"), [2; 3 * DATA]);
    assert_eq!(desk.cio(0, OPEN, 8, b"D:C\x9b"), (162, 0));
}

#[test]
fn recovery_in_order() {
    let start = || {
        let mut desk = two_files();
        desk.make(b"D:C\x9b", b"c");
        assert_eq!(desk.cio(0, DELETE, 0, b"D:B\x9b"), (1, 0));
        desk
    };
    for slot in [0, 3, 64, 255] {
        assert_eq!(start().recover(slot), (170, 0));
    }
    let mut desk = start();
    desk.image[slot(0)] = 0;
    desk.spoil_table();
    assert_eq!(desk.recover(1), (170, 0), "past a zero flag");
    desk.image[slot(0)] = 0x42;
    desk.image[slot(1) + 5] = b'b';
    assert_eq!(desk.recover(1), (163, 0));

    let mut desk = start();
    desk.image[slot(0) + 5] = b'b';
    desk.image[slot(1) + 5] = b'b';
    assert_eq!(desk.recover(1), (165, 0));
    for (place, byte) in [(5, b' '), (5, b'1'), (7, b'X'), (13, 0), (14, b'X')] {
        let mut desk = start();
        desk.image[slot(1) + place] = byte;
        assert_eq!(desk.recover(1), (165, 0));
    }

    let mut desk = start();
    desk.image[slot(0) + 5] = b'B';
    desk.image[slot(1) + 1] = 0;
    assert_eq!(desk.recover(1), (201, 0));
    desk.image[slot(0) + 5] = b'A';
    assert_eq!(desk.recover(1), (202, 0));
    desk.image[slot(1) + 1] = 2;
    assert_eq!(desk.recover(1), (1, 2));
    assert_eq!(desk.image[slot(1)], 0x42);
    assert_eq!(desk.free(), 703);
    assert_eq!(desk.recover(1), (170, 0));

    let mut desk = start();
    desk.make(b"D:A\x9b", &[1; DATA + 1]);
    assert_eq!(desk.recover(1), (202, 0), "a sector is used");
}

#[test]
fn sector_calls() {
    let mut desk = two_files();
    assert_eq!(desk.sector((0x30, 1), 0, 0, 0).0, (138, 0));
    assert_eq!(desk.sector((0x31, 2), 0, 0, 0).0, (138, 0));
    assert_eq!(desk.sector(DRIVE, 0x51, 1, 0).0, (139, 0));
    assert_eq!(desk.sector(DRIVE, 0x52, 0, 0).0, (139, 0));
    assert_eq!(desk.sector(DRIVE, 0x52, 721, 0).0, (139, 0));
    assert_eq!(desk.sector(DRIVE, 0x52, 4, SECTOR - 1).0, (204, 0));
    assert_eq!(desk.sector(DRIVE, 0x57, 4, SECTOR + 1).0, (204, 0));
    assert_eq!(desk.sector(DRIVE, 0x57, 4, 384 - SECTOR).0, (204, 0));
    let (answer, bytes) = desk.sector(DRIVE, 0x52, 4, SECTOR);
    assert_eq!(answer, (1, SECTOR as u64));
    assert_eq!([bytes[0], bytes[SECTOR - 1]], [b'a', 1]);
    assert_eq!(desk.sector(DRIVE, 0x57, 720, SECTOR).0, (1, SECTOR as u64));
    // The first three have 128 bytes in either density.
    for number in 1..=3 {
        assert_eq!(
            desk.sector(DRIVE, 0x52, number, 128),
            ((1, 128), vec![0; 128])
        );
        assert_eq!(desk.sector(DRIVE, 0x50, number, 256).0, (204, 0));
    }
    assert_eq!(desk.sector(DRIVE, 0x50, 1, 128).0, (1, 128));
    assert_eq!(desk.sector(DRIVE, 0x57, 3, 128).0, (1, 128));
    let boot = &desk.image[HEADER..sector(4)];
    assert_eq!(boot, [[0xee; 128], [0; 128], [0xee; 128]].concat());
    assert_eq!(desk.image[sector(720)..], [0xee; SECTOR]);
    assert_eq!(desk.image[sector(719)..sector(720)], [0; SECTOR]);
}

#[test]
fn showing() {
    let mut desk = two_files();
    let part = |start: usize, length: usize| 1 + 256 * (1024 * start + length) as u64;
    assert_eq!(model::show(&desk.image, 0, 4), part(sector(4), 1));
    assert_eq!(model::show(&desk.image, 1, 5), part(sector(5), DATA));
    assert_eq!(
        model::show(&desk.image, 0, 300),
        part(sector(300), 0),
        "free and empty: a yes"
    );
    for (slot, sector) in [
        (1, 4),
        (64, 4),
        (0, 0),
        (0, 3),
        (0, 360),
        (0, 368),
        (0, 720),
    ] {
        assert_eq!(model::show(&desk.image, slot, sector), 0);
    }
    desk.set_tail(4, [0, 0, FULL + 1]);
    assert_eq!(model::show(&desk.image, 0, 4), 0);
}
