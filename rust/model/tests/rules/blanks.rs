//! Request P5: names that end in a blank, and the place of a name's ending byte.
//!
//! `Desk::refused` also tests that the image, the table and the buffer are as they were.

use super::common::*;

/// The bytes that end a name.
const ENDINGS: [u8; 3] = [0, 0x9b, b' '];

/// Legal texts of names without their device, and what each is padded to.
const TEXTS: [(&[u8], &[u8; 11]); 8] = [
    (b"A", b"A          "),
    (b"A.", b"A          "),
    (b"A.B", b"A       B  "),
    (b"A1.2", b"A1      2  "),
    (b"HEATS.DAT", b"HEATS   DAT"),
    (b"ABCDEFGH", b"ABCDEFGH   "),
    (b"ABCDEFGH.", b"ABCDEFGH   "),
    (b"ABCDEFGH.TXT", b"ABCDEFGHTXT"),
];

/// What may follow a blank: none of it is looked at.
const BEHIND: [&[u8]; 9] = [
    b"",
    b" ",
    b"\x9b",
    b"\0",
    b"B\x9b",
    b".TXT\x9b",
    b",B\x9b",
    b"a*\xff",
    b"D2:",
];

/// A name taken apart: what is answered, and the eleven bytes, which are `#` where none are written.
fn name(bytes: &[u8]) -> (Answer, [u8; 11]) {
    let mut eleven = [b'#'; 11];
    let answer = answer(model::name(bytes, &mut eleven));
    (answer, eleven)
}

/// A name put together from its parts.
fn joined(parts: &[&[u8]]) -> Vec<u8> {
    parts.concat()
}

#[test]
fn three_bytes_end_a_name_and_no_other() {
    for byte in 0..=255 {
        let expected = if ENDINGS.contains(&byte) {
            ((1, 3), *b"A          ")
        } else {
            ((165, 0), [b'#'; 11])
        };
        assert_eq!(name(&[b'D', b':', b'A', byte]), expected, "{byte}");
    }
}

#[test]
fn the_place_is_that_of_the_ending_byte_from_the_d_on() {
    for device in [b"D:".as_slice(), b"D1:"] {
        for (text, eleven) in TEXTS {
            for ending in ENDINGS {
                let place = (device.len() + text.len()) as u64;
                for behind in BEHIND {
                    let bytes = joined(&[device, text, &[ending], behind]);
                    assert_eq!(name(&bytes), ((1, place), *eleven), "{bytes:?}");
                }
            }
        }
    }
}

#[test]
fn a_name_may_be_padded_to_any_length() {
    for blanks in (1..=40).chain([255, 256, 257, 1000, 70_000]) {
        for ending in [b"".as_slice(), b"\0", b"\x9b"] {
            let bytes = joined(&[b"D:HEATS.DAT", &vec![b' '; blanks], ending]);
            assert_eq!(name(&bytes), ((1, 11), *b"HEATS   DAT"));
        }
    }
}

#[test]
fn a_refused_name_has_the_place_0() {
    for (status, names) in [
        (130, [b"E:A ".as_slice(), b"D A ", b" D:A ", b"D1 :A "]),
        (160, [b"D2:A ", b"D0: ", b"D9: A\x9b", b"D2:"]),
        (165, [b"D: ", b"D1:  A\x9b", b"D:a ", b"D:ABCDEFGHI "]),
        (165, [b"D:A.ABCD ", b"D:A,B ", b"D:1 ", b"D:.X "]),
    ] {
        for bytes in names {
            assert_eq!(name(bytes), ((status, 0), [b'#'; 11]), "{bytes:?}");
        }
    }
    for length in [0, 10, 12] {
        let number = model::name(b"D:A ", &mut vec![0; length]);
        assert_eq!(answer(number), (255, 0));
    }
}

#[test]
fn every_command_on_one_file_takes_a_name_that_ends_in_a_blank() {
    for behind in BEHIND {
        let padded = joined(&[b"D:A ", behind]);
        let mut desk = Desk::new();
        desk.make(&padded, b"abc");
        assert_eq!(desk.image[slot(0) + 5..][..11], *b"A          ");
        assert_eq!(desk.cio(0, STATUS, 0, &padded), (1, 0));
        assert_eq!(desk.bytes(&padded), b"abc");
        assert_eq!(desk.cio(0, LOCK, 0, &padded), (1, 0));
        assert_eq!(desk.refused(0, DELETE, 0, &padded), 167);
        assert_eq!(desk.cio(0, UNLOCK, 0, &padded), (1, 0));
        assert_eq!(desk.cio(0, DELETE, 0, &padded), (1, 0));
        assert_eq!(desk.refused(0, STATUS, 0, &padded), 170);
        assert_eq!(desk.recover(0), (1, 1));
        assert_eq!(desk.bytes(b"D:A\x9b"), b"abc");
    }
}

#[test]
fn in_rename_only_the_second_name_ends_in_a_blank() {
    let mut desk = Desk::new();
    desk.make(b"D:A\x9b", b"abc");
    for names in [
        b"D:A ,B\x9b".as_slice(),
        b"D:A   ,B ",
        b"D:A B,C\x9b",
        b"D: ,B\x9b",
        b"D: A,B\x9b",
        b"D:A \x9b",
        b"D:A B\x9b",
        b"D:A, \x9b",
        b"D:A, B\x9b",
        b"D:A,B,C ",
    ] {
        assert_eq!(desk.refused(0, RENAME, 0, names), 165, "{names:?}");
    }
    assert_eq!(desk.refused(0, RENAME, 0, b"D2:A,B "), 160);
    for behind in BEHIND {
        let there = joined(&[b"D:A,B.DAT ", behind]);
        assert_eq!(desk.cio(0, RENAME, 0, &there), (1, 0), "{there:?}");
        assert_eq!(desk.image[slot(0) + 5..][..11], *b"B       DAT");
        let back = joined(&[b"D1:B.DAT,A ", behind]);
        assert_eq!(desk.cio(0, RENAME, 0, &back), (1, 0), "{back:?}");
        assert_eq!(desk.image[slot(0) + 5..][..11], *b"A          ");
    }
}

#[test]
fn a_blank_ends_a_device_alone() {
    for device in [b"D: ".as_slice(), b"D1: "] {
        for behind in BEHIND {
            let mut desk = Desk::new();
            desk.make(b"D:A\x9b", b"abc");
            let alone = joined(&[device, behind]);
            assert_eq!(desk.refused(0, STATUS, 0, &alone), 165, "{alone:?}");
            assert_eq!(desk.refused(0, OPEN, 8, &alone), 165, "{alone:?}");
            assert_eq!(desk.cio(0, FORMAT, 0, &alone), (1, 0), "{alone:?}");
            assert!(desk.image == Desk::new().image);
        }
    }
    let mut desk = Desk::new();
    assert_eq!(desk.refused(0, FORMAT, 0, b"D:A "), 165);
    assert_eq!(desk.refused(0, FORMAT, 0, b"D2: "), 160);
    assert_eq!(desk.refused(0, FORMAT, 0, b"D :"), 130);
}
