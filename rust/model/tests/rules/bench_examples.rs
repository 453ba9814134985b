//! The ten bench examples of the paper, the sixth as request P2 changes it.

use super::common::*;
use model::sound::is_sound;

#[test]
fn example_1_format() {
    let mut desk = Desk::new();
    desk.image[HEADER..].fill(0x5a);
    assert_eq!(desk.cio(0, FORMAT, 0, b"D:\x9b"), (1, 0));
    let map = |byte: usize| desk.image[TABLE + byte];
    assert_eq!([map(10), map(55), map(56)], [0x0f, 0x00, 0x7f]);
    assert_eq!(desk.free(), 707);
    assert!(is_sound(&desk.image, &desk.table));
    let ones: u32 = desk.image[HEADER..]
        .iter()
        .map(|byte| byte.count_ones())
        .sum();
    assert_eq!(ones, 1 + 2 * 707u32.count_ones() + 707, "all else is zero");
}

#[test]
fn example_2_names() {
    let name = |bytes: &[u8]| {
        let mut eleven = *b"unchanged..";
        let answer = answer(model::name(bytes, &mut eleven));
        (answer, eleven)
    };
    assert_eq!(name(b"D:A\x9b"), ((1, 3), *b"A          "));
    assert_eq!(name(b"D:A\0"), ((1, 3), *b"A          "));
    assert_eq!(name(b"D2:A\x9b"), ((160, 0), *b"unchanged.."));
    assert_eq!(name(b"E:A\x9b"), ((130, 0), *b"unchanged.."));
    assert_eq!(name(b"D:1A\x9b"), ((165, 0), *b"unchanged.."));
    assert_eq!(name(b"D:A"), ((165, 0), *b"unchanged.."));
}

#[test]
fn example_3_long_names() {
    let mut eleven = [0; 11];
    let place = 14;
    assert_eq!(
        model::name(b"D:ABCDEFGH.TXT\x9b", &mut eleven),
        1 + 256 * place
    );
    assert_eq!(&eleven, b"ABCDEFGHTXT");
    assert_eq!(model::name(b"D:ABCDEFGHI.TXT\x9b", &mut eleven), 165);
}

#[test]
fn example_4_link() {
    // Slot 5, and a disk whose sectors below 700 are used: slot 5's second sector is 700.
    let mut desk = Desk::new();
    for name in [b"D:A\x9b", b"D:B\x9b", b"D:C\x9b", b"D:D\x9b", b"D:E\x9b"] {
        desk.make(name, b"x");
    }
    assert_eq!(desk.cio(0, OPEN, 8, b"D:F\x9b"), (1, 0));
    assert_eq!(desk.record(0), [2, 5, 9, 0, 0]);
    // The fifth file takes what is left up to 699.
    assert_eq!(desk.cio(1, OPEN, 8, b"D:E\x9b"), (1, 0));
    let full = (699 - 10 + 1 - 9 + 1) * DATA;
    assert_eq!(desk.put(1, &vec![1; full]), (1, full as u64));
    assert_eq!(desk.record(1), [2, 4, 699, 0, 0]);
    assert_eq!(desk.put(0, &[2; DATA + 1]), (1, DATA as u64 + 1));
    assert_eq!(desk.tail(9), [0x16, 0xbc, FULL]);
    assert_eq!(desk.tail(700), [0x14, 0x00, 1]);
    assert!(is_sound(&desk.image, &desk.table));
}

#[test]
fn example_5_two_sectors() {
    let mut desk = Desk::new();
    desk.make(b"D:A\x9b", &[7; DATA + 1]);
    assert_eq!(desk.tail(4), [0x00, 0x05, FULL]);
    assert_eq!(desk.tail(5), [0x00, 0x00, 0x01]);
    assert_eq!(desk.image[slot(0)..][..16], *b"\x42\x02\0\x04\0A          ");
    assert_eq!(desk.free(), 705);

    let mut desk = Desk::new();
    desk.make(b"D:A\x9b", &[7; DATA]);
    assert_eq!(desk.tail(4), [0x00, 0x00, FULL]);
    assert_eq!(desk.tail(5), [0x00, 0x00, 0x00]);
    assert_eq!(desk.free(), 706);
}

#[test]
fn example_6_end_of_file() {
    let mut desk = Desk::new();
    desk.make(b"D:A\x9b", b"abc");
    assert_eq!(desk.cio(0, OPEN, 4, b"D:A\x9b"), (1, 0));
    assert_eq!(desk.get(0, 5), ((136, 3), b"abc\xee\xee".to_vec()));
    assert_eq!(desk.cio(1, OPEN, 4, b"D:A\x9b"), (1, 0));
    assert_eq!(desk.get(1, 3), ((3, 3), b"abc".to_vec()));
    assert_eq!(desk.get(1, 1), ((136, 0), b"\xee".to_vec()));
}

#[test]
fn example_7_full_disk() {
    let mut desk = Desk::new();
    let bytes: Vec<u8> = (0..WHOLE_DISK).map(|place| (place % 251) as u8).collect();
    assert_eq!(desk.cio(0, OPEN, 8, b"D:A\x9b"), (1, 0));
    assert_eq!(desk.put(0, &bytes), (1, WHOLE_DISK as u64));
    assert_eq!(desk.put(0, b"x"), (162, 0));
    assert_eq!(desk.free(), 0);
    assert!(is_sound(&desk.image, &desk.table));
    assert_eq!(desk.cio(0, CLOSE, 0, b""), (1, 0));
    assert!(desk.bytes(b"D:A\x9b") == bytes);
    assert_eq!(desk.cio(0, OPEN, 8, b"D:B\x9b"), (162, 0));

    let mut desk = Desk::new();
    for file in 0..64 {
        let name = [b'D', b':', b'A' + file / 8, b'0' + file % 8, 0x9b];
        desk.make(&name, b"x");
    }
    assert_eq!(desk.cio(0, OPEN, 8, b"D:Z\x9b"), (169, 0));
    assert!(is_sound(&desk.image, &desk.table));
}

#[test]
fn example_8_recovery() {
    let mut desk = Desk::new();
    desk.make(b"D:A\x9b", b"a");
    desk.make(b"D:B\x9b", b"b");
    assert_eq!(desk.cio(0, DELETE, 0, b"D:A\x9b"), (1, 0));
    let mut between = desk.clone();
    assert_eq!(desk.recover(0), (1, 1));
    assert_eq!(desk.bytes(b"D:A\x9b"), b"a");
    assert!(is_sound(&desk.image, &desk.table));

    between.make(b"D:C\x9b", b"c");
    assert_eq!(between.recover(0), (170, 0));
}

#[test]
fn example_9_slot_numbers() {
    let mut desk = Desk::new();
    desk.make(b"D:A\x9b", b"a");
    desk.make(b"D:B\x9b", b"b");
    assert_eq!(desk.cio(0, DELETE, 0, b"D:A\x9b"), (1, 0));
    assert_eq!(desk.cio(0, DELETE, 0, b"D:B\x9b"), (1, 0));
    desk.make(b"D:C\x9b", &[3; DATA + 1]);
    assert_eq!(desk.cio(0, DELETE, 0, b"D:C\x9b"), (1, 0));
    assert_eq!(desk.recover(1), (202, 0));
    assert_eq!(desk.recover(0), (1, 2));
    assert_eq!(desk.bytes(b"D:C\x9b"), [3; DATA + 1]);
}

#[test]
fn example_10_taken_name() {
    let mut desk = Desk::new();
    desk.make(b"D:A\x9b", b"a");
    desk.make(b"D:B\x9b", b"b");
    assert_eq!(desk.cio(0, DELETE, 0, b"D:B\x9b"), (1, 0));
    assert_eq!(desk.cio(0, RENAME, 0, b"D:A,B\x9b"), (1, 0));
    assert_eq!(desk.recover(1), (201, 0));
}
