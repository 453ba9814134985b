//! "The channels", "Commands" and the readings of them: get, put and the records they leave.

use super::common::*;

/// File A in slot 0: sectors 4, 5, 6, of which the last holds 50 bytes.
const LENGTH: usize = 2 * DATA + 50;

fn one_file() -> Desk {
    let mut desk = Desk::new();
    let bytes: Vec<u8> = (0..LENGTH).map(|place| place as u8).collect();
    desk.make(b"D:A\x9b", &bytes);
    desk
}

#[test]
fn get_moves_over_sectors() {
    let mut desk = one_file();
    assert_eq!(desk.cio(0, OPEN, 4, b"D:A\x9b"), (1, 0));
    assert_eq!(desk.record(0), [1, 0, 0, 0, 3]);
    assert_eq!(desk.get(0, DATA).0, (1, DATA as u64));
    assert_eq!(
        desk.record(0),
        [1, 0, 4, DATA as u16, 2],
        "no further than asked for"
    );
    let (answer, bytes) = desk.get(0, DATA + 1);
    assert_eq!(answer, (1, DATA as u64 + 1));
    assert_eq!([bytes[0], bytes[DATA]], [DATA as u8, (2 * DATA) as u8]);
    assert_eq!(desk.record(0), [1, 0, 6, 1, 0]);
    assert_eq!(desk.get(0, 100).0, (136, 49));
    assert_eq!(desk.record(0), [1, 0, 6, 50, 0]);
}

#[test]
fn get_passes_through_empty_sectors() {
    let mut desk = one_file();
    desk.set_tail(4, [0, 5, 0]);
    desk.set_tail(5, [0, 6, 0]);
    desk.set_record(0, [1, 0, 0, 77, 3]);
    assert_eq!(desk.get(0, 1).0, (1, 1));
    assert_eq!(desk.record(0), [1, 0, 6, 1, 0]);
    desk.set_tail(6, [0, 0, 0]);
    desk.set_record(0, [1, 0, 0, 77, 3]);
    assert_eq!(desk.get(0, 1).0, (136, 0));
    assert_eq!(
        desk.record(0),
        [1, 0, 6, 0, 0],
        "a record may move with no bytes delivered"
    );
}

#[test]
fn get_stops_where_it_cannot_enter() {
    for (link, tail, left) in NOT_ENTERED {
        let mut desk = one_file();
        desk.set_tail(4, link);
        desk.set_tail(5, tail);
        desk.set_record(0, [1, 0, 0, 0, left]);
        let (answer, bytes) = desk.get(0, DATA + 75);
        assert_eq!(answer, (164, DATA as u64));
        assert_eq!(bytes[DATA..], [0xee; 75]);
        assert_eq!(desk.record(0), [1, 0, 4, DATA as u16, left - 1]);
    }
    // The first.
    let mut desk = one_file();
    for record in [
        [1, 0, 0, 9, 0],
        [1, 1, 0, 9, 3],
        [1, 64, 0, 9, 3],
        [1, 256, 0, 9, 3],
    ] {
        desk.set_record(0, record);
        assert_eq!(desk.refused(0, GET, 0, b""), 164);
    }
    // Next sector 0 ends the file whatever is left.
    desk.set_record(0, [1, 0, 6, 50, 9]);
    assert_eq!(desk.get(0, 1).0, (136, 0));
}

#[test]
fn get_tests_an_entered_sector_again() {
    let mut desk = one_file();
    for record in [
        [1, 0, 3, 0, 3],
        [1, 0, 360, 0, 3],
        [1, 0, 720, 0, 3],
        [1, 0, 1028, 0, 3],
        [1, 1, 4, 0, 3],
        [1, 0, 6, 51, 3],
        [1, 0, 4, 65535, 3],
    ] {
        desk.set_record(0, record);
        assert_eq!(desk.refused(0, GET, 0, b""), 164);
    }
    desk.set_record(0, [1, 0, 4, 0, 3]);
    desk.set_tail(4, [0, 5, FULL + 1]);
    assert_eq!(desk.refused(0, GET, 0, b""), 164);
}

#[test]
fn get_looks_at_no_flag_map_or_count() {
    let mut desk = one_file();
    assert_eq!(desk.cio(0, OPEN, 4, b"D:A\x9b"), (1, 0));
    desk.image[slot(0)..][..3].copy_from_slice(&[0, 0, 0]);
    desk.spoil_table();
    assert_eq!(desk.get(0, LENGTH + 1).0, (136, LENGTH as u64));
}

#[test]
fn open_takes_the_count_as_it_is() {
    let mut desk = one_file();
    desk.image[slot(0) + 1..][..2].copy_from_slice(&[0xff, 0xff]);
    assert_eq!(desk.cio(0, OPEN, 4, b"D:A\x9b"), (1, 0));
    assert_eq!(desk.record(0), [1, 0, 0, 0, 65535]);
    // A loop is read until no sectors are left.
    desk.set_tail(6, [0, 4, 50]);
    assert_eq!(desk.get(0, 13_000_000).0, (164, 65535 / 3 * LENGTH as u64));
    assert_eq!(desk.record(0), [1, 0, 6, 50, 0]);
}

#[test]
fn put_goes_on_where_it_was() {
    let mut desk = Desk::new();
    assert_eq!(desk.cio(0, OPEN, 8, b"D:A\x9b"), (1, 0));
    assert_eq!(desk.put(0, &[1; 100]), (1, 100));
    assert_eq!(desk.put(0, &[2; DATA - 100]), (1, DATA as u64 - 100));
    assert_eq!(
        (desk.record(0), desk.tail(4)),
        ([2, 0, 4, 0, 0], [0, 0, FULL])
    );
    assert_eq!(desk.cio(1, OPEN, 8, b"D:B\x9b"), (1, 0));
    assert_eq!(desk.put(0, &[3; 1]), (1, 1));
    assert_eq!(
        (desk.record(0), desk.tail(4)),
        ([2, 0, 6, 0, 0], [0, 6, FULL])
    );
    assert_eq!(desk.cio(0, CLOSE, 0, b""), (1, 0));
    assert_eq!(
        desk.bytes(b"D:A\x9b"),
        [[1; 100].as_slice(), &[2; DATA - 100], &[3]].concat()
    );
}

#[test]
fn put_with_a_last_sector_that_is_the_lowest_free_one() {
    // The order of writing decides: the sector's own last bytes come after the link to it.
    let mut desk = Desk::new();
    assert_eq!(desk.cio(0, OPEN, 8, b"D:A\x9b"), (1, 0));
    assert_eq!(desk.put(0, &[1; DATA]), (1, DATA as u64));
    desk.image[TABLE + 10] |= 0x08;
    desk.image[TABLE + 3] += 1;
    desk.set_record(0, [2, 0, 4, 8, 9]);
    assert_eq!(desk.put(0, &[2; 3]), (1, 3));
    assert_eq!(desk.tail(4), [0, 0, 3]);
    assert_eq!(desk.image[sector(4)..][..6], [2, 2, 2, 1, 1, 1]);
    assert_eq!(desk.record(0), [2, 0, 4, 8, 9], "the channel is as it was");
    assert_eq!(desk.image[slot(0)..][..5], [0x43, 2, 0, 4, 0]);
}

#[test]
fn open_keeps_a_found_slot() {
    let mut desk = one_file();
    desk.make(b"D:B\x9b", b"b");
    assert_eq!(desk.cio(0, OPEN, 8, b"D:A\x9b"), (1, 0));
    assert_eq!(desk.image[slot(0)..][..16], *b"\x43\x01\0\x04\0A          ");
    assert_eq!(desk.tail(4), [0, 0, 0]);
    assert_eq!(
        desk.image[sector(4)..][..2],
        [0, 1],
        "data bytes wait for a put"
    );
    assert_eq!(desk.free(), 705);
}

#[test]
fn a_new_file_takes_no_slot_that_a_channel_names() {
    let mut desk = one_file();
    desk.make(b"D:B\x9b", b"b");
    desk.image[slot(0)] = 0x80;
    desk.set_record(1, [1, 0, 0, 0, 0]);
    desk.set_record(2, [0, 2, 0, 0, 0]);
    desk.set_record(3, [2, 258, 0, 0, 0]);
    assert_eq!(desk.cio(0, OPEN, 8, b"D:C\x9b"), (1, 0));
    assert_eq!(desk.record(0)[..2], [2, 2]);
    assert_eq!(desk.record(2), [0, 2, 0, 0, 0]);
}

#[test]
fn closed_channels() {
    let mut desk = one_file();
    desk.set_record(0, [0, 1, 2, 3, 4]);
    assert_eq!(desk.cio(0, CLOSE, 0, b""), (1, 0));
    assert_eq!(
        desk.record(0),
        [0, 1, 2, 3, 4],
        "not changed, so all five words stay"
    );
    desk.set_record(0, [1, 99, 2, 3, 4]);
    assert_eq!(desk.cio(0, CLOSE, 0, b""), (1, 0));
    assert_eq!(desk.record(0), [0; 5]);
}

#[test]
fn thin_calls_advance_a_record() {
    let mut desk = one_file();
    let mut words = [1, 0, 0, 0, 3];
    let (answer, _) = desk.thin_get(&mut words, DATA + 5);
    assert_eq!(answer, (1, DATA as u64 + 5));
    assert_eq!(words, [1, 0, 5, 5, 1]);
    assert_eq!(desk.cio(0, OPEN, 8, b"D:B\x9b"), (1, 0));
    let mut words = [2, 1, 7, 3, 3];
    let all = (1, DATA as u64);
    assert_eq!(desk.thin_put(&mut words, &[9; DATA]), all);
    assert_eq!(
        words,
        [2, 1, 7, 3, 3],
        "not changed, so all five words stay"
    );
    assert_eq!(desk.thin_put(&mut words, &[9; DATA]), all);
    assert_eq!(words, [2, 1, 8, 0, 0]);
    assert_eq!(desk.record(0), [2, 1, 7, 0, 0]);
}
