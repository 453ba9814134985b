//! Request P2: the desk waits for a 3. A get or get record of at least one byte that succeeds and
//! leaves its channel at the end of a sector whose next sector is 0.

use super::common::*;

/// So many bytes that differ.
fn some_bytes(length: usize) -> Vec<u8> {
    (0..length).map(|place| (place % 127) as u8).collect()
}

/// A disk on which channel 0 reads a file on sectors 4, 5 and 6, of which the last has these last three
/// bytes.
fn with_last_tail(tail: [u8; 3]) -> Desk {
    let mut desk = reading(&some_bytes(2 * DATA + 50));
    desk.set_tail(6, tail);
    desk
}

/// The lengths of a file that ends within a sector, at its end, or with the first byte of another.
const LENGTHS: [usize; 7] = [1, 3, DATA - 1, DATA, DATA + 1, 2 * DATA, 2 * DATA + 50];

#[test]
fn a_get_of_all_that_is_left_answers_3_and_the_next_136() {
    for length in LENGTHS {
        let bytes = some_bytes(length);
        let mut desk = reading(&bytes);
        let image = desk.image.clone();
        assert_eq!(desk.get(0, length), ((3, length as u64), bytes));
        let (sectors, offset) = ((length - 1) / DATA, (length - 1) % DATA + 1);
        let end = [1, 0, 4 + sectors as u16, offset as u16, 0];
        assert_eq!(desk.record(0), end, "where 1 would leave it");
        assert_eq!(desk.get(0, 1), ((136, 0), vec![0xee]));
        assert_eq!(desk.get_record(0, 1), ((136, 0), vec![0xee]));
        assert_eq!(desk.record(0), end);
        assert!(desk.image == image, "a get changes no byte");
    }
}

#[test]
fn a_get_of_less_answers_1_and_one_of_more_136() {
    for length in LENGTHS {
        let bytes = some_bytes(length);
        let mut desk = reading(&bytes);
        let more = [&bytes[..], &[0xee]].concat();
        assert_eq!(desk.get(0, length + 1), ((136, length as u64), more));
        let mut desk = reading(&bytes);
        let less = length - 1;
        assert_eq!(desk.get(0, less), ((1, less as u64), bytes[..less].into()));
        assert_eq!(desk.get(0, 1), ((3, 1), bytes[less..].into()));
    }
}

#[test]
fn an_empty_file_never_answers_3() {
    let mut desk = reading(b"");
    assert_eq!(desk.get(0, 1), ((136, 0), vec![0xee]));
    assert_eq!(desk.get(0, 0), ((1, 0), vec![]));
}

#[test]
fn a_get_of_no_bytes_at_the_end_answers_1() {
    let mut desk = reading(b"ab\x9b");
    assert_eq!(desk.get(0, 3).0, (3, 3));
    let mut words = desk.record(0);
    assert_eq!(desk.get(0, 0), ((1, 0), vec![]));
    assert_eq!(desk.get_record(0, 0), ((1, 0), vec![]));
    assert_eq!(desk.thin_get(&mut words, 0), ((1, 0), vec![]));
    assert_eq!(desk.record(0), words);
}

#[test]
fn a_get_record_of_the_last_line_answers_3() {
    let mut desk = reading(b"ab\x9bc\x9b");
    assert_eq!(desk.get_record(0, 4), ((1, 3), b"ab\x9b\xee".to_vec()));
    assert_eq!(desk.get_record(0, 4), ((3, 2), b"c\x9b\xee\xee".to_vec()));
    assert_eq!(desk.record(0), [1, 0, 4, 5, 0]);
    assert_eq!(desk.get_record(0, 4), ((136, 0), vec![0xee; 4]));
    // It may be the only one, and may end with its sector or with the buffer.
    for length in LENGTHS {
        for room in [length, length + 1, 3 * DATA] {
            let mut desk = reading(&line(length));
            let (answer, buffer) = desk.get_record(0, room);
            assert_eq!(answer, (3, length as u64));
            assert_eq!(buffer[..length], line(length));
            assert_eq!(desk.get(0, 1).0, (136, 0));
        }
    }
}

#[test]
fn a_last_line_without_its_end_is_136() {
    let mut desk = reading(b"ab\x9bcd");
    assert_eq!(desk.get_record(0, 3).0, (1, 3));
    assert_eq!(desk.get_record(0, 3), ((136, 2), b"cd\xee".to_vec()));
    // What it did not read as a line, a get reads.
    let mut desk = reading(b"ab\x9bcd");
    assert_eq!(desk.get_record(0, 3).0, (1, 3));
    assert_eq!(desk.get(0, 2), ((3, 2), b"cd".to_vec()));
}

#[test]
fn with_137_the_end_is_not_told() {
    // The file ends directly behind the buffer's bytes, while the line is dropped, or with the $9B that
    // is dropped last.
    for bytes in [&b"abc"[..], b"abcd", b"abc\x9b", b"abcd\x9b"] {
        let mut desk = reading(bytes);
        assert_eq!(desk.get_record(0, 3), ((137, 3), b"abc".to_vec()));
        assert_eq!(desk.record(0), [1, 0, 4, bytes.len() as u16, 0]);
        assert_eq!(desk.get_record(0, 3).0, (136, 0));
    }
}

#[test]
fn where_another_sector_follows_the_answer_is_1() {
    let mut desk = reading(&line(DATA + 1));
    assert_eq!(desk.get(0, DATA).0, (1, DATA as u64));
    assert_eq!(desk.get(0, 1).0, (3, 1));
    let mut desk = reading(&[line(DATA), line(1)].concat());
    assert_eq!(desk.get_record(0, DATA).0, (1, DATA as u64));
    assert_eq!(desk.get_record(0, DATA).0, (3, 1));
}

#[test]
fn where_an_empty_sector_follows_the_answer_is_1() {
    let text = [some_bytes(DATA), line(DATA)].concat();
    for get in [Desk::get, Desk::get_record] {
        let mut desk = reading(&[&text[..], b"y"].concat());
        desk.set_tail(6, [0, 0, 0]);
        assert_eq!(get(&mut desk, 0, 2 * DATA).0, (1, 2 * DATA as u64));
        assert_eq!(desk.record(0), [1, 0, 5, DATA as u16, 1]);
        assert_eq!(get(&mut desk, 0, 1), ((136, 0), vec![0xee]));
        assert_eq!(
            desk.record(0),
            [1, 0, 6, 0, 0],
            "the empty sector is entered"
        );
    }
    // One that is passed through on the way to the end makes no difference.
    let mut desk = with_last_tail([0, 0, 1]);
    desk.set_tail(5, [0, 6, 0]);
    assert_eq!(desk.get(0, DATA).0, (1, DATA as u64));
    assert_eq!(desk.get(0, 1).0, (3, 1));
}

#[test]
fn it_goes_by_the_link_whatever_is_left_to_enter() {
    for left in [1, 2, 707, 65535] {
        for get in [Desk::get, Desk::get_record] {
            let mut desk = reading(&line(50));
            desk.set_record(0, [1, 0, 0, 0, left]);
            assert_eq!(get(&mut desk, 0, 50), ((3, 50), line(50)));
            assert_eq!(desk.record(0), [1, 0, 4, 50, left - 1]);
            assert_eq!(get(&mut desk, 0, 1).0, (136, 0));
        }
    }
    // With none left a link is a link: the answer is 1, and then 164.
    for next in [[0, 7, 50], [1, 0, 50], [2, 0, 50], [3, 0xff, 50]] {
        let mut desk = with_last_tail(next);
        let length = 2 * DATA + 50;
        assert_eq!(desk.get(0, length).0, (1, length as u64));
        assert_eq!(desk.record(0), [1, 0, 6, 50, 0]);
        assert_eq!(desk.refused(0, GET, 0, b""), 164);
    }
}

#[test]
fn it_looks_at_nothing_but_the_link() {
    // A slot with any flag, a count of 0, another first sector, a table that is not good.
    for flag in [0x00, 0x42, 0x43, 0x62, 0x80, 0xff] {
        let mut desk = reading(&line(50));
        desk.set_record(0, [1, 0, 4, 0, 0]);
        desk.image[slot(0)..][..5].copy_from_slice(&[flag, 0, 0, 9, 0]);
        desk.spoil_table();
        desk.notch = 1;
        let mut other = desk.clone();
        assert_eq!(desk.get(0, 50), ((3, 50), line(50)));
        assert_eq!(other.get_record(0, 50), ((3, 50), line(50)));
    }
    // A sector that is marked free.
    let mut desk = reading(b"abc");
    assert_eq!(desk.cio(0, CLOSE, 0, b""), (1, 0));
    assert_eq!(desk.cio(0, DELETE, 0, b"D:A\x9b"), (1, 0));
    desk.set_record(0, [1, 0, 4, 1, 9]);
    assert_eq!(desk.get(0, 2), ((3, 2), b"bc".to_vec()));
}

#[test]
fn the_thin_get_answers_3_too() {
    for length in LENGTHS {
        let bytes = some_bytes(length);
        let mut desk = reading(&bytes);
        let mut words = desk.record(0);
        let answer = desk.thin_get(&mut words, length);
        assert_eq!(answer, ((3, length as u64), bytes));
        assert_eq!(desk.get(0, length).0, (3, length as u64));
        assert_eq!(words, desk.record(0));
        assert_eq!(desk.thin_get(&mut words, 1), ((136, 0), vec![0xee]));
    }
}

#[test]
fn no_put_answers_3() {
    let mut desk = Desk::new();
    assert_eq!(desk.cio(0, OPEN, 8, b"D:A\x9b"), (1, 0));
    assert_eq!(desk.put(0, b"abc"), (1, 3));
    assert_eq!(desk.put(0, &[7; DATA]), (1, DATA as u64));
    assert_eq!(desk.put_record(0, b"abc"), (1, 3));
    let mut words = desk.record(0);
    assert_eq!(desk.thin_put(&mut words, b"abc"), (1, 3));
}

/// What a get of so many bytes, one at least, answers by gets of single bytes: as the last of them.
fn by_single_bytes(desk: &mut Desk, length: usize) -> (Answer, Vec<u8>) {
    let mut buffer = vec![0xee; length];
    let mut answer = (1, 0);
    for place in &mut buffer {
        let ((status, count), byte) = desk.get(0, 1);
        answer = (status, answer.1 + count);
        *place = byte[0];
        if !succeeds(status) {
            break;
        }
    }
    (answer, buffer)
}

#[test]
fn a_get_answers_as_the_last_of_gets_of_single_bytes() {
    let whole = with_last_tail([0, 0, 50]);
    let mut starts = vec![whole.clone()];
    starts.extend([[0, 0, 0], [0, 0, FULL], [0, 9, 50]].map(with_last_tail));
    for (link, tail, left) in NOT_ENTERED {
        let mut desk = whole.clone();
        desk.set_tail(4, link);
        desk.set_tail(5, tail);
        desk.set_record(0, [1, 0, 0, 0, left]);
        starts.push(desk);
    }
    for start in starts {
        for length in LENGTHS {
            let (mut desk, mut other) = (start.clone(), start.clone());
            let mut status = 1;
            while status == 1 {
                let (answer, buffer) = desk.get(0, length);
                assert_eq!((answer, buffer), by_single_bytes(&mut other, length));
                assert_eq!(desk.record(0), other.record(0));
                (status, _) = answer;
            }
        }
    }
}
