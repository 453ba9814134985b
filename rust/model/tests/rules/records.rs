//! Request P1: lines of text. Get record and put record, sentence by sentence.
//!
//! `Desk::refused` also tests that the image, the table and the buffer are as they were.

use super::common::*;

/// A disk with an empty file A in slot 0, which channel 0 writes.
fn writing() -> Desk {
    let mut desk = Desk::new();
    assert_eq!(desk.cio(0, OPEN, 8, b"D:A\x9b"), (1, 0));
    desk
}

/// The bytes of the file that channel 0 writes, which is closed for it.
fn written(mut desk: Desk) -> Vec<u8> {
    assert_eq!(desk.cio(0, CLOSE, 0, b""), (1, 0));
    desk.bytes(b"D:A\x9b")
}

#[test]
fn get_record_fills_the_buffer_through_the_first_end_of_line() {
    let mut desk = reading(b"ab\x9b\x9bcde\x9bf");
    for (record, line) in [
        ([1, 0, 4, 3, 0], &b"ab\x9b"[..]),
        ([1, 0, 4, 4, 0], b"\x9b"),
        ([1, 0, 4, 8, 0], b"cde\x9b"),
    ] {
        let (answer, buffer) = desk.get_record(0, 6);
        assert_eq!(answer, (1, line.len() as u64));
        assert_eq!(&buffer[..line.len()], line);
        assert!(buffer[line.len()..].iter().all(|&byte| byte == 0xee));
        assert_eq!(desk.record(0), record, "behind the line, and no further");
    }
}

#[test]
fn an_end_of_line_may_be_the_last_byte_of_the_buffer() {
    let mut desk = reading(b"ab\x9bc\x9b");
    assert_eq!(desk.get_record(0, 3), ((1, 3), b"ab\x9b".to_vec()));
    assert_eq!(desk.get_record(0, 2), ((3, 2), b"c\x9b".to_vec()));
    // At the end of a sector too: the next one is not entered.
    let mut desk = reading(&[line(DATA), line(2)].concat());
    assert_eq!(desk.get_record(0, DATA), ((1, DATA as u64), line(DATA)));
    assert_eq!(desk.record(0), [1, 0, 4, DATA as u16, 1]);
    assert_eq!(desk.get_record(0, 9).0, (3, 2));
    assert_eq!(desk.record(0), [1, 0, 5, 2, 0]);
}

#[test]
fn a_line_goes_over_sectors() {
    let long = line(2 * DATA + 7);
    let mut desk = reading(&[&long[..], b"next\x9b"].concat());
    let (answer, buffer) = desk.get_record(0, 3 * DATA);
    assert_eq!(answer, (1, long.len() as u64));
    assert_eq!(buffer[..long.len()], long);
    assert_eq!(desk.record(0), [1, 0, 6, 7, 0]);
    assert_eq!(desk.get_record(0, 5), ((3, 5), b"next\x9b".to_vec()));
    // Sectors with count 0 are passed through.
    let mut desk = reading(&[vec![b'x'; 2 * DATA], line(3)].concat());
    desk.set_tail(4, [0, 5, 0]);
    desk.set_tail(5, [0, 6, 0]);
    assert_eq!(desk.get_record(0, 3), ((3, 3), line(3)));
    assert_eq!(desk.record(0), [1, 0, 6, 3, 0]);
}

#[test]
fn a_full_buffer_drops_the_rest_of_the_line() {
    // The rest is in the sector, or goes over one or two more.
    for length in [8, DATA, DATA + 1, 2 * DATA, 2 * DATA + 1, 3 * DATA] {
        let mut desk = reading(&[line(length), b"next\x9b".to_vec()].concat());
        assert_eq!(desk.get_record(0, 3), ((137, 3), b"xxx".to_vec()));
        let (last, offset) = ((length - 1) / DATA, (length - 1) % DATA + 1);
        let [kind, slot, sector, place, _] = desk.record(0);
        let behind = [1, 0, 4 + last as u16, offset as u16];
        assert_eq!([kind, slot, sector, place], behind, "behind the $9B");
        assert_eq!(desk.get_record(0, 5), ((3, 5), b"next\x9b".to_vec()));
    }
    // No further than the first.
    let mut desk = reading(b"abcd\x9be\x9bf\x9b");
    assert_eq!(desk.get_record(0, 2), ((137, 2), b"ab".to_vec()));
    assert_eq!(desk.get_record(0, 1), ((137, 1), b"e".to_vec()));
    assert_eq!(desk.get_record(0, 9).0, (3, 2));
}

#[test]
fn it_drops_also_where_the_end_of_line_is_the_next_byte() {
    let mut desk = reading(b"ab\x9bcd\x9b");
    assert_eq!(desk.get_record(0, 2), ((137, 2), b"ab".to_vec()));
    assert_eq!(desk.record(0), [1, 0, 4, 3, 0]);
    assert_eq!(desk.get_record(0, 3), ((3, 3), b"cd\x9b".to_vec()));
    // The next byte may be the first of another sector.
    let mut desk = reading(&line(DATA + 1));
    assert_eq!(desk.get_record(0, DATA).0, (137, DATA as u64));
    assert_eq!(desk.record(0), [1, 0, 5, 1, 0]);
}

#[test]
fn the_file_may_end_while_it_drops() {
    for (bytes, length) in [(3, 3), (9, 3), (DATA, DATA), (2 * DATA + 5, 3)] {
        let mut desk = reading(&vec![b'x'; bytes]);
        let (answer, buffer) = desk.get_record(0, length);
        assert_eq!(answer, (137, length as u64));
        assert_eq!(buffer, vec![b'x'; length], "the buffer is full");
        // It stands where a get that answers 136 leaves it.
        let left_by_record = desk.record(0);
        let mut desk = reading(&vec![b'x'; bytes]);
        assert_eq!(desk.get(0, bytes + 1).0, (136, bytes as u64));
        assert_eq!(desk.record(0), left_by_record);
        assert_eq!(desk.get_record(0, 1).0, (136, 0));
    }
}

#[test]
fn a_bad_sector_while_it_drops_is_164_with_the_buffer_full() {
    for (link, tail, left) in NOT_ENTERED {
        for length in [2, DATA] {
            let mut desk = reading(&vec![b'x'; 3 * DATA]);
            desk.set_tail(4, link);
            desk.set_tail(5, tail);
            desk.set_record(0, [1, 0, 0, 0, left]);
            let full = vec![b'x'; length];
            assert_eq!(desk.get_record(0, length), ((164, length as u64), full));
            assert_eq!(desk.record(0), [1, 0, 4, DATA as u16, left - 1]);
        }
    }
}

#[test]
fn a_file_that_ends_first_gives_136_with_what_came() {
    let mut desk = reading(b"ab\x9bcd");
    assert_eq!(desk.get_record(0, 9).0, (1, 3));
    let (answer, buffer) = desk.get_record(0, 4);
    assert_eq!(answer, (136, 2));
    assert_eq!(buffer, b"cd\xee\xee", "the rest of the buffer stays");
    assert_eq!(desk.record(0), [1, 0, 4, 5, 0]);
    assert_eq!(desk.get_record(0, 4), ((136, 0), vec![0xee; 4]));
    let mut empty = writing();
    assert_eq!(empty.cio(0, CLOSE, 0, b""), (1, 0));
    assert_eq!(empty.cio(0, OPEN, 4, b"D:A\x9b"), (1, 0));
    assert_eq!(empty.get_record(0, 4), ((136, 0), vec![0xee; 4]));
    assert_eq!(empty.record(0), [1, 0, 4, 0, 0], "the sector is entered");
}

#[test]
fn a_bad_sector_first_gives_164_with_what_came() {
    let mut desk = reading(&line(2 * DATA));
    desk.set_tail(5, [4, 0, FULL]);
    let (answer, buffer) = desk.get_record(0, DATA + 1);
    assert_eq!(answer, (164, DATA as u64));
    assert_eq!(buffer[DATA], 0xee);
    assert_eq!(desk.record(0), [1, 0, 4, DATA as u16, 1]);
    // Get's test of a lent record comes first, and leaves all as it was.
    for record in [
        [1, 64, 0, 9, 3],
        [1, 0, 3, 0, 3],
        [1, 1, 4, 0, 3],
        [1, 0, 4, DATA as u16 + 1, 3],
    ] {
        desk.set_record(0, record);
        assert_eq!(desk.refused(0, GET_RECORD, 0, b""), 164);
    }
}

#[test]
fn a_chain_that_loops_is_dropped_until_no_sectors_are_left() {
    let mut desk = reading(&[b'x'; 2 * DATA]);
    desk.set_tail(5, [0, 4, FULL]);
    desk.set_record(0, [1, 0, 0, 0, 65535]);
    assert_eq!(desk.get_record(0, 1), ((164, 1), b"x".to_vec()));
    assert_eq!(desk.record(0), [1, 0, 4, DATA as u16, 0]);
}

#[test]
fn get_record_into_an_empty_buffer_answers_1_and_moves_nothing() {
    let mut desk = reading(b"ab\x9bc");
    desk.spoil_table();
    // Also at the file's end, and where get's test of the record would fail.
    for record in [
        [1, 0, 0, 9, 1],
        [1, 0, 4, 0, 0],
        [1, 0, 4, 4, 0],
        [1, 99, 0, 7, 7],
        [1, 0, 3, 7, 7],
    ] {
        desk.set_record(0, record);
        let before = desk.clone();
        assert_eq!(desk.get_record(0, 0), ((1, 0), vec![]));
        assert!(desk.image == before.image && desk.table == before.table);
    }
    desk.set_record(0, [0; 5]);
    assert_eq!(desk.get_record(0, 0).0, (133, 0));
    desk.set_record(0, [2, 0, 4, 0, 0]);
    assert_eq!(desk.get_record(0, 0).0, (131, 0));
}

#[test]
fn put_record_writes_through_the_first_end_of_line() {
    for (bytes, count) in [
        (&b"ab\x9b"[..], 3),
        (b"ab\x9bcd", 3),
        (b"ab\x9bcd\x9b", 3),
        (b"\x9b", 1),
        (b"\x9b\x9b", 1),
    ] {
        let mut desk = writing();
        assert_eq!(desk.put(0, b"-"), (1, 1));
        assert_eq!(desk.put_record(0, bytes), (1, count as u64));
        assert_eq!(written(desk), [b"-", &bytes[..count]].concat());
    }
    // What stands behind it takes no sector either.
    let mut desk = writing();
    let bytes = [line(DATA), vec![b'y'; 5 * DATA]].concat();
    assert_eq!(desk.put_record(0, &bytes), (1, DATA as u64));
    assert_eq!(desk.record(0), [2, 0, 4, 0, 0]);
    assert_eq!(desk.free(), 706);
}

#[test]
fn put_record_writes_the_whole_buffer_and_then_one_end_of_line() {
    for length in [1, 3, DATA - 1, DATA, DATA + 1, 2 * DATA, 1000] {
        let mut desk = writing();
        let bytes = vec![b'x'; length];
        assert_eq!(desk.put_record(0, &bytes), (1, length as u64));
        assert_eq!(desk.put_record(0, b"y"), (1, 1), "only the caller's bytes");
        assert_eq!(written(desk), [&bytes, &b"\x9by\x9b"[..]].concat());
    }
    // With a full sector the $9B takes another.
    let mut desk = writing();
    assert_eq!(desk.put_record(0, &[b'x'; DATA]), (1, DATA as u64));
    assert_eq!(desk.record(0), [2, 0, 5, 0, 0]);
    assert_eq!(desk.tail(4), [0, 5, FULL]);
    assert_eq!(desk.tail(5), [0, 0, 1]);
    assert_eq!(desk.free(), 705);
}

#[test]
fn put_record_of_an_empty_buffer_writes_one_end_of_line() {
    let mut desk = writing();
    assert_eq!(desk.put_record(0, b""), (1, 0));
    assert_eq!(desk.put_record(0, b""), (1, 0));
    assert_eq!(written(desk), b"\x9b\x9b");
    // So it has the refusals of a put that is not empty.
    let mut desk = writing();
    desk.set_record(0, [2, 99, 4, 5, 6]);
    assert_eq!(desk.put_record(0, b""), (164, 0));
    desk.spoil_table();
    assert_eq!(desk.put_record(0, b""), (163, 0));
    assert_eq!(desk.put(0, b""), (1, 0));
}

/// A disk on which the file that channel 0 writes has so many bytes of room left, and no more.
fn nearly_full(room: usize) -> Desk {
    let mut desk = writing();
    let bytes = vec![b'-'; WHOLE_DISK - room];
    assert_eq!(desk.put(0, &bytes), (1, bytes.len() as u64));
    desk
}

#[test]
fn where_its_own_end_of_line_does_not_fit_the_answer_is_162_with_the_callers_bytes() {
    for room in [0, 1, 5, DATA, DATA + 1, 3 * DATA] {
        let bytes = vec![b'x'; room];
        let mut desk = nearly_full(room);
        assert_eq!(desk.put_record(0, &bytes), (162, room as u64));
        assert_eq!(desk.put_record(0, b""), (162, 0));
        let kept = written(desk);
        assert_eq!(kept.len(), WHOLE_DISK);
        assert_eq!(kept[WHOLE_DISK - room..], bytes);
        // It fits with one byte less, and so does a $9B that is the buffer's last.
        if room > 0 {
            let mut desk = nearly_full(room);
            let short = room - 1;
            assert_eq!(desk.put_record(0, &bytes[1..]), (1, short as u64));
            assert_eq!(written(desk)[WHOLE_DISK - room..], line(room));
            let mut desk = nearly_full(room);
            assert_eq!(desk.put_record(0, &line(room)), (1, room as u64));
            assert_eq!(written(desk)[WHOLE_DISK - room..], line(room));
        }
    }
}

#[test]
fn put_record_with_162_keeps_and_reports_the_bytes_that_fitted() {
    for bytes in [vec![b'x'; 2 * DATA], line(2 * DATA)] {
        let mut desk = nearly_full(DATA + 3);
        assert_eq!(desk.put_record(0, &bytes), (162, DATA as u64 + 3));
        let kept = written(desk);
        assert_eq!(kept[WHOLE_DISK - DATA - 3..], bytes[..DATA + 3]);
    }
}

#[test]
fn commands_5_and_9_have_the_checks_of_7_and_11() {
    let mut desk = Desk::new();
    desk.make(b"D:A\x9b", b"ab\x9b");
    desk.set_record(1, [1, 0, 0, 0, 1]);
    desk.set_record(2, [2, 0, 4, 0, 0]);
    for command in [GET_RECORD, PUT_RECORD] {
        assert_eq!(desk.refused(8, command, 0, b""), 134);
        assert_eq!(desk.refused(0, command, 0, b""), 133);
    }
    desk.spoil_table();
    assert_eq!(desk.refused(2, GET_RECORD, 0, b""), 131);
    assert_eq!(desk.refused(1, PUT_RECORD, 0, b""), 135);
    for bytes in [&b""[..], b"x"] {
        assert_eq!(desk.put_record(0, bytes), (133, 0));
        assert_eq!(desk.put_record(1, bytes), (135, 0));
    }
    // A get asks nothing of the table, a put does, before it looks at its record.
    assert_eq!(desk.get_record(1, 3), ((3, 3), b"ab\x9b".to_vec()));
    assert_eq!(desk.refused(2, PUT_RECORD, 0, b""), 163);
    desk.image.truncate(9);
    assert_eq!(desk.refused(8, GET_RECORD, 0, b""), 203);
    assert_eq!(desk.refused(8, PUT_RECORD, 0, b""), 203);
}

#[test]
fn the_notch_refuses_put_record_behind_the_rows_of_the_channel() {
    let mut desk = writing();
    desk.set_record(1, [1, 0, 0, 0, 1]);
    desk.notch = 1;
    let before = desk.clone();
    for bytes in [&b""[..], b"x", b"x\x9b", b"\x9b"] {
        assert_eq!(desk.put_record(0, bytes), (144, 0));
        assert_eq!(desk.put_record(1, bytes), (135, 0));
        assert_eq!(desk.put_record(2, bytes), (133, 0));
    }
    assert!(desk.image == before.image && desk.table == before.table);
    // Before 163, and before 164.
    desk.set_record(0, [2, 99, 0, 0, 0]);
    desk.spoil_table();
    assert_eq!(desk.refused(0, PUT_RECORD, 0, b""), 144);
    // A get record could not change the image.
    let mut desk = reading(b"ab\x9b");
    desk.notch = 1;
    assert_eq!(desk.get_record(0, 3), ((3, 3), b"ab\x9b".to_vec()));
}

#[test]
fn the_tests_of_put_are_made_once_for_a_put_record() {
    // A count of 707 passes; the sector that the caller's bytes take makes it 708.
    for bytes in [vec![b'x'; DATA + 1], vec![b'x'; DATA]] {
        let mut desk = writing();
        desk.image[slot(0) + 1..][..2].copy_from_slice(&707u16.to_le_bytes());
        assert_eq!(desk.put_record(0, &bytes), (1, bytes.len() as u64));
        assert_eq!(desk.image[slot(0) + 1..][..2], 708u16.to_le_bytes());
        let (last, place) = (bytes.len() / DATA, bytes.len() % DATA);
        assert_eq!(desk.image[sector(4 + last) + place], END);
        assert_eq!(
            desk.put_record(0, b""),
            (164, 0),
            "the next call tests again"
        );
    }
    // What put asks of the record is asked before the first byte.
    for (place, value) in [
        (slot(0), 0x42),
        (slot(0) + 2, 3),
        (tail(4), 0x04),
        (tail(4) + 1, 5),
        (tail(4) + 2, FULL + 1),
    ] {
        let mut desk = writing();
        desk.image[place] = value;
        assert_eq!(desk.refused(0, PUT_RECORD, 0, b""), 164);
    }
}

#[test]
fn put_record_with_a_last_sector_that_is_the_lowest_free_one() {
    // As for put, the order of writing decides: the sector given out is the full one itself, and
    // the $9B is its first byte.
    let mut desk = writing();
    desk.image[TABLE + 10] |= 0x08;
    desk.image[TABLE + 3] += 1;
    assert_eq!(desk.put_record(0, &[b'x'; DATA]), (1, DATA as u64));
    assert_eq!(desk.tail(4), [0, 0, 1]);
    assert_eq!(desk.image[sector(4)..][..2], [END, b'x']);
    assert_eq!(desk.record(0), [2, 0, 4, 0, 0]);
}

#[test]
fn what_put_record_writes_get_record_reads() {
    let lines: Vec<Vec<u8>> = [1, 2, 40, 0, DATA, 3 * DATA, 7]
        .map(|length: usize| vec![b'x'; length])
        .into();
    let mut desk = writing();
    for bytes in &lines {
        assert_eq!(desk.put_record(0, bytes), (1, bytes.len() as u64));
    }
    assert_eq!(desk.cio(0, CLOSE, 0, b""), (1, 0));
    assert_eq!(desk.cio(0, OPEN, 4, b"D:A\x9b"), (1, 0));
    for (place, bytes) in lines.iter().enumerate() {
        let (answer, buffer) = desk.get_record(0, 4 * DATA);
        let status = if place + 1 == lines.len() { 3 } else { 1 };
        assert_eq!(answer, (status, bytes.len() as u64 + 1));
        assert_eq!(buffer[..=bytes.len()], [&bytes[..], &[END]].concat());
    }
    assert_eq!(desk.get_record(0, 4 * DATA).0, (136, 0));
}

/// What a get record of so many bytes would answer, by gets of single bytes.
fn by_single_bytes(desk: &mut Desk, length: usize) -> (Answer, Vec<u8>) {
    let mut buffer = vec![0xee; length];
    let mut done = 0;
    loop {
        let ((status, _), byte) = desk.get(0, 1);
        let full = done == length;
        if succeeds(status) && !full {
            buffer[done] = byte[0];
            done += 1;
        }
        let status = match status {
            1 | 3 if byte[0] != END => continue,
            1 | 3 | 136 if full => 137,
            status => status,
        };
        return ((status, done as u64), buffer);
    }
}

#[test]
fn get_record_moves_its_channel_as_gets_of_single_bytes() {
    for gap in [1, 2, 7, 50, DATA - 1, DATA, DATA + 1, 1000] {
        let text = (1..=2 * DATA + 50).map(|place| if place % gap == 0 { END } else { b'x' });
        let whole = reading(&text.collect::<Vec<u8>>());
        let [mut empty_sector, mut empty_last] = [whole.clone(), whole.clone()];
        empty_sector.set_tail(5, [0, 6, 0]);
        empty_last.set_tail(6, [0, 0, 0]);
        let damaged = NOT_ENTERED.map(|(link, tail, left)| {
            let mut desk = whole.clone();
            desk.set_tail(4, link);
            desk.set_tail(5, tail);
            desk.set_record(0, [1, 0, 0, 0, left]);
            desk
        });
        let starts = [whole, empty_sector, empty_last];
        for start in starts.into_iter().chain(damaged) {
            for length in [
                1,
                2,
                6,
                7,
                8,
                49,
                50,
                51,
                DATA - 1,
                DATA,
                DATA + 1,
                3 * DATA,
            ] {
                let (mut desk, mut other) = (start.clone(), start.clone());
                let mut status = 1;
                while succeeds(status) || status == 137 {
                    let (answer, buffer) = desk.get_record(0, length);
                    assert_eq!((answer, buffer), by_single_bytes(&mut other, length));
                    assert_eq!(desk.record(0), other.record(0));
                    (status, _) = answer;
                }
                assert!(desk.image == start.image, "a get changes no byte");
            }
        }
    }
}

#[test]
fn put_record_leaves_what_one_put_of_the_line_leaves() {
    for bytes in [
        &b""[..],
        b"x",
        b"\x9b",
        b"xx\x9bx",
        &[b'x'; DATA - 1],
        &[b'x'; DATA],
        &[b'x'; 2 * DATA],
        &line(2 * DATA + 1),
    ] {
        let end = bytes.iter().position(|&byte| byte == END);
        let caller = &bytes[..end.map_or(bytes.len(), |end| end + 1)];
        let own: &[u8] = if end.is_some() { b"" } else { &[END] };
        for start in [
            writing(),
            nearly_full(1),
            nearly_full(DATA),
            nearly_full(DATA + 1),
            nearly_full(2 * DATA),
            nearly_full(5 * DATA),
        ] {
            let (mut desk, mut other) = (start.clone(), start);
            let (status, count) = desk.put_record(0, bytes);
            let by_put = other.put(0, &[caller, own].concat());
            assert_eq!(
                (status, count),
                (by_put.0, by_put.1.min(caller.len() as u64))
            );
            assert!(desk.image == other.image && desk.table == other.table);
        }
    }
}
