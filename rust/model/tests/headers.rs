//! Request P13: which images are served, the header of an ATR image and its writer; P4: the
//! writer and the notch.

use model::image::Kind;
use model::Request;

/// The two kinds of ATR images, each with its length and the header that agrees with it.
const ATR: [(Kind, usize, [u8; 7]); 2] = [
    (
        Kind::AtrSingle,
        92_176,
        [0x96, 0x02, 0x80, 0x16, 0x80, 0x00, 0x00],
    ),
    (
        Kind::AtrDouble,
        183_952,
        [0x96, 0x02, 0xe8, 0x2c, 0x00, 0x01, 0x00],
    ),
];

fn format<'a>() -> Request<'a> {
    Request::new(0, 254).name(b"D:\x9b")
}

/// What every call answers that is refused for its image, a showing apart. All else that could be
/// refused is: a channel above 7, another device, a slot above 63, closed records.
fn refusals(image: &mut [u8], notch: u8) -> [u64; 6] {
    [
        model::cio(image, &mut [0; 40], &mut Request::new(8, 0).notch(notch)),
        model::cio(image, &mut [0; 40], &mut format().notch(notch)),
        model::recover(image, notch, 64),
        model::sector(image, notch, 0, 0, 0x50, 0, &mut []),
        model::thin_get(image, &mut [0; 5], &mut []),
        model::thin_put(image, notch, &mut [0; 5], &[]),
    ]
}

/// Every call is refused with the status, whatever the notch, showing gives its empty part, and
/// nothing changes.
fn assert_refused(image: &mut [u8], status: u64) {
    let before = image.to_vec();
    assert_eq!(refusals(image, 0), [status; 6]);
    assert_eq!(refusals(image, 1), [status; 6]);
    assert_eq!(model::show(image, 0, 4), 0);
    assert!(image == before);
}

/// The image is served: a channel above 7 is the first thing that is refused.
fn assert_served(image: &mut [u8]) {
    assert_eq!(refusals(image, 0), [134, 1, 170, 138, 133, 133]);
    assert_eq!(refusals(image, 1), [134, 144, 144, 138, 133, 133]);
    assert_ne!(model::show(image, 0, 4), 0);
}

#[test]
fn three_lengths_are_served() {
    assert_eq!(Kind::ALL.map(Kind::length), [92_160, 92_176, 183_952]);
    for kind in Kind::ALL {
        assert_served(&mut kind.fresh());
    }
}

#[test]
fn each_byte_of_the_first_seven_must_agree() {
    for (kind, length, header) in ATR {
        let mut image = kind.fresh();
        assert_eq!((image.len(), &image[..7]), (length, &header[..]));
        for place in 0..7 {
            for bit in 0..8 {
                image[place] = header[place] ^ 1 << bit;
                assert_refused(&mut image, 205);
            }
            image[place] = header[place];
        }
        assert_served(&mut image);
    }
}

#[test]
fn the_other_bytes_are_not_looked_at() {
    for (kind, ..) in ATR {
        let mut image = kind.fresh();
        image[7..16].fill(0xff);
        assert_served(&mut image);
    }
}

#[test]
fn a_header_of_the_other_density_does_not_agree() {
    let [(single, _, single_header), (double, _, double_header)] = ATR;
    let mut image = single.fresh();
    image[..7].copy_from_slice(&double_header);
    assert_refused(&mut image, 205);
    let mut image = double.fresh();
    image[..7].copy_from_slice(&single_header);
    assert_refused(&mut image, 205);
    // A raw image with 16 bytes more has no header.
    let mut image = Kind::Raw.fresh();
    image.resize(92_176, 0);
    assert_refused(&mut image, 205);
}

#[test]
fn row_203_stands_before_205() {
    for (kind, length, _) in ATR {
        let mut image = kind.fresh();
        image[0] = 0;
        for other in [0, 1, 16, length - 1, length + 1] {
            let mut image = image.clone();
            image.resize(other, 0);
            assert_refused(&mut image, 203);
        }
    }
}

#[test]
fn row_255_stands_before_205() {
    let mut image = Kind::AtrDouble.fresh();
    image[0] = 0;
    let mut status = Request::new(0, 13).name(b"D:A\x9b");
    assert_eq!(model::cio(&mut image, &mut [0; 39], &mut status), 255);
    assert_eq!(model::thin_get(&image, &mut [3; 5], &mut []), 255);
    assert_eq!(model::thin_put(&mut image, 0, &mut [0; 6], &[]), 255);
}

#[test]
fn the_header_is_written_over_anything() {
    for (kind, length, header) in ATR {
        for old in [0x00, 0xff, 0x96] {
            let mut image = vec![old; length];
            assert_eq!(model::header(&mut image, 0), 1);
            assert_eq!(image[..7], header);
            assert_eq!(image[7..16], [0; 9]);
            assert!(image[16..].iter().all(|&byte| byte == old));
        }
        let mut image = kind.fresh();
        assert_eq!(model::header(&mut image, 0), 1);
        assert!(image == kind.fresh());
    }
}

#[test]
fn no_header_is_written_into_an_image_of_another_length() {
    for length in [
        0, 15, 16, 92_159, 92_160, 92_161, 92_175, 92_177, 183_936, 183_951, 183_953,
    ] {
        let mut image = vec![0x96; length];
        for notch in [0, 1] {
            assert_eq!(model::header(&mut image, notch), 203);
            assert_eq!(image, vec![0x96; length]);
        }
    }
}

#[test]
fn no_header_is_written_with_the_notch_closed() {
    for (_, length, _) in ATR {
        for notch in 1..=255 {
            let mut image = vec![0x96; length];
            assert_eq!(model::header(&mut image, notch), 144);
            assert!(image.iter().all(|&byte| byte == 0x96));
        }
    }
}

#[test]
fn format_leaves_the_header() {
    for (kind, ..) in ATR {
        let mut image = kind.fresh();
        image[7..].fill(0xa5);
        assert_eq!(model::cio(&mut image, &mut [0; 40], &mut format()), 1);
        assert_eq!(image[7..16], [0xa5; 9]);
        assert!(image[..7] == kind.fresh()[..7] && image[16..] == kind.fresh()[16..]);
    }
}

#[test]
fn a_fresh_double_density_disk_is_zero_but_for_its_table() {
    let image = Kind::AtrDouble.fresh();
    let table = 16 + 3 * 128 + 356 * 256;
    assert!(image[16..table].iter().all(|&byte| byte == 0));
    assert_eq!(image[table..][..5], [2, 0xc3, 2, 0xc3, 2]);
    assert!(image[table + 100..].iter().all(|&byte| byte == 0));
    // The table is the one of single density.
    assert_eq!(image[table..][..128], Kind::Raw.fresh()[359 * 128..][..128]);
}

#[test]
fn raw_and_atr_single_are_one_density() {
    let mut raw = Kind::Raw.fresh();
    let mut atr = Kind::AtrSingle.fresh();
    let (mut raw_table, mut atr_table) = ([0; 40], [0; 40]);
    let mut bytes: Vec<u8> = (0..10_000).map(|place| (place % 251) as u8).collect();
    let calls = [
        Request::new(0, 3).direction(8).name(b"D:A\x9b"),
        Request::new(0, 11).buffer(&mut bytes),
        Request::new(0, 12),
        Request::new(0, 32).name(b"D:A,B\x9b"),
        Request::new(0, 33).name(b"D:B\x9b"),
    ];
    for mut request in calls {
        let on_raw = model::cio(&mut raw, &mut raw_table, &mut request);
        let on_atr = model::cio(&mut atr, &mut atr_table, &mut request);
        assert_eq!((on_raw, on_raw % 256), (on_atr, 1));
        assert!(raw == atr[16..] && raw_table == atr_table);
    }
}
