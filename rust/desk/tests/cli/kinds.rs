//! ATR files of both densities: every command takes them as it takes a raw image.

use crate::folder::{make, Folder};
use hilugsaban::{Disk, Kind};

/// Each kind of image with the options that make it.
const KINDS: [(Kind, &[&str]); 3] = [
    (Kind::Raw, &[]),
    (Kind::AtrSingle, &["--atr"]),
    (Kind::AtrDouble, &["--double"]),
];

/// A folder with an image of the kind named `disk`, changed by some calls.
fn with_disk(kind: Kind, calls: impl FnOnce(&mut Disk<Vec<u8>>)) -> Folder {
    let folder = Folder::new();
    let mut disk = Disk::fresh_as(kind);
    calls(&mut disk);
    folder.write("disk", disk.image());
    folder
}

#[test]
fn new_makes_an_image_of_each_kind() {
    for (kind, options) in KINDS {
        let folder = Folder::new();
        assert_eq!(folder.run(&[&["new"], options, &["disk"]].concat()), "");
        assert_eq!(folder.read("disk"), Disk::fresh_as(kind).image());
        assert_eq!(
            folder.refuse(&[&["new"], options, &["disk"]].concat()),
            "desk: disk: already exists\n"
        );
    }
    let folder = Folder::new();
    folder.run(&["new", "disk", "--atr", "--double"]);
    assert_eq!(
        folder.read("disk"),
        Disk::fresh_as(Kind::AtrDouble).image(),
        "double density comes in ATR files only"
    );
    assert_eq!(
        folder.refuse(&["list", "--atr", "disk"]),
        "desk: no option --atr: see desk list --help\n"
    );
}

#[test]
fn every_command_takes_an_image_of_each_kind() {
    for (kind, options) in KINDS {
        let folder = Folder::new();
        let bytes: Vec<u8> = (0..10_000u32).map(|i| (i * i / 5) as u8).collect();
        folder.write("ends.dat", &bytes);
        folder.run(&[&["new"], options, &["disk"]].concat());
        folder.run(&["put", "disk", "ends.dat"]);
        let sectors = bytes.len().div_ceil(kind.data_bytes());
        let free = 707 - sectors;
        assert_eq!(
            folder.run(&["list", "disk"]),
            format!(
                "slot  name          sectors   bytes\n   \
                 0  ENDS.DAT      {sectors:>7}   10000\n{free} free sectors\n"
            )
        );
        folder.run(&["rename", "disk", "ENDS.DAT", "A"]);
        folder.run(&["lock", "disk", "A"]);
        assert!(folder.refuse(&["delete", "disk", "A"]).contains(": 167 "));
        folder.run(&["unlock", "disk", "A"]);
        folder.run(&["delete", "disk", "A"]);
        assert!(folder
            .run(&["list", "disk"])
            .contains("10000  deleted, can be recovered\n707 free sectors\n"));
        assert_eq!(
            folder.run(&["recover", "disk", "A"]),
            format!("slot 0 recovered, sectors taken back: {sectors}\n")
        );
        folder.run(&["get", "disk", "A", "copy"]);
        assert_eq!(folder.read("copy"), bytes);
        assert_eq!(folder.read("disk").len(), kind.image_bytes());
    }
}

#[test]
fn a_file_fills_a_disk_of_each_kind() {
    for (kind, options) in KINDS {
        let folder = Folder::new();
        folder.write("full", &vec![7; kind.longest_file()]);
        folder.write("more", &vec![7; kind.longest_file() + 1]);
        folder.run(&[&["new"], options, &["disk"]].concat());
        let message = folder.refuse(&["put", "disk", "more"]);
        let expected = format!(
            "desk: MORE: 162 no sector is free, after {} bytes\n",
            kind.longest_file()
        );
        assert_eq!(message, expected);
        folder.run(&["put", "disk", "full"]);
        assert!(folder
            .run(&["list", "disk"])
            .ends_with("\n0 free sectors\n"));
    }
}

#[test]
fn sector_prints_as_many_bytes_as_the_sector_has() {
    for (kind, _) in KINDS {
        let folder = with_disk(kind, |disk| make(disk, "A", 1));
        for (sector, number) in [("1", 1), ("3", 3), ("4", 4), ("360", 360), ("720", 720)] {
            let printed = folder.run(&["sector", "disk", sector]);
            assert_eq!(printed.lines().count(), kind.sector_bytes(number) / 16);
        }
        let last = folder.run(&["sector", "disk", "4"]);
        assert!(last.ends_with(" 00 00 00 01  ................\n"), "{last}");
    }
}

#[test]
fn the_64th_file_is_listed_on_a_disk_of_each_kind() {
    for (kind, _) in KINDS {
        let folder = with_disk(kind, |disk| {
            for slot in 0..64 {
                make(disk, &format!("F{slot}"), slot);
            }
        });
        let listing = folder.run(&["list", "disk"]);
        for line in [
            "   7  F7                  1       7\n",
            "   8  F8                  1       8\n",
            "  63  F63                 1      63\n643 free sectors\n",
        ] {
            assert!(listing.contains(line), "{listing}");
        }
    }
}

#[test]
fn convert_goes_between_raw_and_atr_single() {
    let folder = with_disk(Kind::Raw, |disk| make(disk, "A", 1000));
    let raw = folder.read("disk");
    assert_eq!(folder.run(&["convert", "disk", "disk.atr"]), "");
    let atr = folder.read("disk.atr");
    assert_eq!(Kind::of_length(atr.len()), Some(Kind::AtrSingle));
    assert!(atr[16..] == raw);
    assert_eq!(folder.run(&["get", "disk.atr", "A", "-"]).len(), 1000);
    assert_eq!(folder.run(&["convert", "disk.atr", "again"]), "");
    assert!(folder.read("again") == raw && folder.read("disk") == raw);

    for file in ["disk", "again"] {
        assert_eq!(
            folder.refuse(&["convert", "disk.atr", file]),
            format!("desk: {file}: already exists\n")
        );
    }
    assert_eq!(
        folder.refuse(&["convert", "disk", "disk"]),
        "desk: disk: already exists\n"
    );
}

#[test]
fn convert_says_why_double_density_has_no_other_form() {
    let folder = with_disk(Kind::AtrDouble, |_| ());
    assert_eq!(
        folder.refuse(&["convert", "disk", "raw"]),
        "desk: disk: a double density disk has no raw form: its sectors of 256 bytes have no place in a raw image, whose sectors have 128\n"
    );
}

#[test]
fn a_wrong_header_is_205_and_told() {
    let folder = with_disk(Kind::AtrDouble, |disk| {
        disk.image_mut()[2..6].copy_from_slice(&[0x80, 0x16, 0x80, 0x00]);
    });
    folder.write("file", b"");
    let message = "desk: disk: 205 the image's header does not agree with its length \
                   (it says $96 $02, 5760 units of 16 bytes, sectors of 128 bytes; \
                   183952 bytes want $96 $02, 11496 units of 16 bytes, sectors of 256 bytes)\n";
    for arguments in [
        &["list", "disk"][..],
        &["get", "disk", "A", "-"],
        &["put", "disk", "file", "A"],
        &["delete", "disk", "A"],
        &["lock", "disk", "A"],
        &["unlock", "disk", "A"],
        &["rename", "disk", "A", "B"],
        &["recover", "disk", "0"],
        &["recover", "disk", "A"],
        &["sector", "disk", "1"],
        &["convert", "disk", "new"],
    ] {
        assert_eq!(folder.refuse(arguments), message, "{arguments:?}");
    }

    let folder = Folder::new();
    folder.write("disk", &[0; 92_176]);
    assert_eq!(
        folder.refuse(&["list", "disk"]),
        "desk: disk: 205 the image's header does not agree with its length \
         (it says $00 $00, 0 units of 16 bytes, sectors of 0 bytes; \
         92176 bytes want $96 $02, 5760 units of 16 bytes, sectors of 128 bytes)\n"
    );
    let (printed, _) = folder.shell(&["disk"], "header\nformat\nsave\n");
    assert!(printed.contains("saved "), "{printed}");
    assert_eq!(folder.run(&["list", "disk"]).lines().count(), 2);
}

#[test]
fn the_last_nine_bytes_of_a_header_stay() {
    let folder = with_disk(Kind::AtrSingle, |disk| {
        disk.image_mut()[7..16].fill(0xA5);
    });
    folder.write("a", b"abc");
    folder.run(&["put", "disk", "a"]);
    assert_eq!(folder.read("disk")[7..16], [0xA5; 9]);
}
