//! The commands on one image, the help and the demo.

use crate::folder::{make, two_files, Folder};
use hilugsaban::{Direction, Disk};
use std::{
    fs::{self, File},
    os::unix::fs::{symlink, PermissionsExt},
};

#[test]
fn new_makes_a_fresh_image_and_replaces_none() {
    let folder = Folder::new();
    assert_eq!(folder.run(&["new", "disk"]), "");
    assert_eq!(folder.read("disk"), Disk::fresh().image());
    assert_eq!(folder.names(), ["disk"]);
    assert_eq!(
        folder.refuse(&["new", "disk"]),
        "desk: disk: already exists\n"
    );
    assert!(folder
        .refuse(&["new", "no-folder/disk"])
        .starts_with("desk: no-folder/disk: "));
}

#[test]
fn put_and_get_copy_every_byte() {
    let folder = Folder::with_disk(|_| ());
    let bytes: Vec<u8> = (0..10_000u32).map(|i| (i * i / 5) as u8).collect();
    folder.write("ends.dat", &bytes);
    assert_eq!(folder.run(&["put", "disk", "ends.dat"]), "");
    assert_eq!(folder.run(&["get", "disk", "ENDS.DAT", "copy"]), "");
    assert_eq!(folder.read("copy"), bytes);
    assert_eq!(folder.run(&["get", "disk", "D1:ENDS.DAT"]), "");
    assert_eq!(folder.read("ENDS.DAT"), bytes);
    assert_eq!(
        folder
            .run_with(&["get", "disk", "ENDS.DAT", "-"], b"")
            .stdout,
        bytes
    );
    assert_eq!(
        folder
            .run_with(&["put", "disk", "-", "ENDS.DAT"], b"anew")
            .status
            .code(),
        Some(0)
    );
    assert_eq!(folder.run(&["get", "disk", "ENDS.DAT", "-"]), "anew");
    assert_eq!(folder.names(), ["ENDS.DAT", "copy", "disk", "ends.dat"]);
}

#[test]
fn put_and_get_are_refused_with_the_status() {
    let folder = Folder::with_disk(two_files);
    folder.write("B", b"");
    folder.write("long", &[0; 88_376]);
    folder.write("lower", b"");
    assert!(folder
        .refuse(&["get", "disk", "C"])
        .starts_with("desk: C: 170 "));
    assert!(folder
        .refuse(&["get", "disk", "a.dat"])
        .starts_with("desk: a.dat: 165 "));
    assert!(folder
        .refuse(&["get", "disk", "D2:B"])
        .starts_with("desk: D2:B: 160 "));
    assert!(
        folder
            .refuse(&["get", "disk", "B"])
            .starts_with("desk: B: "),
        "an existing file is kept"
    );
    assert!(folder
        .refuse(&["put", "disk", "long"])
        .contains(": 162 no sector is free, after 88000 bytes"));
    assert!(folder
        .refuse(&["put", "disk", "lower", "lower"])
        .contains("165"));
    assert!(folder
        .refuse(&["put", "disk", "lower", "D:A\u{e4}"])
        .contains("165"));
    assert!(folder
        .refuse(&["put", "disk", "nothing"])
        .starts_with("desk: nothing: "));
    assert_eq!(
        folder.refuse(&["put", "disk", "-"]),
        "desk: standard input needs a NAME\n"
    );
}

#[test]
fn list_shows_files_and_deleted_files() {
    let folder = Folder::with_disk(|disk| {
        two_files(disk);
        make(disk, "C", 250);
        make(disk, "E", 0);
        make(disk, "F", 1);
        disk.lock("A.DAT").unwrap();
        for name in ["B", "C", "F"] {
            disk.delete(name).unwrap();
        }
        disk.open(0, Direction::Write, "F").unwrap();
        disk.put(0, &[0; 300]).unwrap();
    });
    let expected = "\
slot  name          sectors   bytes
   0  A.DAT               1       1  locked
   1  F                   3     300  open for output
   2  C                   2       -  deleted, cannot be recovered: 202 not all sectors of the deleted file are still free and its own
   3  E                   1       0
   4  F                   1       -  deleted, cannot be recovered: 201 another file has this name
702 free sectors
";
    assert_eq!(folder.run(&["list", "disk"]), expected);

    let folder = Folder::with_disk(|disk| {
        two_files(disk);
        disk.delete("A.DAT").unwrap();
    });
    let expected = "\
slot  name          sectors   bytes
   0  A.DAT               1       1  deleted, can be recovered
   1  B                   2     126
705 free sectors
";
    assert_eq!(folder.run(&["list", "disk"]), expected);
}

#[test]
fn delete_lock_and_unlock_take_all_names_or_none() {
    let folder = Folder::with_disk(two_files);
    assert!(folder
        .refuse(&["delete", "disk", "A.DAT", "C"])
        .starts_with("desk: C: 170 "));
    assert_eq!(folder.run(&["lock", "disk", "A.DAT", "B"]), "");
    assert!(folder
        .refuse(&["delete", "disk", "A.DAT"])
        .starts_with("desk: A.DAT: 167 "));
    assert!(folder
        .refuse(&["unlock", "disk", "A.DAT", "C"])
        .starts_with("desk: C: 170 "));
    assert_eq!(folder.run(&["unlock", "disk", "A.DAT", "B"]), "");
    assert_eq!(folder.run(&["delete", "disk", "A.DAT", "B"]), "");
    assert!(folder
        .run(&["list", "disk"])
        .ends_with("707 free sectors\n"));
}

#[test]
fn rename_gives_another_name() {
    let folder = Folder::with_disk(two_files);
    assert_eq!(
        folder.refuse(&["rename", "disk", "A.DAT", "B"]),
        "desk: A.DAT to B: 201 another file has this name\n"
    );
    assert_eq!(folder.run(&["rename", "disk", "A.DAT", "C"]), "");
    assert_eq!(folder.run(&["get", "disk", "C", "-"]), "x");
}

#[test]
fn recover_takes_a_slot_or_a_name() {
    let folder = Folder::with_disk(two_files);
    let before = folder.read("disk");
    folder.run(&["delete", "disk", "B"]);
    assert_eq!(
        folder.run(&["recover", "disk", "1"]),
        "slot 1 recovered, sectors taken back: 2\n"
    );
    assert_eq!(folder.read("disk"), before);
    folder.run(&["delete", "disk", "B"]);
    assert_eq!(
        folder.run(&["recover", "disk", "B"]),
        "slot 1 recovered, sectors taken back: 2\n"
    );
    assert_eq!(folder.read("disk"), before);
    for (slot, number) in [("1", 1), ("$01", 1), ("0x01", 1), ("64", 64)] {
        assert_eq!(
            folder.refuse(&["recover", "disk", slot]),
            format!("desk: slot {number}: 170 no deleted file is in this slot\n")
        );
    }
    assert_eq!(
        folder.refuse(&["recover", "disk", "256"]),
        "desk: 256: too large\n"
    );
    assert_eq!(
        folder.refuse(&["recover", "disk", "B"]),
        "desk: B: 170 no deleted file has this name\n"
    );
    assert!(folder
        .refuse(&["recover", "disk", "b"])
        .starts_with("desk: b: 165 "));
    folder.run(&["delete", "disk", "B"]);
    folder.run(&["rename", "disk", "A.DAT", "B"]);
    assert!(folder
        .refuse(&["recover", "disk", "B"])
        .starts_with("desk: slot 1: 201 "));
}

#[test]
fn recover_names_what_is_wrong_in_the_slot() {
    let folder = Folder::with_disk(|disk| {
        two_files(disk);
        disk.delete("B").unwrap();
        disk.image_mut()[360 * 128 + 16 + 5] = b'b';
    });
    assert_eq!(
        folder.refuse(&["recover", "disk", "1"]),
        "desk: slot 1: 165 the name in this slot is not legal\n"
    );
}

#[test]
fn recover_by_name_takes_the_only_slot_that_can_be() {
    // Slots 0 and 1 are both deleted files named B, of one sector each.
    let both = |disk: &mut Disk<Vec<u8>>| {
        make(disk, "A", 1);
        make(disk, "B", 1);
        disk.delete("B").unwrap();
        disk.rename("A", "B").unwrap();
        disk.delete("B").unwrap();
    };
    let folder = Folder::with_disk(both);
    let message = folder.refuse(&["recover", "disk", "B"]);
    assert!(
        message.contains("name the slot (slot 0: can be recovered; slot 1: can be recovered)"),
        "{message}"
    );
    folder.run(&["recover", "disk", "0"]);

    let folder = Folder::with_disk(|disk| {
        both(disk);
        disk.image_mut()[3 * 128 + 125] = 0xFF;
    });
    assert_eq!(
        folder.run(&["recover", "disk", "B"]),
        "slot 1 recovered, sectors taken back: 1\n"
    );
}

#[test]
fn sector_prints_bytes() {
    let folder = Folder::with_disk(two_files);
    let volume_table = folder.run(&["sector", "disk", "360"]);
    assert_eq!(volume_table.lines().count(), 8);
    assert!(
        volume_table.starts_with("  0000  02 C3 02 C0 02 00 00 00 00 00 01 FF"),
        "{volume_table}"
    );
    assert_eq!(folder.run(&["sector", "disk", "$168"]), volume_table);
    assert!(folder
        .refuse(&["sector", "disk", "0"])
        .starts_with("desk: sector 0: 139 "));
    assert!(folder
        .refuse(&["sector", "disk", "721"])
        .starts_with("desk: sector 721: 139 "));
    assert_eq!(
        folder.refuse(&["sector", "disk", "x"]),
        "desk: x: not a number\n"
    );
}

#[test]
fn a_damaged_chain_is_reported_and_left() {
    let folder = Folder::with_disk(|disk| {
        make(disk, "A", 300);
        make(disk, "B", 1);
        disk.image_mut()[5 * 128 + 127] = 126;
    });
    assert!(folder
        .run(&["list", "disk"])
        .contains("0  A                   3       -  164 "));
    assert!(folder.refuse(&["get", "disk", "A", "out"]).contains(
        "desk: A: 164 the file's sectors, or its channel, do not fit together, after 250 bytes"
    ));
    assert!(folder
        .refuse(&["delete", "disk", "B", "A"])
        .starts_with("desk: A: 164 "));
    assert_eq!(folder.run(&["get", "disk", "B", "-"]), "x");
}

#[test]
fn a_damaged_volume_table_is_reported_and_left() {
    let folder = Folder::with_disk(|disk| {
        two_files(disk);
        disk.image_mut()[359 * 128 + 3] ^= 1;
    });
    assert!(folder
        .run(&["list", "disk"])
        .ends_with("705 free sectors by a volume table that is damaged (163)\n"));
    assert!(folder
        .refuse(&["delete", "disk", "B"])
        .starts_with("desk: B: 163 "));
    assert!(folder
        .refuse(&["put", "disk", "disk", "C"])
        .starts_with("desk: C: 163 "));
    assert_eq!(folder.run(&["get", "disk", "A.DAT", "-"]), "x");
}

#[test]
fn strange_directories_are_listed() {
    let folder = Folder::with_disk(|disk| {
        two_files(disk);
        disk.image_mut()[360 * 128] = 0x02;
        disk.image_mut()[360 * 128 + 16 + 5] = 0x9B;
    });
    let listing = folder.run(&["list", "disk"]);
    assert!(
        listing.contains("   0  A.DAT               1       -  not a file: flag $02\n"),
        "{listing}"
    );
    assert!(
        listing.contains("   1  \\x9b                2     126\n"),
        "{listing}"
    );
}

#[test]
fn another_length_is_203() {
    let folder = Folder::new();
    folder.write("short", &[0; 92_159]);
    folder.write("empty", b"");
    for (image, length) in [("short", 92_159), ("empty", 0)] {
        let message = format!(
            "desk: {image}: 203 the image is not 92160, 92176 or 183952 bytes long ({length})\n"
        );
        for arguments in [
            &["list", image][..],
            &["get", image, "A", "-"],
            &["put", image, "empty", "A"],
            &["delete", image, "A"],
            &["recover", image, "0"],
            &["recover", image, "A"],
            &["sector", image, "1"],
            &["convert", image, "new"],
        ] {
            assert_eq!(folder.refuse(arguments), message, "{arguments:?}");
        }
    }
    assert!(folder
        .refuse(&["list", "nothing"])
        .starts_with("desk: nothing: "));
    assert_eq!(
        folder.refuse(&["list", "."]),
        "desk: .: not a regular file\n"
    );
    assert_eq!(
        folder.refuse(&["lock", ".", "A"]),
        "desk: .: not a regular file\n"
    );
}

#[test]
fn the_file_behind_a_link_is_replaced_with_its_permissions() {
    let folder = Folder::with_disk(two_files);
    folder.permit("disk", 0o640);
    symlink("disk", folder.0.join("link")).unwrap();
    folder.run(&["delete", "link", "B"]);
    assert!(folder
        .run(&["list", "disk"])
        .contains("deleted, can be recovered"));
    assert!(fs::symlink_metadata(folder.0.join("link"))
        .unwrap()
        .is_symlink());
    assert_eq!(
        fs::metadata(folder.0.join("disk"))
            .unwrap()
            .permissions()
            .mode()
            & 0o777,
        0o640
    );
    assert_eq!(folder.names(), ["disk", "link"]);
}

#[test]
fn an_image_in_use_is_left() {
    let folder = Folder::with_disk(two_files);
    let file = File::open(folder.0.join("disk")).unwrap();
    file.lock().unwrap();
    assert_eq!(
        folder.refuse(&["delete", "disk", "B"]),
        "desk: disk: in use by another desk\n"
    );
    assert!(folder.run(&["list", "disk"]).contains("126"));
    // Not by a drop: a program that another test is just starting may still have a copy of the open file.
    file.unlock().unwrap();
    folder.run(&["delete", "disk", "B"]);
}

#[test]
fn every_command_has_help_and_counts_its_arguments() {
    let folder = Folder::new();
    let overview = folder.run(&["--help"]);
    assert_eq!(folder.run(&["help"]), overview);
    let commands = [
        "new", "convert", "list", "get", "put", "delete", "recover", "rename", "lock", "unlock",
        "sector", "shell", "demo",
    ];
    for command in commands {
        assert!(
            overview.contains(&format!("  desk {command} ")),
            "{command}"
        );
        let help = folder.run(&[command, "--help"]);
        assert!(
            help.starts_with(&format!("usage: desk {command}")),
            "{command}"
        );
        assert!(!help.contains(" \n"), "{command}");
        assert_eq!(folder.run(&["help", command]), help);
        if command != "shell" && command != "demo" {
            assert!(folder
                .refuse(&[command])
                .starts_with(&format!("desk: usage: desk {command} ")));
        }
    }
    assert!(folder
        .refuse(&["new", "a", "b"])
        .starts_with("desk: usage: "));
    assert!(folder.refuse(&["demo", "a"]).starts_with("desk: usage: "));
    assert_eq!(
        folder.refuse(&[]),
        "desk: no command given: see desk --help\n"
    );
    for arguments in [&["show"][..], &["help", "show"], &["--help", "show"]] {
        assert_eq!(
            folder.refuse(arguments),
            "desk: no command show: see desk --help\n"
        );
    }
    assert_eq!(
        folder.refuse(&["new", "-x"]),
        "desk: no option -x: see desk new --help\n"
    );
    folder.run(&["new", "--", "-x"]);
    assert_eq!(folder.names(), ["-x"]);
}

#[test]
fn demo_shows_refusal_and_recovery() {
    let folder = Folder::new();
    let story = folder.run(&["demo"]);
    let recoveries: Vec<&str> = story
        .lines()
        .filter_map(|line| line.trim().strip_prefix("recover slot 1"))
        .collect();
    let recoveries: Vec<&str> = recoveries.iter().map(|line| line.trim()).collect();
    assert!(recoveries[0].starts_with("201 "));
    assert_eq!(recoveries[1], "1 success, 3 sectors taken back");
    assert!(recoveries[2].starts_with("202 "));
    assert!(story.contains("Its splits are what was written, byte for byte."));
    assert!(folder.names().is_empty());
}
