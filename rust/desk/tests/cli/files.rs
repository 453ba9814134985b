//! How files are read and written: permissions, owners, names that are taken, inputs without an end.

use crate::folder::{give, make, two_files, Folder, NOBODY};
use hilugsaban::Disk;
use std::{
    fs::{self, File, OpenOptions},
    os::unix::fs::{symlink, MetadataExt},
    process::Output,
};

fn message(output: &Output) -> String {
    String::from_utf8_lossy(&output.stderr).into_owned()
}

#[test]
fn a_folder_that_cannot_be_read_is_no_failure() {
    let folder = Folder::new();
    fs::create_dir(folder.0.join("box")).unwrap();
    folder.write("box/disk", Disk::fresh().image());
    folder.write("text", b"abc");
    folder.permit("box", 0o333);
    let outputs = [
        folder.run_bound(&["put", "box/disk", "text", "A"], b""),
        folder.run_bound(&["new", "box/new"], b""),
        folder.run_bound(&["shell", "box/disk"], b"lock A\nsave\nunlock A\nsave\n"),
    ];
    folder.permit("box", 0o755);
    for output in outputs.iter().flatten() {
        assert_eq!(output.status.code(), Some(0), "{}", message(output));
    }
    if outputs[0].is_some() {
        assert_eq!(folder.run(&["get", "box/disk", "A", "-"]), "abc");
        assert_eq!(folder.read("box/new"), Disk::fresh().image());
    }
}

#[test]
fn a_folder_that_cannot_be_written_is_named_as_the_reason() {
    let folder = Folder::with_disk(two_files);
    let before = folder.read("disk");
    folder.permit(".", 0o555);
    let output = folder.run_bound(&["delete", "disk", "B"], b"");
    folder.permit(".", 0o755);
    let Some(output) = output else { return };
    assert_eq!(output.status.code(), Some(1));
    assert!(
        message(&output).contains("disk: no temporary file can be made beside it: "),
        "{}",
        message(&output)
    );
    assert_eq!(folder.read("disk"), before);
}

#[test]
fn shell_serves_an_image_that_may_not_be_written_and_refuses_to_save_it() {
    let folder = Folder::with_disk(two_files);
    let before = folder.read("disk");
    folder.permit("disk", 0o444);
    let script = b"delete B\nnotch open\ndelete B\nsave\nsave copy\n";
    let Some(output) = folder.run_bound(&["shell", "disk"], script) else {
        return;
    };
    let printed = String::from_utf8(output.stdout).unwrap();
    let expected = "\
the notch is closed: the file may not be written
144 the write-protect notch is closed; count 0
the notch is open, but save leaves the file alone: the file may not be written
1 success; count 0
? ";
    assert!(printed.starts_with(expected), "{printed}");
    assert!(
        printed.ends_with("disk: left alone: the file may not be written\nsaved copy\n"),
        "{printed}"
    );
    assert_eq!(output.status.code(), Some(1));
    assert_eq!(folder.read("disk"), before);
}

#[test]
fn the_owner_of_an_image_stays() {
    let folder = Folder::with_disk(two_files);
    let disk = folder.0.join("disk");
    if let Err(error) = give(&disk, NOBODY) {
        println!("skipped: the image cannot be given to user {NOBODY}: {error}");
        return;
    }
    folder.run(&["delete", "disk", "B"]);
    let after = fs::metadata(&disk).unwrap();
    assert_eq!((after.uid(), after.gid()), (NOBODY, NOBODY));
}

#[test]
fn of_several_that_make_the_same_image_one_does() {
    let folder = Folder::new();
    let start = || folder.command(&["new", "disk"]).spawn().unwrap();
    let children: Vec<_> = (0..8).map(|_| start()).collect();
    let outputs: Vec<Output> = children
        .into_iter()
        .map(|child| child.wait_with_output().unwrap())
        .collect();
    let (made, refused): (Vec<&Output>, Vec<&Output>) =
        outputs.iter().partition(|output| output.status.success());
    assert_eq!(made.len(), 1);
    for output in refused {
        assert_eq!(message(output), "desk: disk: already exists\n");
    }
    assert_eq!(folder.names(), ["disk"]);
    assert_eq!(folder.read("disk"), Disk::fresh().image());
}

#[test]
fn get_does_not_write_over_the_image() {
    let folder = Folder::with_disk(two_files);
    symlink("disk", folder.0.join("link")).unwrap();
    for file in ["disk", "./disk", "link"] {
        assert_eq!(
            folder.refuse(&["get", "disk", "B", file]),
            format!("desk: {file}: is the image itself\n")
        );
    }
}

#[test]
fn get_replaces_a_file_whole() {
    let folder = Folder::with_disk(two_files);
    folder.write("out", b"much longer than the file on the disk");
    folder.permit("out", 0o600);
    symlink("out", folder.0.join("link")).unwrap();
    // A second name of the old file keeps the old bytes: they were not overwritten in place.
    fs::hard_link(folder.0.join("out"), folder.0.join("old")).unwrap();
    assert_eq!(folder.run(&["get", "disk", "A.DAT", "link"]), "");
    assert_eq!(folder.read("out"), b"x");
    assert!(folder.read("old").starts_with(b"much longer"));
    let written = fs::symlink_metadata(folder.0.join("out")).unwrap();
    assert_eq!(written.mode() & 0o777, 0o600);
    assert_eq!(folder.names(), ["disk", "link", "old", "out"]);
    assert_eq!(
        folder.run(&["get", "disk", "A.DAT", "/dev/stdout"]),
        "x",
        "what is no regular file is written to"
    );
    assert!(folder
        .refuse(&["get", "disk", "A.DAT", "/dev/full"])
        .starts_with("desk: /dev/full: "));
    assert!(folder
        .refuse(&["get", "disk", "A.DAT", "."])
        .starts_with("desk: .: "));
    assert_eq!(
        folder.run(&["get", "disk", "A.DAT"]),
        "",
        "a name that is free"
    );
    assert_eq!(
        folder.refuse(&["get", "disk", "A.DAT"]),
        "desk: A.DAT: already exists\n"
    );
}

#[test]
fn an_input_without_an_end_is_refused() {
    let folder = Folder::with_disk(|disk| make(disk, "A", 1));
    assert_eq!(
        folder.refuse(&["put", "disk", "/dev/zero", "Z"]),
        "desk: Z: 162 no sector is free, after 88250 bytes\n"
    );
    File::create(folder.0.join("huge"))
        .and_then(|file| file.set_len(1 << 32))
        .unwrap();
    let refusal = "203 the image is not 92160, 92176 or 183952 bytes long (4294967296)\n";
    for arguments in [
        &["list", "huge"][..],
        &["delete", "huge", "A"],
        &["shell", "huge"],
    ] {
        let output = folder.run_with(arguments, b"");
        assert_eq!(output.status.code(), Some(1));
        assert_eq!(message(&output), format!("desk: huge: {refusal}"));
    }
    fs::remove_file(folder.0.join("huge")).unwrap();
}

#[test]
fn a_message_that_cannot_be_printed_is_a_failure_all_the_same() {
    let full = || {
        let full = OpenOptions::new().write(true).open("/dev/full");
        full.unwrap()
    };
    let folder = Folder::new();
    let status = folder.command(&["list", "nothing"]).stderr(full()).status();
    assert_eq!(status.unwrap().code(), Some(1));
    let status = folder.command(&["--help"]).stdout(full()).status();
    assert_eq!(status.unwrap().code(), Some(1));
}
