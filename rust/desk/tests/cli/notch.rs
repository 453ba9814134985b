//! The write-protect notch: `--protect`, files that may not be written, and the shell's notch.

use crate::folder::{make, two_files, Folder};
use hilugsaban::{Disk, Kind};
use std::{
    fs::{self, File},
    io::{BufRead, BufReader, Write},
    os::unix::fs::symlink,
    process::Child,
    time::{Duration, SystemTime},
};

/// What the refused commands say behind the image's name, for each reason.
const ASKED: &str =
    "144 the write-protect notch is closed (--protect was given); the file was left alone";
const UNWRITABLE: &str =
    "144 the write-protect notch is closed (the file may not be written); the file was left alone";

/// Every command that would change `disk` in a folder of [`folder`], and some that would be refused with the notch open too:
/// names are not read.
const CHANGES: &[&[&str]] = &[
    &["put", "disk", "text"],
    &["put", "disk", "text", "A.DAT"],
    &["put", "disk", "text", "text"],
    &["put", "disk", "-", "NEW"],
    &["delete", "disk", "A.DAT"],
    &["delete", "disk", "A.DAT", "B"],
    &["delete", "disk", "NONE"],
    &["delete", "disk", "a", "A\u{9b}"],
    &["recover", "disk", "2"],
    &["recover", "disk", "64"],
    &["recover", "disk", "C"],
    &["recover", "disk", "NONE"],
    &["recover", "disk", "c"],
    &["rename", "disk", "A.DAT", "Z"],
    &["rename", "disk", "A.DAT", "B"],
    &["lock", "disk", "A.DAT"],
    &["unlock", "disk", "A.DAT"],
    &["unlock", "disk", "D2:A"],
];

/// Every command that only looks at `disk`.
const LOOKS: &[&[&str]] = &[
    &["list", "disk"],
    &["get", "disk", "B", "-"],
    &["sector", "disk", "4"],
    &["sector", "disk", "361"],
];

/// A folder with a `text` and the image `disk`, written long ago: two files, and a deleted one that can be recovered.
fn folder(kind: Kind) -> Folder {
    let folder = Folder::new();
    let mut disk = Disk::fresh_as(kind);
    two_files(&mut disk);
    make(&mut disk, "C", 300);
    disk.delete("C").unwrap();
    folder.write("disk", disk.image());
    folder.write("text", b"abc");
    let long_ago = SystemTime::now() - Duration::from_secs(1_000_000);
    let file = File::options().write(true).open(folder.0.join("disk"));
    file.unwrap().set_modified(long_ago).unwrap();
    folder
}

/// The message of a command that leaves every file alone, and makes none beside them that it removes again.
fn refuse_untouched(folder: &Folder, arguments: &[&str]) -> String {
    let before = folder.state(".");
    let message = folder.refuse(arguments);
    assert!(before == folder.state("."), "{arguments:?}");
    message
}

/// A command with `--protect` in each place behind its name.
fn protected(command: &[&str]) -> Vec<Vec<String>> {
    let words = command.iter().map(|word| word.to_string());
    let words: Vec<String> = words.collect();
    let with_option = |place| {
        let mut words = words.clone();
        words.insert(place, "--protect".to_string());
        words
    };
    (1..=words.len()).map(with_option).collect()
}

#[test]
fn with_protect_every_change_is_refused_and_the_file_left_alone() {
    for kind in [Kind::Raw, Kind::AtrSingle, Kind::AtrDouble] {
        let folder = folder(kind);
        for command in CHANGES.iter().flat_map(|command| protected(command)) {
            let command: Vec<&str> = command.iter().map(String::as_str).collect();
            assert_eq!(
                refuse_untouched(&folder, &command),
                format!("desk: disk: {ASKED}\n"),
                "{command:?}"
            );
        }
        folder.run(&["recover", "disk", "C"]);
    }
}

#[test]
fn a_file_that_nobody_may_write_is_left_alone_by_root_too() {
    let folder = folder(Kind::Raw);
    for mode in [0o444, 0o400, 0o555] {
        folder.permit("disk", mode);
        for command in CHANGES {
            assert_eq!(
                refuse_untouched(&folder, command),
                format!("desk: disk: {UNWRITABLE}\n"),
                "{command:?}"
            );
        }
    }
    folder.permit("disk", 0o644);
    folder.run(&["delete", "disk", "B"]);
}

#[test]
fn a_file_that_others_may_write_and_the_user_may_not_is_left_alone() {
    let folder = folder(Kind::Raw);
    folder.permit("disk", 0o466);
    let before = folder.state("disk");
    for command in CHANGES {
        let Some(output) = folder.run_bound(command, b"") else {
            return;
        };
        let message = String::from_utf8(output.stderr).unwrap();
        assert_eq!(message, format!("desk: disk: {UNWRITABLE}\n"));
        assert_eq!(output.status.code(), Some(1));
        assert!(before.was_not_written(&folder.state("disk")), "{command:?}");
        assert_eq!(folder.names(), ["disk", "text"]);
    }
}

#[test]
fn a_link_to_a_file_that_may_not_be_written_is_followed() {
    let folder = folder(Kind::Raw);
    symlink("disk", folder.0.join("link")).unwrap();
    folder.permit("disk", 0o444);
    assert_eq!(
        refuse_untouched(&folder, &["delete", "link", "B"]),
        format!("desk: link: {UNWRITABLE}\n")
    );
}

#[test]
fn what_only_looks_at_an_image_prints_the_same() {
    for kind in [Kind::Raw, Kind::AtrSingle, Kind::AtrDouble] {
        let folder = folder(kind);
        let before = folder.state("disk");
        let printed: Vec<String> = LOOKS.iter().map(|look| folder.run(look)).collect();
        assert!(
            printed[0].contains("300  deleted, can be recovered\n"),
            "{}",
            printed[0]
        );
        for (look, printed) in LOOKS.iter().zip(&printed) {
            for look in protected(look) {
                let look: Vec<&str> = look.iter().map(String::as_str).collect();
                assert_eq!(&folder.run(&look), printed, "{look:?}");
            }
        }
        assert!(before == folder.state("disk"));
        folder.permit("disk", 0o444);
        for (look, printed) in LOOKS.iter().zip(&printed) {
            assert_eq!(&folder.run(look), printed, "{look:?}");
        }
    }
}

#[test]
fn a_protected_image_is_converted() {
    let folder = folder(Kind::Raw);
    let before = folder.state("disk");
    folder.run(&["convert", "--protect", "disk", "disk.atr"]);
    assert!(before == folder.state("disk"));
    folder.permit("disk", 0o444);
    folder.run(&["convert", "disk", "again.atr"]);
    assert_eq!(folder.read("disk.atr"), folder.read("again.atr"));
    assert_eq!(folder.read("disk.atr")[16..], folder.read("disk"));
    // What was made is a file like any other.
    folder.run(&["delete", "again.atr", "B"]);
}

#[test]
fn the_image_is_looked_at_before_its_notch() {
    let folder = Folder::new();
    folder.write("short", &[0; 92_159]);
    folder.write("atr", &[0; 92_176]);
    let (short, atr) = (
        refuse_untouched(&folder, &["delete", "short", "A"]),
        refuse_untouched(&folder, &["list", "atr"]),
    );
    assert!(short.starts_with("desk: short: 203 "), "{short}");
    assert!(atr.starts_with("desk: atr: 205 "), "{atr}");
    for (image, message) in [("short", short), ("atr", atr)] {
        assert_eq!(
            refuse_untouched(&folder, &["delete", "--protect", image, "A"]),
            message
        );
        folder.permit(image, 0o444);
        assert_eq!(refuse_untouched(&folder, &["delete", image, "A"]), message);
    }
}

#[test]
fn what_makes_an_image_takes_no_protect() {
    let folder = Folder::new();
    assert_eq!(
        folder.refuse(&["new", "--protect", "disk"]),
        "desk: no option --protect: see desk new --help\n"
    );
    assert_eq!(
        folder.refuse(&["demo", "--protect"]),
        "desk: no option --protect: see desk demo --help\n"
    );
    folder.run(&["new", "--", "--protect"]);
    folder.write("text", b"abc");
    folder.run(&["put", "--", "--protect", "text", "A"]);
    assert_eq!(
        folder.refuse(&["delete", "--protect", "--", "--protect", "A"]),
        format!("desk: --protect: {ASKED}\n")
    );
}

#[test]
fn what_is_not_written_needs_no_lock() {
    let folder = folder(Kind::Raw);
    let file = File::open(folder.0.join("disk")).unwrap();
    file.lock().unwrap();
    assert_eq!(
        refuse_untouched(&folder, &["delete", "--protect", "disk", "B"]),
        format!("desk: disk: {ASKED}\n")
    );
    let (printed, status) = folder.shell(&["--protect", "disk"], "status B\n");
    assert_eq!(
        printed,
        "the notch is closed: --protect was given\n1 success; count 0\n"
    );
    assert_eq!(status, Some(0));
    file.unlock().unwrap();
}

#[test]
fn help_tells_of_protect() {
    let folder = Folder::new();
    let overview = folder.run(&["--help"]);
    assert!(overview.contains("\nWith --protect, "), "{overview}");
    assert!(overview.lines().count() < 24, "{overview}");
    for command in [
        "convert", "list", "get", "put", "delete", "recover", "rename", "lock", "unlock", "sector",
        "shell",
    ] {
        let help = folder.run(&[command, "--help"]);
        let usage = format!("usage: desk {command} [--protect] ");
        assert!(help.starts_with(&usage), "{help}");
        assert!(help.contains("\nWith --protect, "), "{help}");
    }
}

#[test]
fn shell_tells_and_sets_the_notch() {
    let script = r#"
notch
notch closed
notch
open 0 write A
notch open
open 0 write A
put 0 "abc"
close 0
notch closed
delete A
status A
list
notch open
delete A
notch closed
list
notch ajar
notch open closed
"#;
    let expected = "\
the notch is open
the notch is closed
the notch is closed
144 the write-protect notch is closed; count 0
the notch is open
1 success; count 0
1 success; count 3
1 success; count 0
the notch is closed
144 the write-protect notch is closed; count 0
1 success; count 0
slot  name          sectors   bytes
   0  A                   1       3
706 free sectors
the notch is open
1 success; count 0
the notch is closed
slot  name          sectors   bytes
   0  A                   1       3  deleted, can be recovered
707 free sectors
? ajar: neither open nor closed
? no call notch with 2 arguments: see help
";
    let folder = Folder::new();
    assert_eq!(folder.shell(&[], script), (expected.to_string(), Some(1)));
}

#[test]
fn shell_leaves_a_writing_channel_open_whose_close_is_refused() {
    let script = r#"
open 3 write A
put 3 "abc"
open 4 read A
notch closed
close 3
put 3 "d"
put 3 ""
table
notch open
put 3 "d"
close 3
table
open 3 read A
notch closed
get 3 9
close 3
"#;
    let (printed, status) = Folder::new().shell(&[], script);
    let lines: Vec<&str> = printed
        .lines()
        .filter(|line| !line.ends_with("  closed"))
        .collect();
    let expected = [
        "1 success; count 0",
        "1 success; count 3",
        "200 the file is open, or for a format a channel; count 0",
        "the notch is closed",
        "144 the write-protect notch is closed; count 0",
        "144 the write-protect notch is closed; count 0",
        "144 the write-protect notch is closed; count 0",
        "3  writing  slot 0, last sector 4",
        "the notch is open",
        "1 success; count 1",
        "1 success; count 0",
        "1 success; count 0",
        "the notch is closed",
        "136 the file has ended; count 4",
        "  0000  61 62 63 64                                      abcd",
        "1 success; count 0",
    ];
    assert_eq!(lines, expected, "{printed}");
    assert_eq!(status, Some(0));
}

#[test]
fn shell_lends_the_notch_to_every_exact_call() {
    let script = r#"
fresh atr
cio 0 3 8 "D:A\x9B" -
cio 0 11 0 "" 41
notch closed
cio 0 11 0 "" -
cio 0 12 0 "" -
cio 1 3 8 "" -
cio 1 32 0 "" -
cio 1 33 0 "" -
cio 1 35 0 "" -
cio 1 36 0 "" -
cio 1 254 0 "" -
sector $31 1 $57 4 128*00
sector $31 1 $50 4 128*00
sector $31 1 $50 0 128*00
sector $31 1 $52 4 128*00
recover 0
thin-put 2 0 4 0 0 41
thin-put 1 0 4 0 0 41
header
lent 92160 40 header
lent 92160 40 recover 0
cio 1 3 4 "D:A\x9B" -
cio 1 13 0 "D:A\x9B" -
notch open
cio 0 12 0 "" -
cio 1 3 4 "D:A\x9B" -
notch closed
cio 1 7 0 "" 41
cio 1 12 0 "" -
"#;
    let (printed, status) = Folder::new().shell(&[], script);
    let numbers: Vec<&str> = printed
        .lines()
        .filter(|line| line.contains("; count "))
        .map(|line| line.split(' ').next().unwrap())
        .collect();
    let expected = [
        "1", "1", "144", "144", "144", "144", "144", "144", "144", "144", "144", "144", "139", "1",
        "144", "144", "135", "144", "203", "144", "200", "1", "1", "1", "3", "1",
    ];
    assert_eq!(numbers, expected, "{printed}");
    assert_eq!(status, Some(0));
}

#[test]
fn shell_changes_nothing_by_hand_with_the_notch_closed() {
    let folder = folder(Kind::Raw);
    let before = folder.state("disk");
    let (printed, status) = folder.shell(
        &["disk"],
        "notch closed\npoke 4 0 0\nfresh\npoke 0 0 0\nfresh atr\nchannel 0 1 0 0 0 1\n",
    );
    let expected = "\
the notch is closed
? 144 the write-protect notch is closed
? 144 the write-protect notch is closed
? raw image: sector 0 has no byte 0
? the file is no ATR file of single density and stays as it is
0  reading  slot 0, sector 0, offset 0, left 1
";
    assert_eq!((printed, status), (expected.to_string(), Some(1)));
    assert!(before == folder.state("disk"));

    // In memory only, a fresh disk is another one.
    let script = "notch closed\npoke 4 0 7\nfresh double\nnotch\npoke 4 0 7\n";
    let expected = "\
the notch is closed
? 144 the write-protect notch is closed
a fresh disk with all channels closed
the notch is open
sector 4 byte 0 is 7
";
    let answer = Folder::new().shell(&[], script);
    assert_eq!(answer, (expected.to_string(), Some(1)));
}

#[test]
fn shell_never_writes_a_protected_file() {
    let folder = folder(Kind::Raw);
    let before = folder.state("disk");
    let path = folder.0.join("disk").canonicalize().unwrap();
    let path = path.display();
    let script = "\
notch
delete B
save
notch open
delete B
save
save disk
save copy
recover 1
notch closed
save
";
    for (arguments, why) in [
        (&["--protect", "disk"][..], "--protect was given"),
        (&["disk", "--protect"], "--protect was given"),
        (&["disk"], "the file may not be written"),
    ] {
        if arguments == ["disk"] {
            folder.permit("disk", 0o444);
        }
        let unchanged = folder.state("disk");
        let expected = format!(
            "\
the notch is closed: {why}
the notch is closed: {why}
144 the write-protect notch is closed; count 0
? {path}: left alone: {why}
the notch is open, but save leaves the file alone: {why}
1 success; count 0
? {path}: left alone: {why}
? disk: already exists
saved copy
1 success; count 2
the notch is closed: {why}
? {path}: left alone: {why}
changes not saved
"
        );
        assert_eq!(folder.shell(arguments, script), (expected, Some(1)));
        assert!(unchanged == folder.state("disk"));
        assert!(folder.run(&["list", "copy"]).contains("126  deleted"));
        fs::remove_file(folder.0.join("copy")).unwrap();
    }
    folder.permit("disk", 0o644);
    assert!(before.was_not_written(&folder.state("disk")));
    assert_eq!(folder.names(), ["disk", "text"]);
}

#[test]
fn shell_saves_what_was_changed_before_the_notch_was_closed() {
    let folder = folder(Kind::Raw);
    let script = "delete B\nnotch closed\nrecover 1\nsave\n";
    let (printed, status) = folder.shell(&["disk"], script);
    let lines: Vec<&str> = printed.lines().collect();
    assert_eq!(
        lines[..3],
        [
            "1 success; count 0",
            "the notch is closed",
            "144 the write-protect notch is closed; count 0"
        ]
    );
    assert!(lines[3].starts_with("saved "), "{printed}");
    assert_eq!(status, Some(0));
    assert!(folder.run(&["list", "disk"]).contains("126  deleted"));
}

#[test]
fn shell_serves_a_disk_in_memory_with_the_notch_closed() {
    let (printed, status) = Folder::new().shell(&["--protect"], "format\nnotch open\nformat\n");
    let expected = "\
the notch is closed
144 the write-protect notch is closed; count 0
the notch is open
1 success; count 0
";
    assert_eq!((printed, status), (expected.to_string(), Some(0)));
}

/// A shell that is written to and read from by turns.
struct Turns {
    shell: Child,
}

impl Turns {
    /// Sends a line; returns the line that is printed for it.
    fn line(&mut self, line: &str) -> String {
        let input = self.shell.stdin.as_mut().unwrap();
        writeln!(input, "{line}").unwrap();
        let mut answer = String::new();
        // Nothing is printed behind that line until the next one is sent, so that the reader holds nothing back.
        let mut output = BufReader::new(self.shell.stdout.as_mut().unwrap());
        output.read_line(&mut answer).unwrap();
        answer
    }
}

#[test]
fn shell_leaves_a_file_alone_that_was_protected_meanwhile() {
    let folder = folder(Kind::Raw);
    let mut turns = Turns {
        shell: folder.command(&["shell", "disk"]).spawn().unwrap(),
    };
    assert_eq!(turns.line("delete B"), "1 success; count 0\n");
    folder.permit("disk", 0o444);
    let before = folder.state("disk");
    let answer = turns.line("save");
    assert!(
        answer.ends_with("disk: left alone: the file may not be written\n"),
        "{answer}"
    );
    assert!(before == folder.state("disk"));
    folder.permit("disk", 0o644);
    assert!(turns.line("save").starts_with("saved "));
    fs::remove_file(folder.0.join("disk")).unwrap();
    assert!(turns.line("save").starts_with("saved "));
    let output = turns.shell.wait_with_output().unwrap();
    assert_eq!(output.status.code(), Some(1));
    assert!(folder.run(&["list", "disk"]).contains("126  deleted"));
}
