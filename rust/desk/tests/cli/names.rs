//! Names padded with blanks, and names that a blank would cut short.

use crate::folder::{two_files, Folder};

/// What is said of a name that a blank would cut short.
const CUT: &str = "165 a blank ends a name, and something stands behind it";

#[test]
fn every_command_takes_names_padded_with_blanks() {
    let folder = Folder::with_disk(two_files);
    folder.write("text", b"abc");
    let long = format!("NEW.DAT{}", " ".repeat(300));
    assert_eq!(folder.run(&["put", "disk", "text", &long]), "");
    assert_eq!(folder.run(&["get", "disk", "NEW.DAT   ", "-"]), "abc");
    assert_eq!(folder.run(&["lock", "disk", "NEW.DAT ", "D1:B  "]), "");
    assert_eq!(
        folder.refuse(&["delete", "disk", "NEW.DAT "]),
        "desk: NEW.DAT: 167 the file is locked\n"
    );
    assert_eq!(folder.run(&["unlock", "disk", "NEW.DAT ", "B "]), "");
    assert_eq!(
        folder.run(&["rename", "disk", "NEW.DAT  ", "OLD.DAT   "]),
        ""
    );
    assert_eq!(folder.run(&["delete", "disk", "D:OLD.DAT "]), "");
    assert_eq!(
        folder.run(&["recover", "disk", "OLD.DAT  "]),
        "slot 2 recovered, sectors taken back: 1\n"
    );
    let listing = folder.run(&["list", "disk"]);
    assert!(
        listing.contains("   2  OLD.DAT             1       3\n"),
        "{listing}"
    );
}

#[test]
fn get_makes_no_file_whose_name_ends_in_blanks() {
    let folder = Folder::with_disk(two_files);
    assert_eq!(folder.run(&["get", "disk", "A.DAT  "]), "");
    assert_eq!(folder.run(&["get", "disk", "D1:B "]), "");
    assert_eq!(folder.names(), ["A.DAT", "B", "disk"]);
    assert_eq!(folder.read("A.DAT"), b"x");
    assert_eq!(
        folder.refuse(&["get", "disk", "A.DAT "]),
        "desk: A.DAT: already exists\n"
    );
}

#[test]
fn put_takes_the_padded_name_of_a_file() {
    let folder = Folder::with_disk(|_| ());
    folder.write("heats.dat  ", b"abc");
    assert_eq!(folder.run(&["put", "disk", "heats.dat  "]), "");
    assert_eq!(folder.run(&["get", "disk", "HEATS.DAT", "-"]), "abc");
    folder.write("heat 1.dat", b"abc");
    assert_eq!(
        folder.refuse(&["put", "disk", "heat 1.dat"]),
        format!("desk: HEAT 1.DAT: {CUT}\n")
    );
}

#[test]
fn a_name_with_something_behind_a_blank_is_refused_and_not_cut() {
    let folder = Folder::with_disk(two_files);
    folder.write("text", b"abc");
    for name in ["B C", "B .DAT", " B", "B C  ", "D:B ,", "B \u{9b}"] {
        for arguments in [
            &["get", "disk", name, "-"][..],
            &["get", "disk", name],
            &["put", "disk", "text", name],
            &["delete", "disk", "A.DAT", name],
            &["lock", "disk", name],
            &["unlock", "disk", name],
            &["rename", "disk", name, "C"],
            &["rename", "disk", "B", name],
            &["recover", "disk", name],
        ] {
            assert_eq!(
                folder.refuse(arguments),
                format!("desk: {}: {CUT}\n", name.trim_end_matches(' ')),
                "{arguments:?}"
            );
        }
    }
    assert!(folder
        .refuse(&["delete", "nothing", "B C"])
        .starts_with("desk: nothing: "));
    assert!(folder
        .refuse(&["get", "nothing", "B C"])
        .starts_with("desk: nothing: "));
    assert_eq!(
        folder.refuse(&["delete", "disk", "  "]),
        "desk: : 165 the name is malformed: capitals and digits, a letter first, at most 8 and 3\n"
    );
}

#[test]
fn numbers_are_not_padded() {
    let folder = Folder::with_disk(two_files);
    assert_eq!(
        folder.refuse(&["recover", "disk", "1 "]),
        "desk: 1 : not a number\n"
    );
    assert_eq!(
        folder.refuse(&["sector", "disk", "4 "]),
        "desk: 4 : not a number\n"
    );
}

#[test]
fn shell_takes_padded_names_and_refuses_those_cut_short() {
    let script = r#"
open 0 write "A.DAT   "
put 0 "abc"
close 0
status "A.DAT "
rename "A.DAT " "B  "
lock "B "
unlock "D:B "
open 1 read "B     "
close 1
delete "B "
status "B C"
delete " B"
open 0 write "A B"
rename "A B" C
rename A "B C"
status "D2:A B"
notch closed
delete "A B"
status "A B"
table
"#;
    let success = "1 success; count 0\n";
    let expected = [
        success,
        "1 success; count 3\n",
        &success.repeat(8),
        &format!("{CUT}; count 0\n").repeat(5),
        "160 no such drive: there is only drive 1; count 0\n",
        "the notch is closed\n",
        "144 the write-protect notch is closed; count 0\n",
        &format!("{CUT}; count 0\n"),
        "0  closed\n1  closed\n2  closed\n3  closed\n4  closed\n5  closed\n6  closed\n7  closed\n",
    ];
    let (printed, status) = Folder::new().shell(&[], script);
    assert_eq!(printed, expected.concat());
    assert_eq!(status, Some(0));
}

#[test]
fn shell_lends_names_as_they_are_and_shows_the_place_of_their_end() {
    let script = r#"
cio 0 3 8 "D:A B\x9b" -
cio 0 12 0 "" -
cio 0 32 0 "D:A ,B\x9b" -
cio 0 32 0 "D:A,B " -
cio 0 13 0 "D:B     " -
cio 0 254 0 "D: " -
list
name "D:A " 11*00
name "D1:A.TXT   \x9b" 11*00
name "D:A B\x9b" 11*00
name "D: A\x9b" 11*00
"#;
    let (printed, status) = Folder::new().shell(&[], script);
    let answers: Vec<&str> = printed
        .lines()
        .filter(|line| !line.starts_with("  "))
        .collect();
    let malformed =
        "165 the name is malformed: capitals and digits, a letter first, at most 8 and 3; count 0";
    let expected = [
        "1 success; count 0",
        "1 success; count 0",
        malformed,
        "1 success; count 0",
        "1 success; count 0",
        "1 success; count 0",
        "slot  name          sectors   bytes",
        "707 free sectors",
        "1 success; count 3",
        "1 success; count 8",
        "1 success; count 3",
        malformed,
    ];
    assert_eq!(answers, expected, "{printed}");
    assert_eq!(status, Some(0));
}

#[test]
fn help_tells_of_padded_names_and_of_the_place() {
    let folder = Folder::new();
    assert!(folder.run(&["--help"]).contains("; blanks\nmay pad them. "));
    let help = folder.run(&["shell", "--help"]);
    assert!(help.contains("\nFiles; blanks may pad a NAME, in quotes\n"));
    assert!(help.contains("The count is the place of NAME's\n"));
}
