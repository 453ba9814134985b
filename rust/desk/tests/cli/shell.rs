//! The shell, with its lines on standard input.

use crate::folder::{two_files, Folder};
use hilugsaban::{Disk, Kind};

#[test]
fn shell_makes_calls_on_a_disk_in_memory() {
    let script = r#"
# a file of three bytes
open 1 write A
put 1 "abc"
close 1
status A
open 0 read A
get 0 5
table
show 0 4
close 0
lock A
delete A
unlock A
rename A B.TXT
delete B.TXT
recover 0
list
quit
not read any more
"#;
    let expected = "\
1 success; count 0
1 success; count 3
1 success; count 0
1 success; count 0
1 success; count 0
136 the file has ended; count 3
  0000  61 62 63                                         abc
0  reading  slot 0, sector 4, offset 3, left 0
1  closed
2  closed
3  closed
4  closed
5  closed
6  closed
7  closed
yes; offset 384, length 3
  0000  61 62 63                                         abc
1 success; count 0
1 success; count 0
167 the file is locked; count 0
1 success; count 0
1 success; count 0
1 success; count 0
1 success; count 1
slot  name          sectors   bytes
   0  B.TXT               1       3
706 free sectors
";
    let folder = Folder::new();
    assert_eq!(folder.shell(&[], script), (expected.to_string(), Some(0)));
    assert!(folder.names().is_empty());
}

#[test]
fn shell_lends_arguments_as_they_are() {
    let script = r#"
cio 0 3 8 "D:A\x9B" -
cio 0 11 0 "" 126*41
cio 0 12 0 "" -
cio 0 3 4 "D:A" -
cio 0 3 4 "D:A\x00" -
cio 0 7 0 "" 2*00
cio 8 7 0 "" 2*00
cio 0 99 0 "" -
sector $31 1 $52 5 128*00
sector $31 1 $57 5 00
sector 0x31 2 0x52 5 128*00
poke 5 127 126
show 0 5
channel 3 9 0 0 0 0
cio 0 7 0 "" -
channel 3 2 300 4 0 0
cio 3 11 0 "" 41
recover 200
format
fresh
format
cio 0 7 0 "" -
table
"#;
    let folder = Folder::new();
    let (printed, status) = folder.shell(&[], script);
    let lines: Vec<&str> = printed
        .lines()
        .filter(|line| !line.starts_with(' '))
        .collect();
    let numbers: Vec<&str> = lines
        .iter()
        .map(|line| line.split(' ').next().unwrap())
        .collect();
    let expected = [
        "1", "1", "1", "165", "1", "1", "134", "168", "1", "204", "138", "sector", "no", "3",
        "255", "3", "164", "170", "200", "a", "1", "133", "0", "1", "2", "3", "4", "5", "6", "7",
    ];
    assert_eq!(numbers, expected, "{printed}");
    assert_eq!(lines[1], "1 success; count 126");
    assert_eq!(lines[5], "1 success; count 2");
    assert!(printed.contains("\n  0000  41 41                                            AA\n"));
    assert!(printed
        .contains("\n  0070  00 00 00 00 00 00 00 00 00 00 00 00 00 00 00 01  ................\n"));
    assert!(printed.ends_with("3  closed\n4  closed\n5  closed\n6  closed\n7  closed\n"));
    assert_eq!(status, Some(0));
}

#[test]
fn shell_goes_on_behind_a_line_it_does_not_understand() {
    let folder = Folder::new();
    let script = "open 0 append A\nfly\nget 0\ncio 0 7 0 \"\nchannel 8 0 0 0 0 0\npoke 1 128 0\npoke 0 0 0\npoke 721 0 0\nfresh raw\nsave\nget 256 1\nquit now\nlent 1 1 status A\nlent 1\nstatus A\n";
    let (printed, status) = folder.shell(&[], script);
    assert_eq!(
        printed
            .lines()
            .filter(|line| line.starts_with("? "))
            .count(),
        14,
        "{printed}"
    );
    assert!(
        printed.ends_with("170 no file has this name; count 0\n"),
        "{printed}"
    );
    assert_eq!(status, Some(1));
}

#[test]
fn shell_writes_a_file_only_by_save() {
    let folder = Folder::with_disk(two_files);
    let before = folder.read("disk");
    let (printed, _) = folder.shell(&["disk"], "delete B\n");
    assert_eq!(printed, "1 success; count 0\nchanges not saved\n");
    assert_eq!(folder.read("disk"), before);
    let (printed, _) = folder.shell(&["disk"], "delete B\nsave\nsave copy\nrecover 1\nsave\n");
    let path = folder.0.join("disk").canonicalize().unwrap();
    let path = path.display();
    let expected =
        format!("1 success; count 0\nsaved {path}\nsaved copy\n1 success; count 2\nsaved {path}\n");
    assert_eq!(printed, expected);
    assert_eq!(folder.read("disk"), before);
    assert!(folder
        .run(&["list", "copy"])
        .contains("deleted, can be recovered"));
    let (printed, status) = folder.shell(&[], "open 2 write A\nsave copy\nsave new\n");
    assert!(
        printed.contains("? copy: already exists\nsaved new\nchannel 2 is still writing: its file is saved as open for output; close it and save again\n"),
        "{printed}"
    );
    assert_eq!(status, Some(1));
    assert_eq!(folder.names(), ["copy", "disk", "new"]);
}

#[test]
fn shell_serves_an_image_of_another_length_with_203() {
    let folder = Folder::new();
    folder.write("short", &[0; 10]);
    let (printed, status) = folder.shell(&["short"], "status A\nheader\nshow 0 4\nformat\n");
    assert_eq!(
        printed.lines().map(|line| &line[..2]).collect::<Vec<_>>(),
        ["20", "20", "no", "20"]
    );
    assert_eq!(status, Some(0));
    let (printed, status) = folder.shell(&["short"], "poke 1 0 0\n");
    assert!(printed.starts_with("? 203 "), "{printed}");
    assert_eq!(status, Some(1));
}

#[test]
fn shell_makes_no_disk_of_a_file_that_is_none() {
    let folder = Folder::new();
    folder.write("notes", b"notes\n");
    let (printed, status) = folder.shell(&["notes"], "format\nfresh\nsave\n");
    let lines: Vec<&str> = printed.lines().collect();
    assert!(lines[0].starts_with("203 "), "{printed}");
    assert_eq!(lines[1], "? the file is no raw image and stays as it is");
    assert_eq!(status, Some(1));
    assert_eq!(folder.read("notes"), b"notes\n");
}

#[test]
fn shell_formats_by_the_call_and_begins_again_by_fresh() {
    let folder = Folder::with_disk(two_files);
    let script = "open 0 read B\nformat\nclose 0\nformat\nlist\n";
    let (printed, _) = folder.shell(&["disk"], script);
    let expected = "\
1 success; count 0
200 the file is open, or for a format a channel; count 0
1 success; count 0
1 success; count 0
slot  name          sectors   bytes
707 free sectors
changes not saved
";
    assert_eq!(printed, expected);
    let (printed, _) = folder.shell(&["disk"], "open 0 read B\nfresh\ntable\nsave\n");
    assert!(
        printed.contains("a fresh disk with all channels closed\n0  closed\n"),
        "{printed}"
    );
    assert_eq!(folder.read("disk"), Disk::fresh().image());
}

#[test]
fn shell_shows_the_whole_buffer_of_an_exact_get() {
    let script = r#"
open 0 write A
put 0 "abc"
close 0
open 0 read A
cio 0 7 0 "" 5*AA
thin-get 1 0 0 0 1 5*BB
"#;
    let (printed, _) = Folder::new().shell(&[], script);
    assert!(printed.contains("  0000  61 62 63 AA AA "), "{printed}");
    assert!(printed.contains("  0000  61 62 63 BB BB "), "{printed}");
}

#[test]
fn shell_tells_the_files_end() {
    let script = r#"
open 0 write A
put 0 "ab\x9Bcd\x9B"
close 0
open 0 read A
get-record 0 9
get-record 0 9
get-record 0 0
get-record 0 9
cio 0 12 0 "" -
cio 0 3 4 "D:A\x9B" -
cio 0 7 0 "" 5*AA
cio 0 7 0 "" 1*AA
cio 0 7 0 "" 1*AA
thin-get 1 0 4 3 7 3*AA
"#;
    let expected = "\
1 success; count 0
1 success; count 6
1 success; count 0
1 success; count 0
1 success; count 3
  0000  61 62 9B                                         ab.
3 success, and the file's end was reached; count 3
  0000  63 64 9B                                         cd.
1 success; count 0
136 the file has ended; count 0
1 success; count 0
1 success; count 0
1 success; count 5
  0000  61 62 9B 63 64                                   ab.cd
3 success, and the file's end was reached; count 1
  0000  9B                                               .
136 the file has ended; count 0
  0000  AA                                               .
3 success, and the file's end was reached; count 3
record 1 0 4 6 7
  0000  63 64 9B                                         cd.
";
    let folder = Folder::new();
    assert_eq!(folder.shell(&[], script), (expected.to_string(), Some(0)));
}

#[test]
fn shell_makes_the_calls_on_a_record_and_on_a_name() {
    let script = r#"
open 0 write A
put 0 "abc"
close 0
thin-get 1 0 0 0 1 2*00
thin-put 0 0 0 0 0 2*41
thin-get 1 0 00
recover 0
name "D:A.TXT\x9B" 11*00
name "D2:A\x9B" 11*00
"#;
    let expected = "\
1 success; count 0
1 success; count 3
1 success; count 0
1 success; count 2
record 1 0 4 2 0
  0000  61 62                                            ab
133 the channel is closed; count 0
record 0 0 0 0 0
255 a channel of no known kind, or a table, channel or name buffer of the wrong length; count 0
record 1 0
  0000  00                                               .
170 no deleted file is in this slot; count 0
1 success; count 7
  0000  41 20 20 20 20 20 20 20 54 58 54                 A       TXT
160 no such drive: there is only drive 1; count 0
  0000  00 00 00 00 00 00 00 00 00 00 00                 ...........
";
    let folder = Folder::new();
    assert_eq!(folder.shell(&[], script), (expected.to_string(), Some(0)));
}

#[test]
fn shell_serves_double_density_with_the_sizes_of_its_sectors() {
    let script = r#"
fresh double
open 0 write A
cio 0 11 0 "" 254*41
close 0
show 0 4
show 0 5
sector $31 1 $52 1 128*00
sector $31 1 $52 4 128*00
sector $31 1 $52 4 256*00
poke 4 255 9
show 0 4
poke 1 128 0
list
"#;
    let (printed, status) = Folder::new().shell(&[], script);
    let lines: Vec<&str> = printed
        .lines()
        .filter(|line| !line.starts_with("  "))
        .collect();
    let expected = [
        "a fresh disk with all channels closed",
        "1 success; count 0",
        "1 success; count 254",
        "1 success; count 0",
        "yes; offset 400, length 253",
        "yes; offset 656, length 1",
        "1 success; count 128",
        "204 the buffer is not as long as the sector; count 0",
        "1 success; count 256",
        "sector 4 byte 255 is 9",
        "yes; offset 400, length 9",
        "? ATR file of double density: sector 1 has no byte 128",
        "slot  name          sectors   bytes",
        "705 free sectors",
    ];
    assert_eq!(lines, expected, "{printed}");
    assert!(
        printed.contains("   0  A                   2      10\n"),
        "{printed}"
    );
    assert_eq!(status, Some(1));
}

#[test]
fn shell_writes_a_header_and_refuses_a_wrong_one() {
    let script = "fresh atr\nheader\npoke 0 4 0\nstatus A\nshow 0 4\npoke 0 15 7\nheader\nstatus A\nfresh\nheader\n";
    let (printed, status) = Folder::new().shell(&[], script);
    let expected = "\
a fresh disk with all channels closed
1 success; count 0
sector 0 byte 4 is 0
205 the image's header does not agree with its length; count 0
no
sector 0 byte 15 is 7
1 success; count 0
170 no file has this name; count 0
a fresh disk with all channels closed
203 the image is not 92160, 92176 or 183952 bytes long; count 0
";
    assert_eq!((printed, status), (expected.to_string(), Some(0)));
}

#[test]
fn shell_leaves_the_kind_of_an_image_in_a_file() {
    let folder = Folder::new();
    folder.run(&["new", "--double", "disk"]);
    let (printed, status) = folder.shell(
        &["disk"],
        "fresh\nfresh atr\nopen 0 write A\nfresh double\nsave\n",
    );
    let lines: Vec<&str> = printed.lines().collect();
    assert_eq!(
        lines[..2],
        [
            "? the file is no raw image and stays as it is",
            "? the file is no ATR file of single density and stays as it is"
        ]
    );
    assert!(lines[4].starts_with("saved "), "{printed}");
    assert_eq!(status, Some(1));
    assert_eq!(folder.read("disk"), Disk::fresh_as(Kind::AtrDouble).image());
}
