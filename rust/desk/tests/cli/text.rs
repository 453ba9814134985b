//! Lines of text: `get --text`, `put --text`, and the shell's records.

use crate::folder::{two_files, Folder};

/// A folder with a fresh image on which the file A has these bytes.
fn with_file(bytes: &[u8]) -> Folder {
    let folder = Folder::with_disk(|_| ());
    folder.write("bytes", bytes);
    folder.run(&["put", "disk", "bytes", "A"]);
    folder
}

#[test]
fn text_has_newlines_here_and_ends_of_lines_there() {
    let folder = Folder::with_disk(|_| ());
    folder.write("text", b"LANE 1  29.31\nLANE 2  28.04\n\n");
    folder.run(&["put", "--text", "disk", "text"]);
    folder.run(&["get", "disk", "TEXT", "bytes"]);
    let on_disk = b"LANE 1  29.31\x9bLANE 2  28.04\x9b\x9b";
    assert_eq!(folder.read("bytes"), on_disk);
    let printed = folder.run(&["get", "--text", "disk", "TEXT", "-"]);
    assert_eq!(printed.as_bytes(), folder.read("text"));
    folder.run(&["get", "disk", "--text", "TEXT"]);
    assert_eq!(folder.read("TEXT"), folder.read("text"));
    let output = folder.run_with(&["put", "--text", "disk", "-", "B"], b"a\nb\n");
    assert_eq!(output.status.code(), Some(0));
    folder.run(&["get", "disk", "B", "bytes"]);
    assert_eq!(folder.read("bytes"), b"a\x9bb\x9b");
}

#[test]
fn what_put_took_as_text_get_gives_back() {
    let every_byte: Vec<u8> = (0..=255).filter(|&byte| byte != 0x9b).collect();
    let long = vec![b'x'; 88_375];
    for text in [
        &b""[..],
        b"\n",
        b"no end",
        b"an end\nno end",
        b"\n\n\n",
        b"carriage\r\nreturn\r\n",
        b"\r",
        &every_byte,
        &long,
    ] {
        let folder = Folder::with_disk(|_| ());
        folder.write("text", text);
        folder.run(&["put", "--text", "disk", "text"]);
        folder.run(&["get", "--text", "disk", "TEXT", "back"]);
        assert!(folder.read("back") == text, "{text:?}");
        folder.run(&["get", "disk", "TEXT", "bytes"]);
        assert_eq!(folder.read("bytes").len(), text.len(), "no end is added");
    }
}

#[test]
fn what_get_gave_as_text_put_gives_back() {
    let every_byte: Vec<u8> = (0..=255).filter(|&byte| byte != b'\n').collect();
    for bytes in [
        &b""[..],
        b"\x9b",
        b"no end",
        b"an end\x9bno end",
        b"\r\x9b",
        &every_byte,
    ] {
        let folder = with_file(bytes);
        folder.run(&["get", "--text", "disk", "A", "text"]);
        assert!(!folder.read("text").contains(&0x9b));
        folder.run(&["put", "--text", "disk", "text", "B"]);
        folder.run(&["get", "disk", "B", "back"]);
        assert_eq!(folder.read("back"), bytes);
    }
}

#[test]
fn what_could_not_be_told_apart_is_refused() {
    let folder = with_file(b"ab\x9bc\n");
    assert_eq!(
        folder.refuse(&["get", "--text", "disk", "A", "out"]),
        "desk: A: byte 4 is $0A, a newline, and could not be told from an end of line; leave --text out\n"
    );
    assert_eq!(folder.run(&["get", "disk", "A", "out"]), "");
    assert_eq!(folder.read("out"), b"ab\x9bc\n");
    assert_eq!(
        folder.refuse(&["put", "--text", "disk", "bytes", "B"]),
        "desk: bytes: byte 2 is $9B, an end of line, and could not be told from a newline; leave --text out\n"
    );
    // Before the image is looked at, as an input that cannot be read.
    assert!(folder
        .refuse(&["put", "--text", "--protect", "disk", "bytes"])
        .starts_with("desk: bytes: byte 2 is $9B"));
    folder.write("text", b"a\n");
    assert!(folder
        .refuse(&["put", "--text", "--protect", "disk", "text"])
        .starts_with("desk: disk: 144 "));
}

#[test]
fn only_get_and_put_take_text() {
    let folder = Folder::with_disk(two_files);
    for command in ["list", "delete", "shell"] {
        assert_eq!(
            folder.refuse(&[command, "--text", "disk"]),
            format!("desk: no option --text: see desk {command} --help\n")
        );
    }
    for command in ["get", "put"] {
        let help = folder.run(&[command, "--help"]);
        let usage = format!("usage: desk {command} [--protect] [--text] IMAGE ");
        assert!(help.starts_with(&usage), "{help}");
        assert!(help.contains("\nWith --text each "), "{help}");
        assert!(help.contains(" a last line without"), "{help}");
    }
}

#[test]
fn shell_reads_and_writes_lines() {
    let script = r#"
open 1 write A
put-record 1 "one"
put-record 1 "two\x9Bnot written"
put-record 1 ""
put 1 "longer\x9Bend"
put-record 0 "closed"
get-record 1 9
notch closed
put-record 1 ""
notch open
close 1
open 0 read A
get-record 0 9
get-record 0 0
get-record 0 4
get-record 0 4
get-record 0 4
get-record 0 4
get-record 0 4
"#;
    let expected = "\
1 success; count 0
1 success; count 3
1 success; count 4
1 success; count 0
1 success; count 10
133 the channel is closed; count 0
131 the channel is open for writing only; count 0
the notch is closed
144 the write-protect notch is closed; count 0
the notch is open
1 success; count 0
1 success; count 0
1 success; count 4
  0000  6F 6E 65 9B                                      one.
1 success; count 0
1 success; count 4
  0000  74 77 6F 9B                                      two.
1 success; count 1
  0000  9B                                               .
137 the line did not end within the buffer, and its rest was dropped; count 4
  0000  6C 6F 6E 67                                      long
136 the file has ended; count 3
  0000  65 6E 64                                         end
136 the file has ended; count 0
";
    let folder = Folder::new();
    assert_eq!(folder.shell(&[], script), (expected.to_string(), Some(0)));
}

#[test]
fn shell_shows_the_whole_buffer_of_an_exact_get_record() {
    let script = r#"
open 0 write A
cio 0 9 0 "" "ab"
close 0
open 0 read A
cio 0 5 0 "" 5*AA
cio 0 5 0 "" 2*AA
cio 0 5 0 "" -
"#;
    let (printed, status) = Folder::new().shell(&[], script);
    let lines: Vec<&str> = printed.lines().collect();
    assert_eq!(lines[1], "1 success; count 2");
    assert_eq!(
        lines[4],
        "3 success, and the file's end was reached; count 3"
    );
    assert!(lines[5].starts_with("  0000  61 62 9B AA AA "), "{printed}");
    assert_eq!(lines[6], "136 the file has ended; count 0");
    assert!(lines[7].starts_with("  0000  AA AA "), "{printed}");
    assert_eq!(lines[8], "1 success; count 0");
    assert_eq!(status, Some(0));
}
