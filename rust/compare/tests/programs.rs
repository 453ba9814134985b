//! The command lines of the two programs.

use std::process::{Command, Output};

fn differ(words: &[&str]) -> Output {
    let mut program = Command::new(env!("CARGO_BIN_EXE_differ"));
    program.args(words).output().unwrap()
}

fn bench(words: &[&str]) -> Output {
    let mut program = Command::new(env!("CARGO_BIN_EXE_bench"));
    program.args(words).output().unwrap()
}

#[test]
fn help_is_no_failure() {
    for output in [differ(&["--help"]), bench(&["--help"])] {
        assert_eq!(output.status.code(), Some(0));
        assert!(output.stdout.starts_with(b"usage: "));
        assert!(output.stderr.is_empty());
    }
}

#[test]
fn what_is_wrong_with_the_options_is_said() {
    for (words, message) in [
        (&["--against", "nonsense"][..], "no side nonsense"),
        (&["--against"], "--against needs a side"),
        (&["--calls", "many"], "--calls needs a number"),
        (&["--seeds"], "no option --seeds"),
    ] {
        let output = differ(words);
        assert_eq!(output.status.code(), Some(1), "{words:?}");
        let printed = String::from_utf8(output.stderr).unwrap();
        assert!(printed.contains(message), "{printed}");
    }
    assert_eq!(bench(&["--repetitions", "0"]).status.code(), Some(1));
}

#[test]
fn the_options_of_the_benchmark_come_in_any_order() {
    for words in [
        ["--scattered", "--repetitions", "1"],
        ["--repetitions", "1", "--scattered"],
    ] {
        let output = bench(&words);
        assert_eq!(output.status.code(), Some(0), "{words:?}");
        let printed = String::from_utf8(output.stdout).unwrap();
        assert_eq!(printed.lines().count(), 6, "{printed}");
    }
}

#[test]
fn a_case_begins_with_a_fresh_disk_and_names_the_lengths_lent() {
    let output = differ(&["--against", "ChannelBeforeImage"]);
    assert_eq!(output.status.code(), Some(1));
    let printed = String::from_utf8(output.stdout).unwrap();
    let lines: Vec<&str> = printed
        .lines()
        .filter(|line| !line.starts_with('#'))
        .collect();
    assert!(lines[0].starts_with("fresh"), "{printed}");
    assert!(lines[lines.len() - 1].starts_with("lent "), "{printed}");
}
