//! Every error and its status.
mod common;
use common::{command, folder, run, top, Ran, TORN};
use std::ffi::OsStr;
use std::fs::{self, File};
use std::os::unix::ffi::OsStrExt;
use std::process::Stdio;

fn wrong(words: &[&str], expected: &str) {
    let ran = run(words);
    assert_eq!(
        (ran.status, ran.output.as_str()),
        (Some(2), ""),
        "{words:?}"
    );
    assert!(
        ran.errors.starts_with(&format!("machhurel: {expected}")),
        "{words:?}: {}",
        ran.errors
    );
    assert_eq!(ran.errors.lines().count(), 1);
    assert!(ran.errors.ends_with("--help` says more)\n"));
}

#[test]
fn wrong_usage_is_2() {
    wrong(&["shwo"], "there is no command shwo: is show meant?");
    wrong(
        &["--verison"],
        "there is no command --verison: is --version meant?",
    );
    wrong(&["qqqqqqq"], "there is no command qqqqqqq (");
    wrong(
        &["help", "shwo"],
        "there is no command shwo: is show meant?",
    );
    wrong(&[""], "there is no command  (");
    wrong(
        &[TORN],
        "there is no command samples/torn.trace: is `machhurel show samples/torn.trace` meant?",
    );
    wrong(
        &["show", "--fromat", "csv"],
        "there is no option --fromat: is --format meant?",
    );
    wrong(
        &["summary", "--writes", "1"],
        "there is no option --writes (",
    );
    wrong(&["show", "-x"], "there is no option -x (");
    wrong(
        &["show", "--format"],
        "--format needs a value: --format FORMAT",
    );
    wrong(
        &["show", "--format", "xml", TORN],
        "--format xml: expected text, csv, json",
    );
    wrong(
        &["show", "--writes", "banana"],
        "--writes banana: expected an address and a length, as 0x1008+8",
    );
    wrong(
        &["show", "--writes=0x1008+0"],
        "--writes 0x1008+0: expected",
    );
    wrong(
        &["show", "--records", "9..x"],
        "--records 9..x: expected two numbers, as 100..200",
    );
    wrong(&["show", "--records="], "--records : expected");
    wrong(
        &["show", "--\u{1b}[31m"],
        "there is no option --\\u{1b}[31m",
    );
    wrong(&["\u{1b}[31m"], "there is no command \\u{1b}[31m");
}

#[test]
fn wrong_usage_of_watch_and_difference_is_2() {
    let three = "expected a trace, an address and a length, as trace 0x1008 8, or a recording and a name, as x position (";
    for words in [
        &["watch"][..],
        &["watch", TORN],
        &["watch", "0x1008", "8"],
        &["watch", TORN, TORN, "0x1008", "8"],
    ] {
        wrong(words, three);
    }
    wrong(
        &["watch", TORN, "banana", "8"],
        "ADDRESS banana: expected a number, as 0x1008 (",
    );
    for length in ["0", "9", "x", "18446744073709551617"] {
        let expected = format!("LENGTH {length}: expected 1 to 8 (");
        wrong(&["watch", TORN, "0x1008", length], &expected);
    }
    for jobs in ["0", "65", "two", "-1"] {
        let expected = format!("--jobs {jobs}: expected 1 to 64 (");
        wrong(&["watch", TORN, "0x1008", "8", "--jobs", jobs], &expected);
    }
    wrong(
        &["watch", TORN, "0x1008", "8", "--format", "xml"],
        "--format xml: expected text, csv, json (",
    );
    wrong(&["wacht"], "there is no command wacht: is watch meant?");
    for words in [
        &["difference"][..],
        &["difference", TORN],
        &["difference", "a", "b", "c"],
    ] {
        wrong(words, "expected two logs: A B (");
    }
    wrong(
        &["difference", "-", "-"],
        "standard input cannot be both logs (",
    );
    wrong(
        &["difference", "--format", "csv", "a", "b"],
        "there is no option --format (",
    );
}

fn failed(ran: &Ran, expected: &str) {
    assert_eq!(ran.status, Some(1), "{ran:?}");
    assert!(ran.errors.contains(expected), "{ran:?}");
}

#[test]
fn traces_that_cannot_be_opened_or_read_are_1() {
    for command in ["show", "summary"] {
        failed(
            &run(&[command, "no.trace"]),
            "machhurel: no.trace: cannot be opened: No such file or directory\n",
        );
        failed(
            &run(&[command, "samples"]),
            "machhurel: samples: byte 0, record 0: cannot be read: Is a directory\n",
        );
        failed(
            &run(&[command, "crates.txt/x"]),
            "machhurel: crates.txt/x: cannot be opened: Not a directory\n",
        );
        failed(
            &run(&[command, ""]),
            "machhurel: : cannot be opened: No such file or directory\n",
        );
        let long = "x".repeat(300);
        failed(
            &run(&[command, &long]),
            ": cannot be opened: File name too long\n",
        );
    }
}

#[test]
fn the_other_traces_are_read_all_the_same() {
    let ran = run(&["show", "no.trace", TORN, "cli/tests/data/cut.trace", TORN]);
    assert_eq!(ran.status, Some(1));
    assert_eq!(
        ran.output
            .lines()
            .filter(|line| line.starts_with(TORN))
            .count(),
        52
    );
    assert_eq!(ran.errors.lines().count(), 2);
}

#[test]
fn a_name_with_escape_bytes_is_shown_harmlessly() {
    let name = OsStr::from_bytes(b"red\x1b[31m,\"\xff\n.trace");
    let path = folder("names").join(name);
    fs::write(&path, &common::torn()[..200]).unwrap();
    for format in ["text", "csv", "json"] {
        let mut command = command(&["show", "--format", format]);
        let ran: Ran = command
            .arg(&path)
            .arg(&path)
            .stdin(Stdio::null())
            .output()
            .unwrap()
            .into();
        assert_eq!(ran.status, Some(1));
        for text in [&ran.output, &ran.errors] {
            assert!(
                text.chars().all(|c| !c.is_control() || c == '\n'),
                "{text:?}"
            );
            assert!(
                text.contains("red\\") && text.contains("31m,") && text.contains("\\xff"),
                "{text}"
            );
        }
        let lines = ran.output.lines().count();
        assert_eq!(lines, if format == "csv" { 7 } else { 6 });
    }
}

#[test]
fn output_that_cannot_be_written_is_1() {
    for words in [
        &["show", TORN][..],
        &["summary", TORN],
        &["watch", TORN, "0x1008", "8"],
        &["difference", "/dev/null", "/dev/null"],
        &["--help"],
        &["--version"],
    ] {
        let full = File::options().write(true).open("/dev/full").unwrap();
        let mut command = command(words);
        let ran: Ran = command
            .stdin(Stdio::null())
            .stdout(full)
            .output()
            .unwrap()
            .into();
        let said = "machhurel: standard output: No space left on device\n";
        assert_eq!(
            (ran.status, ran.errors.as_str()),
            (Some(1), said),
            "{words:?}"
        );
    }
}

#[test]
fn closed_streams_are_no_crash() {
    let script =
        "\"$0\" show samples/torn.trace >&- 2>&-; \"$0\" show no.trace 2>&-; exec \"$0\" show <&-";
    let mut shell = std::process::Command::new("sh");
    let run = shell
        .args(["-c", script, common::COMMAND])
        .current_dir(top())
        .output()
        .unwrap();
    assert_eq!(run.status.code(), Some(0));
    assert!(String::from_utf8_lossy(&run.stderr).contains("this is the sample"));
}
