//! What is printed, compared with what is kept in tests/golden.
mod common;
use common::{golden, pipe, run, torn, TORN};

/// Runs it; all must be well.
fn output(words: &[&str]) -> String {
    let ran = run(words);
    assert_eq!(
        (ran.status, ran.errors.as_str()),
        (Some(0), ""),
        "{words:?}"
    );
    ran.output
}

#[test]
fn the_sample_in_each_format() {
    for format in ["text", "csv", "json"] {
        golden(
            &format!("torn.{format}"),
            &output(&["show", "--format", format, TORN]),
        );
        golden(
            &format!("torn.summary.{format}"),
            &output(&["summary", TORN, "--format", format]),
        );
    }
    assert_eq!(
        output(&["show", TORN]),
        output(&["show", "--format=text", TORN])
    );
}

#[test]
fn writes_to_the_position_and_what_could_hide_one() {
    golden(
        "writes.text",
        &output(&["show", "--writes", "0x1008+8", TORN]),
    );
    let low = output(&["show", "--writes", "0x1008", "--records", "..7", TORN]);
    let both = output(&[
        "show",
        "--writes",
        "0x1008",
        "--writes",
        "0x7ffdfff8+8",
        "--records=..7",
        TORN,
    ]);
    assert_eq!(low.lines().count(), 2, "{low}");
    assert_eq!(both.lines().count(), 3, "{both}");
}

#[test]
fn some_records() {
    let all = output(&["show", TORN]);
    let of = |numbers: &[&str]| -> String {
        let some = all
            .lines()
            .filter(|line| numbers.contains(&line.split(' ').next().unwrap()));
        some.map(|line| format!("{line}\n")).collect()
    };
    assert_eq!(
        output(&["show", "--records", "3..5", TORN]),
        of(&["3", "4"])
    );
    assert_eq!(output(&["show", "--records", "7", TORN]), of(&["7"]));
    assert_eq!(output(&["show", "--records", "8..", TORN]), of(&["8", "9"]));
    assert_eq!(output(&["show", "--records", "..0", TORN]), "");
    assert_eq!(output(&["show", "--records", "100..200", TORN]), "");
}

#[test]
fn each_tried_trace_with_its_errors_and_status() {
    let names = [
        "bit_17", "broken", "cut", "cut_file", "early", "empty", "field", "files", "lea", "rip",
    ];
    for format in ["text", "csv", "json"] {
        let mut told = String::new();
        for name in names {
            let path = format!("cli/tests/data/{name}.trace");
            let shown = run(&["show", "--format", format, &path]);
            let status = shown.status.unwrap();
            told += &format!(
                "== {name}: status {status}\n{}{}",
                shown.output, shown.errors
            );
            let summed = run(&["summary", "--format", format, &path]);
            assert_eq!(summed.status, shown.status, "{name}");
            assert_eq!(summed.errors, shown.errors, "{name}");
        }
        golden(&format!("tried.{format}"), &told);
    }
}

#[test]
fn a_thread_local_variable() {
    golden("thread.text", &output(&["show", "samples/thread.trace"]));
}

#[test]
fn several_traces_are_named_on_every_line() {
    let rip = "cli/tests/data/rip.trace";
    golden("several.text", &output(&["show", rip, rip]));
    golden("several.summary.text", &output(&["summary", rip, rip]));
    let csv = output(&["show", "--format", "csv", rip, TORN]);
    assert_eq!(
        csv.lines()
            .filter(|line| line.starts_with("trace,"))
            .count(),
        1
    );
}

#[test]
fn help_is_as_kept() {
    golden("help.text", &output(&["--help"]));
    golden("help.show.text", &output(&["show", "--help"]));
    golden("help.summary.text", &output(&["summary", "-h"]));
    golden("help.watch.text", &output(&["watch", "-h"]));
    golden("help.fetch.text", &output(&["fetch", "-h"]));
    golden("help.difference.text", &output(&["difference", "-h"]));
    assert_eq!(output(&["-h"]), output(&["help"]));
    assert_eq!(output(&["help", "show"]), output(&["show", "-h"]));
    assert_eq!(
        output(&["show", "--writes", "1", "--help"]),
        output(&["--help", "show"])
    );
}

#[test]
fn the_version_is_the_package_s() {
    let version = format!("machhurel {}\n", env!("CARGO_PKG_VERSION"));
    assert_eq!(output(&["--version"]), version);
    assert_eq!(output(&["-V"]), version);
}

#[test]
fn the_sample_is_shown_where_nothing_is_given_and_said_so() {
    let expected = run(&["show", TORN]).output;
    for words in [&[][..], &["show"]] {
        let ran = run(words);
        assert_eq!((ran.status, &ran.output), (Some(0), &expected));
        assert_eq!(
            ran.errors,
            "machhurel: no trace is given: this is the sample, samples/torn.trace\n"
        );
    }
}

#[test]
fn a_pipe_is_read_with_and_without_a_dash() {
    let expected = run(&["show", TORN]).output;
    for words in [&[][..], &["show"], &["show", "-"], &["show", "--", "-"]] {
        let ran = pipe(words, &torn());
        assert_eq!(
            (ran.status, &ran.output, ran.errors.as_str()),
            (Some(0), &expected, "")
        );
    }
    let ran = pipe(&["show"], &torn()[..200]);
    assert_eq!(ran.status, Some(1));
    assert!(
        ran.errors
            .starts_with("machhurel: standard input: byte 181, record 1: cut: "),
        "{}",
        ran.errors
    );
}
