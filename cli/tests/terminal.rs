//! How it looks on a terminal: under a pseudo-terminal made by `script`.
mod common;
use common::{folder, top, COMMAND};
use std::process::{Command, Stdio};

/// What a shell's command writes to its terminal.
fn on_terminal(line: &str) -> String {
    let output = Command::new("script")
        .args(["-qec", line, "/dev/null"])
        .env("COMMAND", COMMAND)
        .current_dir(top())
        .stdin(Stdio::null())
        .output()
        .expect("script, of Debian's bsdutils");
    assert!(output.status.success(), "{output:?}");
    String::from_utf8(output.stdout).unwrap()
}

#[test]
fn with_no_pipe_the_sample_is_shown() {
    let text = on_terminal("\"$COMMAND\" show");
    assert!(
        text.starts_with("machhurel: no trace is given: this is the sample"),
        "{text}"
    );
    assert!(text.contains("9  -  refused 6: memory is accessed and its size is 0\r\n"));
}

/// A trace that takes some seconds to come; each test has a folder of its own.
fn slow(name: &str) -> String {
    let path = folder(name).join("slow.trace");
    std::fs::write(&path, common::torn().repeat(2_000)).unwrap();
    let path = path.to_str().unwrap();
    format!("{{ for k in 1 2 3 4; do cat '{path}'; sleep 0.3; done; }}")
}

#[test]
fn a_long_trace_has_a_progress_line_that_goes_away() {
    let text = on_terminal(&format!("{} | \"$COMMAND\" summary -", slow("progress")));
    assert!(
        text.contains("\r\x1b[Kmachhurel: standard input: "),
        "{text:?}"
    );
    assert!(text.contains(" records, "), "{text:?}");
    let last = text.rfind("\r\x1b[K").unwrap();
    assert!(
        text[last + 4..].starts_with("standard input\r\n"),
        "{text:?}"
    );
}

#[test]
fn no_progress_where_errors_are_no_terminal_or_lines_come_there() {
    let slow = slow("none");
    let quiet = on_terminal(&format!("{} | \"$COMMAND\" summary - 2>&1 | cat", slow));
    assert!(!quiet.contains('\x1b'), "{quiet:?}");
    let lines = on_terminal(&format!("{} | \"$COMMAND\" show --records 79999.. -", slow));
    assert!(!lines.contains('\x1b'), "{lines:?}");
    let beside = on_terminal(&format!("{} | \"$COMMAND\" show - > /dev/null", slow));
    assert!(
        beside.contains("\r\x1b[Kmachhurel: standard input: "),
        "{beside:?}"
    );
}
