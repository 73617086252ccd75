//! Pipes: a reader that goes away, a writer that is slow, two commands at once.
mod common;
use common::{command, folder, run, torn, TORN};
use std::io::{BufRead, BufReader, Read, Write};
use std::process::Stdio;
use std::thread;

#[test]
fn a_reader_that_goes_away_ends_it_quietly() {
    let path = folder("head").join("long.trace");
    std::fs::write(&path, torn().repeat(20_000)).unwrap();
    for words in [["show", "--format=text"], ["show", "--format=json"]] {
        let mut child = command(&words)
            .arg(&path)
            .stdout(Stdio::piped())
            .stderr(Stdio::piped())
            .spawn()
            .unwrap();
        let mut line = String::new();
        BufReader::new(child.stdout.take().unwrap())
            .read_line(&mut line)
            .unwrap();
        assert!(line.contains('0'));
        let ended = child.wait_with_output().unwrap();
        assert_eq!(
            (ended.status.code(), ended.stderr.as_slice()),
            (Some(0), &[][..])
        );
    }
}

#[test]
fn what_has_come_is_shown_before_the_rest_comes() {
    let mut child = command(&["show", "-"])
        .stdin(Stdio::piped())
        .stdout(Stdio::piped())
        .spawn()
        .unwrap();
    let mut input = child.stdin.take().unwrap();
    let mut lines = BufReader::new(child.stdout.take().unwrap()).lines();
    let trace = torn();
    // a register file, a record, and a part of the next
    input.write_all(&trace[..200]).unwrap();
    let first: Vec<String> = lines.by_ref().take(3).map(Result::unwrap).collect();
    assert_eq!(first[1], "0  -  write [0x0000000000001008] 4 bytes");
    input.write_all(&trace[200..]).unwrap();
    drop(input);
    assert_eq!(lines.count(), 23);
    assert!(child.wait().unwrap().success());
}

#[test]
fn byte_by_byte_it_is_the_same() {
    let mut child = command(&["show"])
        .stdin(Stdio::piped())
        .stdout(Stdio::piped())
        .spawn()
        .unwrap();
    let mut input = child.stdin.take().unwrap();
    let writer = thread::spawn(move || {
        for byte in torn() {
            input.write_all(&[byte]).unwrap();
        }
    });
    let mut output = String::new();
    child
        .stdout
        .take()
        .unwrap()
        .read_to_string(&mut output)
        .unwrap();
    writer.join().unwrap();
    assert!(child.wait().unwrap().success());
    assert_eq!(output, run(&["show", TORN]).output);
}

#[test]
fn two_at_once_answer_as_one_alone() {
    let alone = [run(&["show", TORN]).output, run(&["summary", TORN]).output];
    let runs: Vec<_> = (0..16)
        .map(|k| thread::spawn(move || (k % 2, run(&[["show", "summary"][k % 2], TORN]))))
        .collect();
    for each in runs {
        let (which, ran) = each.join().unwrap();
        assert_eq!((ran.status, &ran.output), (Some(0), &alone[which]));
    }
}
