//! `difference`: golden words, every status, and random logs against a comparison event by event.
mod common;
use common::{command, folder, golden, pipe, Ran, Random};
use machhurel::*;
use std::path::Path;
use std::process::Stdio;

/// Runs it on two logs, in a folder in which they are called a and b.
fn compared(place: &Path, a: &[u8], b: &[u8]) -> Ran {
    std::fs::write(place.join("a"), a).unwrap();
    std::fs::write(place.join("b"), b).unwrap();
    let mut command = command(&["difference", "a", "b"]);
    let command = command.current_dir(place).stdin(Stdio::null());
    command.output().unwrap().into()
}

/// Reads rbx, writes 8 bytes at an unknown address.
const UNKNOWN: [u8; 5] = [1, 0, 3, 6, 8];
/// Reads rbx, writes 8 bytes at 0x1008.
const KNOWN: [u8; 13] = [1, 0, 3, 4, 0x08, 0x10, 0, 0, 0, 0, 0, 0, 8];

#[test]
fn each_answer_in_words_with_its_status() {
    let place = folder("difference");
    let mut told = String::new();
    for (what, a, b, status) in [
        ("equal", &KNOWN[..], &KNOWN[..], 0),
        ("empty", &[], &[], 0),
        ("one event differs", &UNKNOWN, &KNOWN, 3),
        ("a ends early", &UNKNOWN[..3], &UNKNOWN, 3),
        ("b ends early", &UNKNOWN, &UNKNOWN[..3], 3),
        ("b is empty", &UNKNOWN, &[], 3),
        ("a is cut", &KNOWN[..12], &KNOWN, 1),
        (
            "b has a bad size behind a difference",
            &KNOWN,
            &[6, 8, 6, 65],
            1,
        ),
        ("both are refused", &[9], &[1, 0, 3, 1, 0], 1),
    ] {
        let ran = compared(&place, a, b);
        assert_eq!(ran.status, Some(status), "{what}");
        assert_eq!(ran.errors.is_empty(), status != 1, "{what}");
        assert_eq!(ran.output.is_empty(), status == 1, "{what}");
        told += &format!("== {what}: status {status}\n{}{}", ran.output, ran.errors);
    }
    golden("difference.text", &told);
}

#[test]
fn a_log_that_cannot_be_read_is_1() {
    for (a, b, name) in [
        ("no.log", "README.md", "no.log"),
        ("README.md", "no.log", "no.log"),
    ] {
        let ran = common::run(&["difference", a, b]);
        assert_eq!((ran.status, ran.output.as_str()), (Some(1), ""));
        let words = format!("machhurel: {name}: cannot be read: No such file or directory\n");
        assert_eq!(ran.errors, words);
    }
    let ran = common::run(&["difference", "samples", "/dev/null"]);
    assert_eq!(ran.status, Some(1));
    assert_eq!(
        ran.errors,
        "machhurel: samples: cannot be read: Is a directory\n"
    );
}

#[test]
fn one_log_comes_from_a_pipe() {
    let place = folder("difference_pipe");
    let path = place.join("a");
    std::fs::write(&path, UNKNOWN).unwrap();
    let ran = pipe(&["difference", path.to_str().unwrap(), "-"], &KNOWN);
    assert_eq!(ran.status, Some(3));
    assert!(ran
        .output
        .starts_with("different: byte 3 of standard input, event 1\n"));
}

fn event(random: &mut Random) -> Vec<u8> {
    let size = 1 + random.below(3) as u8;
    match random.below(4) {
        0 => vec![1 + random.below(2) as u8, 0, random.below(3) as u8],
        1 => vec![5 + random.below(2) as u8, size],
        2 => [&[3, random.below(3) as u8][..], &[0; 7], &[size]].concat(),
        // seldom one that is refused
        _ if random.below(4) == 0 => vec![random.next() as u8, random.next() as u8],
        _ => vec![2, 0, random.below(3) as u8],
    }
}

#[test]
fn random_logs_against_their_events() {
    let place = folder("difference_random");
    let mut random = Random(11);
    let mut seen = [0; 4];
    for round in 0..300 {
        let events: Vec<Vec<u8>> = (0..random.below(8)).map(|_| event(&mut random)).collect();
        let a = events.concat();
        let mut other = events;
        if !other.is_empty() && random.below(3) > 0 {
            let at = random.below(other.len() as u64) as usize;
            other[at] = if random.below(3) == 0 {
                Vec::new()
            } else {
                event(&mut random)
            };
        }
        let b = other.concat();
        let ran = compared(&place, &a, &b);
        let whole = |log: &[u8]| Events::new(log).collect::<Result<Vec<Event>, Refusal>>();
        let (status, words) = match (whole(&a), whole(&b)) {
            (Ok(a), Ok(b)) if a == b => (0, format!("equal: {} events", a.len())),
            (Ok(a), Ok(b)) => {
                let same = a.iter().zip(&b).take_while(|(a, b)| a == b).count();
                let say = |event: Option<&Event>| {
                    event.map_or("the log ends".to_string(), Event::to_string)
                };
                let words = format!(
                    ", event {same}\n  a: {}\n  b: {}\n",
                    say(a.get(same)),
                    say(b.get(same))
                );
                (3, words)
            }
            _ => (1, String::new()),
        };
        assert_eq!(ran.status, Some(status), "round {round}");
        assert!(
            ran.output.contains(&words),
            "round {round}: {} {words}",
            ran.output
        );
        seen[status as usize] += 1;
    }
    assert!(seen[0] > 30 && seen[1] > 30 && seen[3] > 30, "{seen:?}");
}
