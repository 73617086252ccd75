//! A recording told by name, and `record`, which hands over to the recorder.
mod common;
use common::{command, folder, golden, run, top, Ran, Random};
use std::fs;
use std::path::Path;

const RECORDING: &str = "samples/controller";

fn watch(words: &[&str]) -> Ran {
    let ran = run(&[&["watch"], words].concat());
    assert_eq!(
        (ran.status, ran.errors.as_str()),
        (Some(3), ""),
        "{words:?}"
    );
    ran
}

#[test]
fn the_recording_in_samples() {
    let ran = watch(&[RECORDING, "position"]);
    golden("controller.watch.text", &ran.output);
    // its trace's name will do too, and threads change nothing
    let same = [
        &["samples/controller.trace", "position"][..],
        &[RECORDING, "position", "--jobs", "3"],
    ];
    for words in same {
        assert_eq!(watch(words).output, ran.output);
    }
    // other programs get what they get by address
    let side = fs::read_to_string(top().join("samples/controller.side")).unwrap();
    let variable = side
        .lines()
        .find(|line| line.starts_with("variable position "));
    let address = variable.unwrap().split(' ').nth(2).unwrap();
    let by_address = watch(&["samples/controller.trace", address, "8", "--format", "csv"]);
    let by_name = watch(&[RECORDING, "position", "--format", "csv"]);
    assert_eq!(by_name.output, by_address.output);
}

/// Another reading of the side file alone: two halves, and what was read between them.
#[test]
fn the_numbers_by_another_reading() {
    let side = fs::read_to_string(top().join("samples/controller.side")).unwrap();
    let hex = |word: &str| u64::from_str_radix(word.trim_start_matches("0x"), 16).unwrap();
    let (mut old, mut between, mut reads, mut never) = (0, Vec::new(), 0, 0);
    let mut is_open = false;
    for line in side.lines().filter(|line| line.starts_with("touch ")) {
        let words: Vec<&str> = line.split(' ').collect();
        let value = hex(words[6]);
        match (words[4], words[5]) {
            ("w", "0x0f") => is_open = true,
            ("w", "0xf0") => {
                never += between
                    .iter()
                    .filter(|read| **read != old && **read != value)
                    .count();
                between.clear();
                is_open = false;
                old = value;
            }
            ("r", "0xff") => {
                reads += 1;
                if is_open {
                    between.push(value);
                }
            }
            other => panic!("{other:?}"),
        }
    }
    let said = watch(&[RECORDING, "position"]).output;
    let words = format!("It was read {reads} times; {never} reads fell between the parts and showed a value that never existed");
    assert!(said.starts_with(
        "position is written in 2 stores each time, from controller.c:41 and controller.c:42. "
    ));
    assert!(said.contains(&words), "{words}: {said}");
    // what the program itself counted in this run
    assert_eq!((reads, never), (102, 9));
}

#[test]
fn the_page_says_the_same_sentence() {
    let page = folder("story").join("page.html");
    let said = watch(&[RECORDING, "position", "--html", page.to_str().unwrap()]).output;
    let page = fs::read_to_string(page).unwrap();
    let first = said.lines().next().unwrap();
    assert!(page.contains(&format!("<b>{first}</b>")));
    assert!(page.len() < 100_000 && !page.contains("<script") && !page.contains("http"));
    for words in [
        "controller.c:41",
        "which never existed",
        "What it was, and what its readers saw",
    ] {
        assert!(page.contains(words), "{words}");
    }
}

fn copied(folder: &Path, side: &[u8]) -> String {
    fs::copy(
        top().join("samples/controller.trace"),
        folder.join("x.trace"),
    )
    .unwrap();
    fs::write(folder.join("x.side"), side).unwrap();
    folder.join("x").to_str().unwrap().to_string()
}

#[test]
fn no_such_name_and_no_such_file() {
    let ran = run(&["watch", RECORDING, "banana"]);
    assert_eq!(ran.status, Some(1));
    let words =
        "machhurel: samples/controller.side: no variable banana was watched: there is position\n";
    assert_eq!(ran.errors, words);
    let ran = run(&["watch", "samples/none", "position"]);
    assert_eq!((ran.status, ran.output.as_str()), (Some(1), ""));
    assert!(ran
        .errors
        .starts_with("machhurel: samples/none.side: cannot be opened"));
}

#[test]
fn a_damaged_side_file_gets_an_answer() {
    let good = fs::read(top().join("samples/controller.side")).unwrap();
    let folder = folder("damaged-side");
    let mut random = Random(88_172_645_463_325_252);
    for _ in 0..150 {
        let mut side = good.clone();
        for _ in 0..1 + random.below(6) {
            let at = random.below(side.len() as u64) as usize;
            side[at] = random.next() as u8;
        }
        side.truncate(
            good.len() - random.below(2) as usize * random.below(good.len() as u64) as usize,
        );
        let ran = run(&["watch", &copied(&folder, &side), "position"]);
        assert!(matches!(ran.status, Some(1 | 3)), "{ran:?}");
        assert!(ran.output.chars().all(|c| c == '\n' || !c.is_control()));
    }
}

#[test]
fn a_side_file_of_another_trace_is_seen() {
    let folder = folder("other-side");
    let side = fs::read_to_string(top().join("samples/controller.side")).unwrap();
    let some: String = side
        .lines()
        .filter(|line| !line.starts_with("touch 10 "))
        .map(|line| format!("{line}\n"))
        .collect();
    let said = watch(&[&copied(&folder, some.as_bytes()), "position"]).output;
    assert!(
        said.contains("1 access of the trace not in the side file"),
        "{said}"
    );
    let cut: String = side
        .lines()
        .filter(|line| !line.starts_with("end "))
        .map(|line| format!("{line}\n"))
        .collect();
    let said = watch(&[&copied(&folder, cut.as_bytes()), "position"]).output;
    assert!(said.contains("the recording was not ended in order: it may be cut"));
}

#[test]
fn record_says_what_it_needs() {
    let ran = run(&["record", "--help"]);
    assert_eq!((ran.status, ran.errors.as_str()), (Some(0), ""));
    assert!(ran.output.contains("machhurel record arm --watch NAME"));
    if cfg!(target_arch = "x86_64") {
        // beside the tested command there is no recorder, nor on this PATH
        let mut command = command(&["record", "run", "-o", "x", "--", "true"]);
        let ran: Ran = command.env("PATH", "/nowhere").output().unwrap().into();
        assert_eq!(ran.status, Some(2));
        assert!(ran
            .errors
            .starts_with("machhurel: record: machhurel-record is neither beside"));
        return;
    }
    let ran = run(&["record", "run", "-o", "x", "--", "true"]);
    assert_eq!((ran.status, ran.output.as_str()), (Some(2), ""));
    assert_eq!(
        ran.errors,
        "machhurel: record: recording needs Linux on an x86-64 processor, which this is not\n"
    );
}
