//! `watch`: golden outputs, every status, and traces against a naive model over sets of bytes.
mod common;
use common::{command, folder, golden, pipe, run, spoilt, torn, Ran, Random, COMMAND, TORN};
use machhurel::*;
use std::fs::File;
use std::io::{BufRead, BufReader, BufWriter, Read, Write};
use std::process::{Command, Stdio};

fn watch(trace: &str, address: &str, length: &str) -> Ran {
    run(&["watch", trace, address, length])
}

#[test]
fn the_sample_in_each_format() {
    for format in ["text", "csv", "json"] {
        let ran = run(&["watch", TORN, "0x1008", "8", "--format", format]);
        assert_eq!((ran.status, ran.errors.as_str()), (Some(3), ""));
        golden(&format!("torn.watch.{format}"), &ran.output);
    }
}

#[test]
fn the_sample_names_records_0_and_2_and_record_3_as_whole() {
    let text = watch(TORN, "0x1008", "8").output;
    let torn_by: Vec<&str> = text
        .lines()
        .filter(|line| line.contains("  write ["))
        .collect();
    assert_eq!(torn_by.len(), 2);
    assert!(torn_by[0].starts_with("0  ") && torn_by[0].ends_with(": bytes 0 to 3 of 8"));
    assert!(torn_by[1].starts_with("2  ") && torn_by[1].ends_with(": bytes 4 to 7 of 8"));
    assert!(text.contains("1 store wrote all of it, the last in record 3\n"));
}

#[test]
fn every_status() {
    // torn; not torn and not complete, once by a record before any file; nothing to tear; damaged; none there; wrong usage
    for (trace, address, status) in [
        (TORN, "0x1008", 3),
        (TORN, "0x7ffdfff8", 4),
        ("cli/tests/data/early.trace", "0x1008", 4),
        ("cli/tests/data/lea.trace", "0x1008", 4),
        ("cli/tests/data/files.trace", "0x1008", 0),
        ("cli/tests/data/cut.trace", "0x1008", 1),
        ("cli/tests/data/bit_17.trace", "0x1008", 1),
        ("no.trace", "0x1008", 1),
        (TORN, "", 2),
    ] {
        let ran = watch(trace, address, "8");
        assert_eq!(ran.status, Some(status), "{trace} {address} {ran:?}");
        let incomplete = ran.output.contains("the answer is not complete");
        assert!(status != 0 || !incomplete, "{trace}");
        assert!(status != 4 || incomplete, "{trace}");
    }
    let trace = [&RegisterFile::new()[..], &store(Some(0x1008), 8)].concat();
    let whole = pipe(&["watch", "-", "0x1008", "8"], &trace);
    assert_eq!((whole.status, whole.errors.as_str()), (Some(0), ""));
}

#[test]
fn damage_wins_over_a_part_write_and_both_are_told() {
    let ran = pipe(&["watch", "-", "0x1008", "8"], &torn()[..200]);
    assert_eq!(ran.status, Some(1));
    assert!(ran
        .output
        .contains("1 store wrote part of it, the first in record 0\n"));
    assert!(ran
        .output
        .contains("  places of the trace that are damaged or cut: 1\n"));
    assert!(
        ran.errors.contains("byte 181, record 1: cut: "),
        "{}",
        ran.errors
    );
}

#[test]
fn the_tried_traces() {
    for format in ["text", "csv", "json"] {
        let mut told = String::new();
        for name in [
            "bit_17", "broken", "cut", "cut_file", "early", "empty", "field", "files", "lea", "rip",
        ] {
            let path = format!("cli/tests/data/{name}.trace");
            let ran = run(&["watch", &path, "0x100a", "4", "--format", format]);
            let status = ran.status.unwrap();
            told += &format!("== {name}: status {status}\n{}{}", ran.output, ran.errors);
        }
        golden(&format!("tried.watch.{format}"), &told);
    }
}

/// A store at an address, or at an unknown one.
fn store(address: Option<u64>, size: u8) -> Record {
    let store = Record::builder(40).memory_size(size);
    match address {
        Some(address) => store
            .operand(Spec::DispU64, Access::Write)
            .displacement(address as i64),
        None => store
            .operand(Spec::Deref, Access::Write)
            .base(Register::quad(7)),
    }
    .build()
    .unwrap()
}

/// What `watch` should say in text, from the logs and sets of bytes alone, and its status.
struct Model {
    lines: String,
    counts: [u64; 4],
    pairs: u64,
    refused: u64,
    first: Option<u64>,
    last: Option<u64>,
    reasons: Vec<(String, Vec<u64>)>,
    damages: u64,
}

fn modelled(trace: &[u8], address: u64, length: u64) -> Model {
    let mut model = Model {
        lines: String::new(),
        counts: [0; 4],
        pairs: 0,
        refused: 0,
        first: None,
        last: None,
        reasons: Vec::new(),
        damages: 0,
    };
    let mut file = Vec::new();
    for item in Items::new(trace) {
        match item {
            Err(_) => model.damages += 1,
            Ok(item) if item.class == Class::File => match check_file(item.bytes) {
                Ok(()) => file = item.bytes.to_vec(),
                Err(_) => model.damages += 1,
            },
            Ok(item) => {
                model.pair(item.bytes, &file, item.opcode().unwrap(), address, length);
                model.pairs += 1;
            }
        }
    }
    model
}

impl Model {
    fn because(&mut self, why: String) {
        let record = self.pairs;
        match self.reasons.iter_mut().find(|(words, _)| *words == why) {
            Some((_, records)) if records.last() == Some(&record) => {}
            Some((_, records)) => records.push(record),
            None => self.reasons.push((why, vec![record])),
        }
    }

    fn pair(&mut self, record: &[u8], file: &[u8], opcode: u16, address: u64, length: u64) {
        let mut log = [0; LOG_BYTES];
        let n = match visit(record, file, &mut log, 0) {
            Ok(n) => n,
            Err(refusal) => {
                self.refused += 1;
                let name = opcode_name(opcode).map_or(String::new(), |name| format!(", {name}"));
                let (number, reason) = (refusal.number(), refusal.reason());
                self.because(format!("refused {number}, opcode {opcode}{name}: {reason}"));
                return;
            }
        };
        let rip = known(file, Known::Rip).map_or("-".to_string(), |rip| format!("{rip:#x}"));
        for event in Events::new(&log[..n]) {
            let event = event.unwrap();
            let (at, size) = match event {
                Event::MemoryWrite { address: None, .. } => {
                    self.counts[0] += 1;
                    self.because("a store at an unknown address".to_string());
                    continue;
                }
                Event::MemoryWrite {
                    address: Some(at),
                    size,
                } => (at, u64::from(size)),
                _ => continue,
            };
            let stored: Vec<u64> = (0..size).map(|i| at.wrapping_add(i)).collect();
            let touched: Vec<u64> = (0..length)
                .filter(|i| stored.contains(&address.wrapping_add(*i)))
                .collect();
            match touched.len() as u64 {
                0 => self.counts[1] += 1,
                n if n == length => {
                    self.counts[3] += 1;
                    self.last = Some(self.pairs);
                }
                n => {
                    self.counts[2] += 1;
                    self.first = self.first.or(Some(self.pairs));
                    let (from, to) = (touched[0], touched[touched.len() - 1]);
                    assert_eq!(n, to - from + 1);
                    let bytes = match n {
                        1 => format!("byte {from}"),
                        _ => format!("bytes {from} to {to}"),
                    };
                    self.lines += &format!("{}  {rip}  {event}: {bytes} of {length}\n", self.pairs);
                }
            }
        }
    }

    fn status(&self) -> i32 {
        match (self.damages, self.counts[2], self.refused + self.counts[0]) {
            (1.., _, _) => 1,
            (_, 1.., _) => 3,
            (_, _, 1..) => 4,
            _ => 0,
        }
    }

    fn text(&self, address: u64, length: u64) -> String {
        let many = |n: u64, one: &str| format!("{n} {one}{}", if n == 1 { "" } else { "s" });
        let in_record = |n: Option<u64>, which: &str| {
            n.map_or(String::new(), |n| format!(", the {which} in record {n}"))
        };
        let mut text = self.lines.clone();
        let bytes = many(length, "byte");
        text += &format!(
            "the watch of {bytes} at 0x{address:016x}, {}",
            many(self.pairs, "pair")
        );
        let all: Vec<u64> = (0..self.pairs).collect();
        if self.pairs > 0 {
            text += &format!(", {}", ranges(&all));
        }
        let [unknown, none, part, whole] = self.counts.map(|n| many(n, "store"));
        text += &format!(
            "\n  {part} wrote part of it{}\n",
            in_record(self.first, "first")
        );
        text += &format!(
            "  {whole} wrote all of it{}\n",
            in_record(self.last, "last")
        );
        text += &format!("  {none} wrote none of it\n  {unknown} went to an unknown address\n");
        text += &format!("  {} refused\n", many(self.refused, "pair"));
        // bytes of the variable on both sides of a multiple of 64
        let line = |byte: u64| address.wrapping_add(byte) >> 6;
        if let (Some(before), 1..) = ((0..length).find(|k| line(*k) != line(0)), self.counts[3]) {
            let each = if self.counts[3] == 1 { "the" } else { "each" };
            let end = address.wrapping_add(before);
            text += &format!(
                "warning: the variable lies across the end of a cache line, {before} of its {length} bytes before 0x{end:016x}: \
                 {each} store that wrote all of it tears for a reader on another core\n"
            );
        }
        if !self.reasons.is_empty() || self.damages > 0 {
            text += "the answer is not complete: the variable may have been written where nobody can tell\n";
        }
        // 32 reasons are told apart, and an unknown address always is
        let told = |(k, reason): &(usize, &(String, Vec<u64>))| {
            *k < 32 || !reason.0.starts_with("refused")
        };
        for (_, (why, records)) in self.reasons.iter().enumerate().filter(told) {
            text += &format!("  {why}: {}\n", ranges(records));
        }
        let further = self.reasons.iter().enumerate().filter(|each| !told(each));
        let others: Vec<u64> = further.flat_map(|(_, (_, all))| all.clone()).collect();
        if let Some(first) = others.iter().min() {
            let n = others.len();
            text += &format!("  pairs refused with further opcodes, which `machhurel show` names: {n}, the first in record {first}\n");
        }
        if self.damages > 0 {
            text += &format!(
                "  places of the trace that are damaged or cut: {}\n",
                self.damages
            );
        }
        text
    }
}

fn ranges(records: &[u64]) -> String {
    let mut all: Vec<(u64, u64)> = Vec::new();
    for n in records {
        match all.last_mut() {
            Some((_, to)) if *to + 1 == *n => *to = *n,
            _ => all.push((*n, *n)),
        }
    }
    let word = |(from, to): &(u64, u64)| {
        if from == to {
            from.to_string()
        } else {
            format!("{from} to {to}")
        }
    };
    let kept: Vec<String> = all.iter().take(16).map(word).collect();
    let more: u64 = all.iter().skip(16).map(|(from, to)| to - from + 1).sum();
    let mut text = format!(
        "record{} {}",
        if records.len() == 1 { "" } else { "s" },
        kept.join(", ")
    );
    if more > 0 {
        text += &format!(" and {more} more");
    }
    text
}

fn agrees(trace: &[u8], address: u64, length: u64, jobs: &str, what: &str) -> i32 {
    let words = [&address.to_string(), &length.to_string()];
    let ran = pipe(&["watch", "-", words[0], words[1], "--jobs", jobs], trace);
    let model = modelled(trace, address, length);
    assert_eq!(ran.output, model.text(address, length), "{what}");
    assert_eq!(ran.status, Some(model.status()), "{what}");
    model.status()
}

#[test]
fn spoilt_traces_against_the_model() {
    let mut random = Random(0x5EED);
    let mut statuses = [0; 5];
    for round in 0..250 {
        let trace = spoilt(&mut random);
        let address = [0x1008, 0x100A, 0x7FFD_FFF8, 0x1000][random.below(4) as usize];
        let jobs = ["1", "2", "5"][random.below(3) as usize];
        let length = 1 + random.below(8);
        let status = agrees(&trace, address, length, jobs, &format!("round {round}"));
        statuses[status as usize] += 1;
    }
    assert!(
        [0, 1, 3, 4].iter().all(|k| statuses[*k] > 5),
        "{statuses:?}"
    );
}

#[test]
fn stores_around_two_to_the_64_against_the_model() {
    let mut random = Random(64);
    let mut statuses = [0; 5];
    for round in 0..150 {
        let variable = 0_u64.wrapping_sub(random.below(10));
        let mut trace = RegisterFile::new().with(Known::Rip, random.next()).to_vec();
        for _ in 0..random.below(8) {
            let address = variable.wrapping_add(random.below(140)).wrapping_sub(70);
            let size = [1, 2, 4, 8, 16, 32, 64][random.below(7) as usize];
            let known = random.below(12) > 0;
            trace.extend_from_slice(&store(Some(address).filter(|_| known), size));
        }
        let length = 1 + random.below(8);
        let status = agrees(&trace, variable, length, "1", &format!("round {round}"));
        statuses[status as usize] += 1;
    }
    assert!([0, 3, 4].iter().all(|k| statuses[*k] > 5), "{statuses:?}");
}

#[test]
fn a_variable_across_the_end_of_a_cache_line_is_warned_of_in_each_format() {
    let trace = [&RegisterFile::new()[..], &store(Some(0x103C), 8)].concat();
    let words = "the variable lies across the end of a cache line, 4 of its 8 bytes before 0x0000000000001040: \
                 the store that wrote all of it tears for a reader on another core";
    for (format, line) in [
        ("text", format!("warning: {words}")),
        (
            "csv",
            format!("standard input,warning,,,,0x0000000000001040,,,1,,,,\"{words}\""),
        ),
        (
            "json",
            format!("{{\"trace\":\"standard input\",\"what\":\"warning\",\"address\":\"0x0000000000001040\",\"count\":1,\"reason\":\"{words}\"}}"),
        ),
    ] {
        let ran = pipe(&["watch", "-", "0x103c", "8", "--format", format], &trace);
        assert_eq!(ran.status, Some(0));
        assert!(ran.output.lines().any(|each| each == line), "{}", ran.output);
        let beside = pipe(&["watch", "-", "0x103c", "4", "--format", format], &trace);
        assert!(!beside.output.contains("warning"), "{}", beside.output);
    }
}

#[test]
fn many_reasons_are_told_in_few_lines() {
    let mut trace = RegisterFile::new().to_vec();
    for k in 0..3_000_u16 {
        let mut record = store(Some(0), 1).to_vec();
        // the size is missing; 500 opcodes in turn, each time after a good record of the first
        record[16] = 0;
        record[1..3].copy_from_slice(&(40 + k % 500).to_le_bytes());
        trace.extend(record);
        trace.extend_from_slice(&store(Some(0), 1));
    }
    trace.extend_from_slice(&store(None, 8));
    assert_eq!(agrees(&trace, 0x1008, 8, "1", "many"), 4);
    let ran = pipe(&["watch", "-", "0x1008", "8"], &trace);
    assert!(ran.output.len() < 8_000, "{}", ran.output.len());
}

/// A million and three records, four of them part writes of 0x1008: at the ends of the first watch and of the second.
fn long(path: &std::path::Path) {
    let (part, whole, beside) = (
        store(Some(0x100C), 4),
        store(Some(0x1008), 8),
        store(Some(0x10), 8),
    );
    let mut out = BufWriter::new(File::create(path).unwrap());
    out.write_all(&RegisterFile::new()).unwrap();
    for k in 0..WATCH_PAIRS + 3 {
        let record = match k {
            0 | 999_999 | 1_000_000 | 1_000_002 => &part,
            5 | 1_000_001 => &whole,
            _ => &beside,
        };
        out.write_all(record).unwrap();
    }
    out.flush().unwrap();
}

#[test]
fn over_a_million_pairs_a_further_watch_goes_on_and_jobs_change_nothing() {
    let path = folder("watch").join("long.trace");
    long(&path);
    for format in ["text", "csv", "json"] {
        let jobs = |n: &str| -> Ran {
            let mut command = command(&[
                "watch",
                "long.trace",
                "0x1008",
                "8",
                "--jobs",
                n,
                "--format",
                format,
            ]);
            let command = command.current_dir(path.parent().unwrap());
            command.stdin(Stdio::null()).output().unwrap().into()
        };
        let alone = jobs("1");
        assert_eq!((alone.status, alone.errors.as_str()), (Some(3), ""));
        golden(&format!("long.watch.{format}"), &alone.output);
        for n in ["2", "3", "64"] {
            let several = jobs(n);
            assert_eq!(
                (several.status, several.output),
                (alone.status, alone.output.clone()),
                "{n}"
            );
        }
    }
    // as a pipe it is cut elsewhere, and says the same
    let mut shell = Command::new("sh");
    shell.args([
        "-c",
        "ulimit -v 65536; \"$0\" watch - 0x1008 8 <long.trace",
        COMMAND,
    ]);
    let ran: Ran = shell
        .current_dir(path.parent().unwrap())
        .output()
        .unwrap()
        .into();
    assert_eq!(ran.status, Some(3));
    let kept =
        std::fs::read_to_string(common::top().join("cli/tests/golden/long.watch.text")).unwrap();
    assert_eq!(ran.output, kept);
    std::fs::remove_file(&path).unwrap();
}

#[test]
fn a_million_pairs_are_one_watch() {
    let path = folder("watch_million").join("million.trace");
    let mut trace = RegisterFile::new().to_vec();
    trace.extend(store(Some(0x1008), 8).repeat(WATCH_PAIRS as usize));
    std::fs::write(&path, &trace).unwrap();
    let ran = watch(path.to_str().unwrap(), "0x1008", "8");
    assert_eq!(ran.status, Some(0), "{}", ran.output);
    assert!(ran.output.starts_with(
        "the watch of 8 bytes at 0x0000000000001008, 1000000 pairs, records 0 to 999999\n"
    ));
    assert!(!ran.output.contains("further"));
    std::fs::remove_file(&path).unwrap();
}

#[test]
fn register_files_without_records_take_no_memory() {
    let place = folder("watch_files");
    let mut trace = RegisterFile::new().with(Known::Rip, 7).repeat(600_000);
    trace.extend_from_slice(&store(Some(0x1008), 4));
    std::fs::write(place.join("files.trace"), &trace).unwrap();
    let mut shell = Command::new("sh");
    let script = "ulimit -v 65536; exec \"$0\" watch files.trace 0x1008 8";
    shell.args(["-c", script, COMMAND]).current_dir(&place);
    let ran: Ran = shell.output().unwrap().into();
    assert_eq!((ran.status, ran.errors.as_str()), (Some(3), ""));
    let first = "0  0x7  write [0x0000000000001008] 4 bytes: bytes 0 to 3 of 8\n";
    assert!(ran.output.starts_with(first), "{}", ran.output);
    std::fs::remove_dir_all(&place).unwrap();
}

#[test]
fn many_jobs_over_files_that_change_say_what_one_says() {
    let path = folder("watch_jobs").join("mixed.trace");
    std::fs::write(&path, torn().repeat(5_000)).unwrap();
    let name = path.to_str().unwrap();
    let alone = watch(name, "0x1008", "8");
    assert_eq!(alone.output.matches("  write [").count(), 10_000);
    for n in ["2", "7"] {
        let several = run(&["watch", name, "0x1008", "8", "--jobs", n]);
        assert_eq!(
            (several.status, several.output == alone.output),
            (Some(3), true),
            "{n}"
        );
    }
    std::fs::remove_file(&path).unwrap();
}

#[test]
fn a_reader_that_goes_away_ends_it_quietly() {
    let path = folder("watch_head").join("long.trace");
    std::fs::write(&path, torn().repeat(20_000)).unwrap();
    let mut command = command(&["watch", path.to_str().unwrap(), "0x1008", "8"]);
    let mut child = command
        .stdout(Stdio::piped())
        .stderr(Stdio::piped())
        .spawn()
        .unwrap();
    let mut line = String::new();
    BufReader::new(child.stdout.take().unwrap())
        .read_line(&mut line)
        .unwrap();
    assert_eq!(
        line,
        "0  -  write [0x0000000000001008] 4 bytes: bytes 0 to 3 of 8\n"
    );
    let ended = child.wait_with_output().unwrap();
    assert_eq!(
        (ended.status.code(), ended.stderr.as_slice()),
        (Some(3), &[][..])
    );
    std::fs::remove_file(&path).unwrap();
}

#[test]
fn what_has_come_is_told_before_the_rest_comes() {
    for jobs in ["1", "4"] {
        let mut command = command(&["watch", "-", "0x1008", "8", "--jobs", jobs]);
        let mut child = command
            .stdin(Stdio::piped())
            .stdout(Stdio::piped())
            .spawn()
            .unwrap();
        let mut input = child.stdin.take().unwrap();
        let mut output = BufReader::new(child.stdout.take().unwrap());
        let trace = torn();
        // a register file, a record, and a part of the next
        input.write_all(&trace[..200]).unwrap();
        let mut line = String::new();
        output.read_line(&mut line).unwrap();
        assert!(line.starts_with("0  -  write ["));
        input.write_all(&trace[200..]).unwrap();
        drop(input);
        output.read_to_string(&mut line).unwrap();
        assert_eq!(child.wait().unwrap().code(), Some(3));
        assert_eq!(line, watch(TORN, "0x1008", "8").output);
    }
}
