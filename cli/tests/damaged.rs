//! Cut and random traces: what is told is what the library answers, record by record, and nothing is left out.
mod common;
use common::{pipe, run, spoilt, torn, Random, TORN};
use machhurel::*;

/// What `show` should print, from the library alone, and whether the trace is whole.
fn expected(trace: &[u8]) -> (String, bool) {
    let (mut text, mut file, mut record, mut whole) = (String::new(), Vec::new(), 0, true);
    for item in Items::new(trace) {
        let item = match item {
            Ok(item) => item,
            Err(_) => {
                whole = false;
                break;
            }
        };
        let rip = known(&file, Known::Rip).map_or("-".to_string(), |rip| format!("{rip:#x}"));
        if item.class == Class::File {
            match check_file(item.bytes) {
                Ok(()) => file = item.bytes.to_vec(),
                Err(refusal) => {
                    text += &format!("{record}  {rip}  register file {refusal}; not used\n");
                    whole = false;
                }
            }
            continue;
        }
        let mut log = [0; LOG_BYTES];
        let lines: Vec<String> = match visit(item.bytes, &file, &mut log, 0) {
            Err(refusal) => vec![refusal.of_opcode(item.opcode().unwrap()).to_string()],
            Ok(0) => vec!["touches nothing".to_string()],
            Ok(n) => Events::new(&log[..n])
                .map(|event| event.unwrap().to_string())
                .collect(),
        };
        for line in lines {
            text += &format!("{record}  {rip}  {line}\n");
        }
        record += 1;
    }
    (text, whole)
}

#[test]
fn random_traces() {
    let mut random = Random(0x9E37_79B9_7F4A_7C15);
    let (mut refused, mut broken) = (0, 0);
    for round in 0..400 {
        let trace = spoilt(&mut random);
        let ran = pipe(&["show", "-"], &trace);
        let (text, whole) = expected(&trace);
        assert_eq!(ran.output, text, "round {round}");
        assert_eq!(
            ran.status,
            Some(i32::from(!whole)),
            "round {round}: {}",
            ran.errors
        );
        refused += text.matches("  refused ").count();
        broken += usize::from(!whole);
    }
    assert!(refused > 1_000 && broken > 50, "{refused} {broken}");
}

#[test]
fn random_bytes() {
    let mut random = Random(7);
    for _ in 0..100 {
        let bytes: Vec<u8> = (0..random.below(2_000))
            .map(|_| random.next() as u8)
            .collect();
        for command in ["show", "summary"] {
            let ran = pipe(&[command, "-"], &bytes);
            assert_eq!(
                ran.status,
                Some(i32::from(!expected(&bytes).1)),
                "{bytes:?}"
            );
        }
    }
}

#[test]
fn every_cut_of_the_sample() {
    let trace = torn();
    let whole = run(&["show", TORN]).output;
    let ends: Vec<u64> = Items::new(&trace).map(|item| item.unwrap().at).collect();
    for n in (0..trace.len()).step_by(7).chain([140, 141, 180, 181]) {
        let ran = pipe(&["show", "-"], &trace[..n]);
        assert!(whole.starts_with(&ran.output), "{n}");
        let at_an_end = ends.contains(&(n as u64));
        assert_eq!(ran.status, Some(i32::from(!at_an_end)), "{n}");
        assert_eq!(ran.errors.contains(": cut: "), !at_an_end, "{n}");
    }
}

#[test]
fn nothing_refused_is_left_out_of_a_summary() {
    let mut random = Random(99);
    for _ in 0..50 {
        let trace = spoilt(&mut random);
        let ran = pipe(&["summary", "--format", "csv", "-"], &trace);
        let counts = |what: &str| -> usize {
            let rows = ran
                .output
                .lines()
                .filter(|line| line.split(',').nth(1) == Some(what));
            rows.map(|line| line.rsplit(',').next().unwrap().parse::<usize>().unwrap())
                .sum()
        };
        let text = expected(&trace).0;
        let records: std::collections::HashSet<&str> = text
            .lines()
            .filter(|line| !line.contains("register file refused"))
            .map(|line| line.split(' ').next().unwrap())
            .collect();
        assert_eq!(counts("records by refusal"), records.len());
        assert_eq!(
            counts("events"),
            text.lines()
                .filter(|l| l.contains("  read ") || l.contains("  write "))
                .count()
        );
    }
}
