//! `fetch`: golden words, traces longer than a list, and damaged ones against a record by record reading.
mod common;
use common::{folder, golden, pipe, run, spoilt, torn, Ran, Random, TORN};
use machhurel::*;

#[test]
fn the_samples_in_each_format() {
    for (name, path) in [("torn", TORN), ("thread", "samples/thread.trace")] {
        for format in ["text", "csv", "json"] {
            let ran = run(&["fetch", "--format", format, path]);
            assert_eq!((ran.status, ran.errors.as_str()), (Some(0), ""));
            golden(&format!("{name}.fetch.{format}"), &ran.output);
        }
    }
}

#[test]
fn each_tried_trace_with_its_errors_and_status() {
    for format in ["text", "csv", "json"] {
        let mut told = String::new();
        for name in ["broken", "cut", "early", "empty", "field", "lea", "rip"] {
            let path = format!("cli/tests/data/{name}.trace");
            let ran = run(&["fetch", "--format", format, &path]);
            let status = ran.status.unwrap();
            assert_eq!(run(&["show", &path]).status, ran.status, "{name}");
            told += &format!("== {name}: status {status}\n{}{}", ran.output, ran.errors);
        }
        golden(&format!("tried.fetch.{format}"), &told);
    }
}

/// The records of a trace as far as it reads.
fn records(trace: &[u8]) -> Vec<&[u8]> {
    let items = Items::new(trace).map_while(Result::ok);
    let records = items.filter(|item| item.class == Class::Record);
    records.map(|item| item.bytes).collect()
}

/// What is said of a trace, by looking at each record alone.
fn expected(name: &str, trace: &[u8]) -> String {
    let records = records(trace);
    let (mut set, mut refused) = (RegisterSet(0), 0);
    for record in &records {
        set = set.union(fetch_propose(record, record.len()).unwrap());
        let mut log = [0; LOG_BYTES];
        refused += u32::from(visit(record, &RegisterFile::new(), &mut log, 0).is_err());
    }
    let names: Vec<_> = set
        .registers()
        .map(|register| register.to_string())
        .collect();
    format!(
        "{name},{},{refused},0x{:05x},{}\n",
        records.len(),
        set.0,
        names.join(";")
    )
}

fn piped(trace: &[u8]) -> Ran {
    pipe(&["fetch", "--format", "csv", "-"], trace)
}

const HEADER: &str = "trace,records,refused,set,registers\n";

#[test]
fn a_trace_longer_than_a_list_is_united() {
    let one = torn();
    // the last record of all needs r15, which no other does
    let last = Record::builder(40)
        .operand(Spec::Deref, Access::Read)
        .base(Register::quad(15))
        .memory_size(8)
        .build()
        .unwrap();
    for n in [99, 100, 101, 250] {
        let trace = [one.repeat(n), last.to_vec()].concat();
        let ran = piped(&trace);
        assert_eq!((ran.status, ran.errors.as_str()), (Some(0), ""));
        let said = format!(
            "standard input,{},{},0x08018,rbx;rsp;r15\n",
            10 * n + 1,
            2 * n
        );
        assert_eq!(ran.output, format!("{HEADER}{said}"));
        assert_eq!(expected("standard input", &trace), said);
    }
}

#[test]
fn damaged_traces_are_told_as_far_as_they_read() {
    let mut random = Random(0xFE7C_4ED0_5EED);
    let (mut failed, mut some) = (0, 0);
    for _ in 0..120 {
        let trace = spoilt(&mut random);
        let ran = piped(&trace);
        let said = expected("standard input", &trace);
        assert_eq!(ran.output, format!("{HEADER}{said}"));
        failed += u32::from(ran.status == Some(1));
        some += u32::from(!said.contains(",0x00000,"));
    }
    assert!(failed > 10 && some > 50, "{failed} {some}");
}

#[test]
fn several_traces_and_one_that_is_not_there() {
    let place = folder("fetch");
    let path = place.join("none.trace");
    let ran = run(&["fetch", TORN, path.to_str().unwrap(), TORN]);
    assert_eq!(ran.status, Some(1));
    assert_eq!(ran.output, run(&["fetch", TORN]).output.repeat(2));
    assert!(ran.errors.contains("cannot be opened"), "{}", ran.errors);
}
