//! What a watch says to other programs: rows of the same columns, as csv or as json.
use super::across::Across;
use super::answer::Answer;
use super::reasons::{Others, Reason, Why};
use super::touched::runs;
use crate::format::{csv_quoted, json_quoted, put, Kind};
use crate::line::Place;
use crate::number::Range;
use machhurel::{opcode_name, Event};

const COLUMNS: [&str; 11] = [
    "record", "to", "rip", "address", "size", "bytes", "count", "number", "opcode", "name",
    "reason",
];

/// What stands before the first row.
pub(super) fn header(kind: Kind) -> String {
    match kind {
        Kind::Csv => format!("trace,what,{}\n", COLUMNS.join(",")),
        Kind::Text | Kind::Json => String::new(),
    }
}

enum Value {
    Number(u64),
    Text(String),
}

/// A row: what it is, and the columns that it has.
struct Row {
    what: String,
    columns: Vec<(&'static str, Value)>,
}

impl Row {
    fn new(what: impl ToString) -> Row {
        Row {
            what: what.to_string(),
            columns: Vec::new(),
        }
    }

    fn number(mut self, name: &'static str, number: impl Into<Option<u64>>) -> Row {
        let value = number.into().map(Value::Number);
        self.columns.extend(value.map(|value| (name, value)));
        self
    }

    fn text(mut self, name: &'static str, text: impl Into<Option<String>>) -> Row {
        let value = text.into().map(Value::Text);
        self.columns.extend(value.map(|value| (name, value)));
        self
    }

    fn range(self, range: Option<Range>) -> Row {
        let last = range.map(|range| range.to.saturating_sub(1));
        self.number("record", range.map(|range| range.from))
            .number("to", last)
    }

    fn put(&self, out: &mut Vec<u8>, kind: Kind, trace: &str) {
        match kind {
            Kind::Json => self.put_json(out, trace),
            Kind::Csv | Kind::Text => self.put_csv(out, trace),
        }
    }

    fn put_json(&self, out: &mut Vec<u8>, trace: &str) {
        let trace = json_quoted(trace);
        put!(out, "{{\"trace\":{trace},\"what\":\"{}\"", self.what);
        for (name, value) in &self.columns {
            match value {
                Value::Number(number) => put!(out, ",\"{name}\":{number}"),
                Value::Text(text) => put!(out, ",\"{name}\":{}", json_quoted(text)),
            }
        }
        put!(out, "}}\n");
    }

    fn put_csv(&self, out: &mut Vec<u8>, trace: &str) {
        put!(out, "{},{}", csv_quoted(trace), self.what);
        for column in COLUMNS {
            out.push(b',');
            match self.columns.iter().find(|(name, _)| *name == column) {
                None => {}
                Some((_, Value::Number(number))) => put!(out, "{number}"),
                Some((_, Value::Text(text))) => put!(out, "{}", csv_quoted(text)),
            }
        }
        out.push(b'\n');
    }
}

pub(super) fn put_part(
    out: &mut Vec<u8>,
    kind: Kind,
    place: &Place<'_>,
    event: &Event,
    touched: u8,
) {
    let mut row = Row::new("part write")
        .number("record", place.record)
        .text("rip", place.rip.map(|rip| format!("{rip:#x}")));
    if let Event::MemoryWrite { address, size } = event {
        let address = address.map(|address| format!("0x{address:016x}"));
        row = row.text("address", address);
        row = row.number("size", u64::from(*size));
    }
    row.text("bytes", runs(touched, "-"))
        .put(out, kind, place.trace);
}

pub(super) fn put_further(out: &mut Vec<u8>, kind: Kind, trace: &str, record: u64) {
    let row = Row::new("further watch").number("record", record);
    row.put(out, kind, trace);
}

/// Counts; `over` stands before what is counted.
pub(super) fn put_answer(out: &mut Vec<u8>, kind: Kind, trace: &str, over: &str, answer: &Answer) {
    let row = |what: &str| Row::new(format!("{over}{what}"));
    let count = |what: &str, count: u64| row(what).number("count", count);
    let which = |what: &str, record: Option<u64>| record.map(|n| row(what).number("record", n));
    let tally = &answer.tally;
    let all = Some(answer.records()).filter(|_| answer.pairs > 0);
    let rows = [
        Some(row("pairs").range(all).number("count", answer.pairs)),
        Some(count("part writes", tally.part)),
        which("first part write", answer.first_part),
        Some(count("whole writes", tally.whole)),
        which("last whole write", answer.last_whole),
        Some(count("writes elsewhere", tally.none)),
        Some(count("writes at unknown addresses", tally.unknown)),
        Some(count("refused pairs", answer.refused)),
    ];
    for row in rows.iter().flatten() {
        row.put(out, kind, trace);
    }
}

pub(super) fn put_across(out: &mut Vec<u8>, kind: Kind, trace: &str, across: &Across) {
    Row::new("warning")
        .text("address", format!("0x{:016x}", across.address))
        .number("count", across.stores)
        .text("reason", across.to_string())
        .put(out, kind, trace);
}

/// A row for each range of records, and one for those that are in none.
pub(super) fn put_reason(out: &mut Vec<u8>, kind: Kind, trace: &str, reason: &Reason) {
    let of = |range: &Range| (Some(*range), range.count());
    let records = &reason.records;
    let more = Some((None, records.more)).filter(|_| records.more > 0);
    for (range, count) in records.ranges.iter().map(of).chain(more) {
        let row = Row::new("not complete").range(range).number("count", count);
        let row = match reason.why {
            Why::Unknown => row.text("reason", "a store at an unknown address".to_string()),
            Why::Refused(refused) => row
                .number("number", u64::from(refused.refusal.number()))
                .number("opcode", u64::from(refused.opcode))
                .text("name", opcode_name(refused.opcode).map(str::to_string))
                .text("reason", refused.refusal.reason().to_string()),
        };
        row.put(out, kind, trace);
    }
}

pub(super) fn put_others(out: &mut Vec<u8>, kind: Kind, trace: &str, others: &Others) {
    let row = Row::new("not complete").number("record", others.first);
    row.number("count", others.count)
        .text("reason", others.words.to_string())
        .put(out, kind, trace);
}
