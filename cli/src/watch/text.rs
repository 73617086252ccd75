//! What a watch says to people.
use super::across::Across;
use super::answer::Answer;
use super::reasons::{Others, Reason, Why};
use super::records;
use super::touched::runs;
use crate::format::{put, Kind};
use crate::line::Place;
use machhurel::{opcode_name, Event, WATCH_PAIRS};

fn many(n: u64, one: &str) -> String {
    format!("{n} {one}{}", if n == 1 { "" } else { "s" })
}

pub(super) fn put_part(
    out: &mut Vec<u8>,
    place: &Place<'_>,
    event: &Event,
    touched: u8,
    length: u64,
) {
    Kind::Text.lines(false).place(out, place);
    let bytes = match touched.count_ones() {
        1 => "byte",
        _ => "bytes",
    };
    put!(
        out,
        "{event}: {bytes} {} of {length}\n",
        runs(touched, " to ")
    );
}

pub(super) fn put_further(out: &mut Vec<u8>, record: u64) {
    put!(out, "a watch takes {WATCH_PAIRS} pairs: ");
    put!(
        out,
        "a further watch of the same variable begins with record {record}\n"
    );
}

/// Counts; `over` says of what.
pub(super) fn put_answer(out: &mut Vec<u8>, over: &str, answer: &Answer) {
    let tally = &answer.tally;
    put!(out, "{over}, {}", many(answer.pairs, "pair"));
    if answer.pairs > 0 {
        put!(
            out,
            ", {}",
            records::words(&[answer.records()], answer.pairs)
        );
    }
    put!(out, "\n  {} wrote part of it", many(tally.part, "store"));
    if let Some(record) = answer.first_part {
        put!(out, ", the first in record {record}");
    }
    put!(out, "\n  {} wrote all of it", many(tally.whole, "store"));
    if let Some(record) = answer.last_whole {
        put!(out, ", the last in record {record}");
    }
    put!(out, "\n  {} wrote none of it", many(tally.none, "store"));
    let unknown = many(tally.unknown, "store");
    put!(out, "\n  {unknown} went to an unknown address");
    put!(out, "\n  {} refused\n", many(answer.refused, "pair"));
}

pub(super) fn put_across(out: &mut Vec<u8>, across: &Across) {
    put!(out, "warning: {across}\n");
}

pub(super) fn put_incomplete(out: &mut Vec<u8>) {
    put!(
        out,
        "the answer is not complete: the variable may have been written where nobody can tell\n"
    );
}

/// Why nobody can tell what a record did.
pub(super) fn cause(why: &Why) -> String {
    match why {
        Why::Unknown => "a store at an unknown address".to_string(),
        Why::Refused(refused) => {
            let (refusal, opcode) = (refused.refusal, refused.opcode);
            let name = opcode_name(opcode).map_or(String::new(), |name| format!(", {name}"));
            let (number, reason) = (refusal.number(), refusal.reason());
            format!("refused {number}, opcode {opcode}{name}: {reason}")
        }
    }
}

pub(super) fn put_reason(out: &mut Vec<u8>, reason: &Reason) {
    let records = &reason.records;
    let which = records::words(&records.ranges, records.count);
    put!(out, "  {}: {which}", cause(&reason.why));
    if records.more > 0 {
        put!(out, " and {} more", records.more);
    }
    put!(out, "\n");
}

pub(super) fn put_others(out: &mut Vec<u8>, others: &Others) {
    put!(out, "  {}: {}", others.words, others.count);
    if let Some(record) = others.first {
        put!(out, ", the first in record {record}");
    }
    put!(out, "\n");
}
