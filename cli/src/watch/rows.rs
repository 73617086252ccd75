//! What a watch says, in each format.
use super::across::Across;
use super::answer::Answer;
use super::reasons::{Others, Reasons};
pub(super) use super::table::header;
use super::{table, text};
use crate::format::Kind;
use crate::line::Place;
use machhurel::{Event, Watch};

/// A store that wrote part of the variable, and which of its bytes.
pub(super) fn put_part(
    out: &mut Vec<u8>,
    kind: Kind,
    place: &Place<'_>,
    event: &Event,
    touched: u8,
    length: u64,
) {
    match kind {
        Kind::Text => text::put_part(out, place, event, touched, length),
        Kind::Csv | Kind::Json => table::put_part(out, kind, place, event, touched),
    }
}

/// A watch is full, and a further one begins with a record.
pub(super) fn put_further(out: &mut Vec<u8>, kind: Kind, trace: &str, record: u64) {
    match kind {
        Kind::Text => text::put_further(out, record),
        Kind::Csv | Kind::Json => table::put_further(out, kind, trace, record),
    }
}

/// What is counted over.
#[derive(Clone, Copy)]
pub(super) enum Over {
    /// The only watch.
    Trace,
    /// One of several.
    One,
    /// All of several.
    All,
}

/// The counts, and the first and the last record.
pub(super) fn put_answer(
    out: &mut Vec<u8>,
    kind: Kind,
    trace: &str,
    watch: &Watch,
    over: Over,
    answer: &Answer,
) {
    let (words, before) = match over {
        Over::Trace => ("the watch", ""),
        Over::One => ("this watch", "this watch: "),
        Over::All => ("all watches", ""),
    };
    if kind != Kind::Text {
        table::put_answer(out, kind, trace, before, answer);
        return;
    }
    let length = watch.length();
    let bytes = if length == 1 { "byte" } else { "bytes" };
    let words = format!("{words} of {length} {bytes} at 0x{:016x}", watch.address());
    text::put_answer(out, &words, answer);
}

/// A warning where stores of all of the variable reach over the end of a cache line.
pub(super) fn put_across(
    out: &mut Vec<u8>,
    kind: Kind,
    trace: &str,
    watch: &Watch,
    answer: &Answer,
) {
    match (Across::of(watch, answer), kind) {
        (None, _) => {}
        (Some(across), Kind::Text) => text::put_across(out, &across),
        (Some(across), Kind::Csv | Kind::Json) => table::put_across(out, kind, trace, &across),
    }
}

pub(super) const DAMAGED: &str = "places of the trace that are damaged or cut";

/// That the answer is not complete, and why: nothing where it is.
pub(super) fn put_reasons(
    out: &mut Vec<u8>,
    kind: Kind,
    trace: &str,
    reasons: &Reasons,
    damages: u64,
) {
    let damaged = Others {
        words: DAMAGED,
        count: damages,
        first: None,
    };
    if kind == Kind::Text && (!reasons.all.is_empty() || damages > 0) {
        text::put_incomplete(out);
    }
    for reason in &reasons.all {
        match kind {
            Kind::Text => text::put_reason(out, reason),
            Kind::Csv | Kind::Json => table::put_reason(out, kind, trace, reason),
        }
    }
    for others in [&reasons.others, &damaged] {
        match kind {
            _ if others.count == 0 => {}
            Kind::Text => text::put_others(out, others),
            Kind::Csv | Kind::Json => table::put_others(out, kind, trace, others),
        }
    }
}
