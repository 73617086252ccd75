//! The tables of a page.
use super::super::reasons::Reasons;
use super::super::records::{self, Records};
use super::super::story::{Spot, Story};
use super::super::text::cause;
use super::pauses::{Pause, Pauses};
use super::sites::{Site, Sites};
use super::timeline::Timeline;
use super::words::{address, bytes, escaped, grouped, many};
use crate::format::put;
use machhurel::opcode_name;

/// So many ranges of records are named in a row.
const RANGES: usize = 6;
/// So many rows has the timeline's table.
const STRETCHES: usize = 16;

/// A table's beginning: its caption and the names of its columns; those that hold numbers end in #.
fn begin(out: &mut Vec<u8>, caption: &str, columns: &[&str]) {
    put!(out, "<table><caption>{caption}</caption>\n<thead><tr>");
    for column in columns {
        match column.strip_suffix('#') {
            Some(name) => put!(out, "<th scope=\"col\" class=\"n\">{name}</th>"),
            None => put!(out, "<th scope=\"col\">{column}</th>"),
        }
    }
    put!(out, "</tr></thead><tbody>\n");
}

fn end(out: &mut Vec<u8>) {
    put!(out, "</tbody></table>\n");
}

/// The first of these records, and how many more.
fn named(records: &Records) -> String {
    let shown: Vec<_> = records.ranges.iter().take(RANGES).copied().collect();
    let kept: u64 = shown.iter().map(|range| range.count()).sum();
    let more = match records.count.saturating_sub(kept) {
        0 => String::new(),
        n => format!(" and {} more", grouped(n)),
    };
    format!("{}{more}", records::words(&shown, records.count))
}

/// The bytes of the variable as boxes, and in words.
fn boxes(touched: u8, length: u64) -> String {
    let mut out = String::from("<span class=\"y\" aria-hidden=\"true\">");
    for byte in (0_u32..8).take_while(|byte| u64::from(*byte) < length) {
        let hit = touched.checked_shr(byte).unwrap_or(0) & 1 == 1;
        let tag = if hit { "b" } else { "i" };
        out.push_str(&format!("<{tag}>{byte}</{tag}>"));
    }
    format!("{out}</span> {}", bytes(touched))
}

/// Whose accesses a table has.
#[derive(Clone, Copy)]
pub(super) enum Whose {
    Writers,
    Readers,
}

pub(super) fn put_sites(
    out: &mut Vec<u8>,
    sites: &Sites,
    whose: Whose,
    length: u64,
    story: Option<&Story>,
) {
    let (what, caption) = match whose {
        Whose::Writers => (
            "Stores#",
            "Stores that wrote the variable, in the order in which they first came",
        ),
        Whose::Readers => (
            "Reads#",
            "Reads that touched the variable, in the order in which they first came",
        ),
    };
    let columns = [
        match story {
            None => "Next instruction at",
            Some(_) => "Source line",
        },
        "Opcode",
        "Memory",
        "Bytes of the variable",
        "Part or whole",
        what,
        "Records",
    ];
    begin(out, caption, &columns);
    for site in &sites.all {
        put_site(out, site, whose, length, story);
    }
    if sites.others > 0 {
        let others = grouped(sites.others);
        put!(
            out,
            "<tr><td colspan=\"5\">from further places</td><td class=\"n\">{others}</td><td></td></tr>\n"
        );
    }
    end(out);
}

/// Where an instruction stands in the program, and what it is.
fn spot_words(spot: &Spot) -> String {
    let short = |text: &str| escaped(&text.chars().take(60).collect::<String>());
    format!(
        "<b>{}</b> {}<br><code>{}</code>",
        short(&spot.name()),
        short(&spot.function),
        short(&spot.text)
    )
}

fn put_site(out: &mut Vec<u8>, site: &Site, whose: Whose, length: u64, story: Option<&Story>) {
    let first = &site.first;
    let spot = first.rip.and_then(|rip| story?.spot_before(rip));
    let rip = match (spot, first.rip) {
        (Some(spot), _) => spot_words(spot),
        (None, Some(rip)) => format!("<code>{rip:#x}</code>"),
        (None, None) => "not known".to_string(),
    };
    let opcode = match opcode_name(first.opcode) {
        Some(name) => format!("{}, {name}", first.opcode),
        None => first.opcode.to_string(),
    };
    let (class, verdict) = match (whose, site.whole) {
        (Whose::Writers, true) => ("good", "whole"),
        (Whose::Writers, false) => ("bad", "part"),
        (Whose::Readers, true) => ("", "whole"),
        (Whose::Readers, false) => ("", "part"),
    };
    put!(out, "<tr><td>{rip}</td><td>{opcode}</td>");
    put!(
        out,
        "<td><code>{}</code>, {}</td><td>{}</td>",
        address(first.address),
        many(u64::from(first.size), "byte"),
        boxes(first.bytes, length)
    );
    put!(
        out,
        "<td class=\"{class}\">{verdict}</td><td class=\"n\">{}</td><td>{}</td></tr>\n",
        grouped(site.count),
        named(&site.records)
    );
}

pub(super) fn put_timeline(out: &mut Vec<u8>, timeline: &Timeline, records: u64) {
    let columns = [
        "Records",
        "Part writes#",
        "Whole writes#",
        "Reads#",
        "Could hide a write#",
    ];
    begin(out, "The same in numbers", &columns);
    for (from, each, counts) in timeline.stretches(STRETCHES) {
        let last = from.saturating_add(each).min(records).saturating_sub(1);
        match from == last {
            true => put!(out, "<tr><td>{from}</td>"),
            false => put!(out, "<tr><td>{from} to {last}</td>"),
        }
        for count in counts {
            put!(out, "<td class=\"n\">{}</td>", grouped(count));
        }
        put!(out, "</tr>\n");
    }
    end(out);
}

pub(super) fn put_pauses(out: &mut Vec<u8>, pauses: &Pauses) {
    let columns = [
        "After a store of",
        "the next store is of",
        "How often#",
        "Records from one to the next#",
        "Reads in between#",
        "Could hide a store#",
    ];
    begin(out, "Store after store", &columns);
    for pause in &pauses.all {
        put_pause(out, pause);
    }
    if pauses.others > 0 {
        put!(
            out,
            "<tr><td colspan=\"2\">others</td><td class=\"n\">{}</td><td></td><td class=\"n\">{}</td><td></td></tr>\n",
            grouped(pauses.others),
            grouped(pauses.other_reads)
        );
    }
    end(out);
}

fn put_pause(out: &mut Vec<u8>, pause: &Pause) {
    let place = |touched: Option<u8>, none: &str| touched.map_or(none.to_string(), bytes);
    let distance = match pause.least == pause.most {
        true => grouped(pause.least),
        false => format!("{} to {}", grouped(pause.least), grouped(pause.most)),
    };
    put!(
        out,
        "<tr><td>{}</td><td>{}</td>",
        place(pause.after, "none: the trace begins"),
        place(pause.before, "none: the trace ends")
    );
    put!(
        out,
        "<td class=\"n\">{}</td><td class=\"n\">{distance}</td><td class=\"n\">{}</td><td class=\"n\">{}</td></tr>\n",
        grouped(pause.count),
        grouped(pause.reads),
        grouped(pause.hidden)
    );
}

pub(super) fn put_hidden(out: &mut Vec<u8>, reasons: &Reasons, damages: u64) {
    begin(
        out,
        "Records that may have written the variable",
        &["Cause", "How many#", "Which"],
    );
    let row = |out: &mut Vec<u8>, cause: &str, count: u64, which: &str| {
        put!(
            out,
            "<tr><td>{}</td><td class=\"n\">{}</td><td>{which}</td></tr>\n",
            escaped(cause),
            grouped(count)
        );
    };
    for reason in &reasons.all {
        let records = &reason.records;
        row(out, &cause(&reason.why), records.count, &named(records));
    }
    let others = &reasons.others;
    if let Some(first) = others.first {
        let which = format!("the first is record {first}");
        row(out, others.words, others.count, &which);
    }
    if damages > 0 {
        row(out, super::super::rows::DAMAGED, damages, "");
    }
    end(out);
}
