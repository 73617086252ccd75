//! The timeline as a picture.
use super::picture::Picture;
use super::timeline::{Column, Lane, Timeline, LANES};
use super::words::{grouped, many};
use crate::format::put;

/// The picture's units: where the lanes begin, how long they are, how high one is, and from one to the next.
const LEFT: f64 = 150.0;
const LONG: f64 = 874.0;
const HIGH: f64 = 24.0;
const PITCH: f64 = 38.0;
/// A mark is no lower than this.
const LOW: f64 = 4.0;
/// Where there are fewer columns than this, marks are as thin as with so many.
const THIN: f64 = 60.0;
/// So many numbers stand below.
const NUMBERS: u64 = 5;

/// What is shown, from above: its name, and the class of its marks.
const ROWS: [(Lane, &str, &str); LANES] = [
    (Lane::Part, "part writes", "p"),
    (Lane::Whole, "whole writes", "w"),
    (Lane::Read, "reads", "r"),
    (Lane::Hidden, "could hide a write", "h"),
];

fn count(column: &Column, lane: Lane) -> u64 {
    column.get(lane as usize).copied().unwrap_or(0)
}

/// What a column stands for.
pub(super) fn scale(timeline: &Timeline) -> String {
    match timeline.records_each {
        1 => "Each column is one record.".to_string(),
        n => format!(
            "Each column stands for {} records, and its mark is the higher the more it counts: nothing is left out, but the order within a \
             column cannot be seen.",
            grouped(n)
        ),
    }
}

pub(super) fn put(out: &mut Vec<u8>, picture: &Picture, records: u64) {
    let timeline = &picture.timeline;
    let total = |lane| -> u64 {
        let counts = timeline.columns.iter().map(|column| count(column, lane));
        counts.fold(0, u64::saturating_add)
    };
    let height = PITCH * ROWS.len() as f64 + 22.0;
    put!(
        out,
        "<svg viewBox=\"0 0 1040 {height:.0}\" role=\"img\" aria-labelledby=\"tt td\"><title id=\"tt\">Writes and reads of the variable over \
         the trace</title><desc id=\"td\">{}: {}, {}, {} and {}. {} The table below has the numbers.</desc>\n",
        many(records, "record"),
        many(total(Lane::Part), "part write"),
        many(total(Lane::Whole), "whole write"),
        many(total(Lane::Read), "read"),
        many(total(Lane::Hidden), "time") + " at which a write could be hidden",
        scale(timeline)
    );
    for (k, (lane, name, class)) in ROWS.into_iter().enumerate() {
        put_lane(out, timeline, lane, name, class, PITCH * k as f64 + 8.0);
    }
    put_numbers(out, timeline, records, height - 6.0);
    put!(out, "</svg>\n");
}

fn put_lane(out: &mut Vec<u8>, timeline: &Timeline, lane: Lane, name: &str, class: &str, top: f64) {
    let highest = timeline.columns.iter().map(|column| count(column, lane));
    let highest = highest.max().unwrap_or(0);
    let used = timeline.columns.len() as f64;
    let below = top + HIGH;
    put!(
        out,
        "<text x=\"0\" y=\"{:.0}\">{name}</text><text class=\"s\" x=\"0\" y=\"{:.0}\">{}</text>\
         <path class=\"l\" d=\"M{LEFT:.0} {below:.0}h{LONG:.0}\"/>\n",
        top + 11.0,
        top + 25.0,
        match highest {
            0 => "none".to_string(),
            n => format!("up to {} a column", grouped(n)),
        }
    );
    if highest == 0 {
        return;
    }
    put!(
        out,
        "<svg x=\"{LEFT:.0}\" y=\"{top:.0}\" width=\"{LONG:.0}\" height=\"{HIGH:.0}\" viewBox=\"0 0 {used:.0} {HIGH:.0}\" \
         preserveAspectRatio=\"none\"><path class=\"{class}\" d=\""
    );
    put_marks(out, timeline, lane, highest);
    put!(out, "\"/></svg>\n");
}

fn put_marks(out: &mut Vec<u8>, timeline: &Timeline, lane: Lane, highest: u64) {
    let used = timeline.columns.len() as f64;
    let wide = (used / THIN).min(1.0) * 0.9;
    for (k, column) in timeline.columns.iter().enumerate() {
        let count = count(column, lane);
        if count == 0 {
            continue;
        }
        let high = LOW + (HIGH - LOW) * (count as f64 / highest as f64);
        let from = k as f64;
        // where there are many, a mark begins with its column, and the page is shorter
        match used < THIN {
            true => put!(
                out,
                "M{:.2} {HIGH:.0}v-{high:.0}h{wide:.2}v{high:.0}z",
                from + (1.0 - wide) / 2.0
            ),
            false => put!(out, "M{from:.0} {HIGH:.0}v-{high:.0}h{wide:.1}v{high:.0}z"),
        }
    }
}

/// Numbers of records below.
fn put_numbers(out: &mut Vec<u8>, timeline: &Timeline, records: u64, y: f64) {
    let used = timeline.columns.len() as u64;
    let mut before = None;
    let last = used.saturating_sub(1);
    for k in 0..NUMBERS {
        let parts = NUMBERS.saturating_sub(1);
        let column = last.saturating_mul(k).checked_div(parts).unwrap_or(0);
        if before == Some(column) {
            continue;
        }
        before = Some(column);
        let record = column.saturating_mul(timeline.records_each);
        let x = LEFT + LONG * (column as f64 + 0.5) / used as f64;
        // the last record ends where the picture does
        let (record, x, anchor) = match column == last && used as f64 >= THIN {
            true => (records.saturating_sub(1), LEFT + LONG, "end"),
            false => (record, x, "middle"),
        };
        put!(
            out,
            "<text class=\"s\" x=\"{x:.0}\" y=\"{y:.0}\" text-anchor=\"{anchor}\">{record}</text>"
        );
    }
    put!(
        out,
        "<text class=\"s\" x=\"0\" y=\"{y:.0}\">record</text>\n"
    );
}
