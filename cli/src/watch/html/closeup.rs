//! A change of the variable byte by byte: as a picture, and step by step in words.
use super::super::moment::{Moment, Touch};
use super::super::story::{Met, Story};
use super::super::text::cause;
use super::changes::Change;
use super::words::{bytes, escaped, grouped, many};
use crate::format::put;

/// The picture's units: where the bytes begin, how long they are, the first byte's top, and how high one is.
const LEFT: f64 = 80.0;
const LONG: f64 = 944.0;
const TOP: f64 = 24.0;
const ROW: f64 = 15.0;
/// So many colours are for stores, in turn.
const COLOURS: usize = 4;

/// A step of a close-up.
enum Step<'a> {
    Moment(&'a Moment),
    /// So many moments are left out.
    Gap(u64),
}

fn steps(change: &Change) -> Vec<Step<'_>> {
    let mut steps: Vec<Step<'_>> = change.moments.iter().map(Step::Moment).collect();
    if change.more > 0 {
        steps.push(Step::Gap(change.more));
    }
    steps.extend(change.end.iter().map(Step::Moment));
    steps
}

/// Who stored a byte last.
#[derive(Clone, Copy, PartialEq, Eq)]
enum Owner {
    /// Nobody since the change began.
    Before,
    /// The step with this number.
    Step(usize),
    /// One of those that are left out, perhaps.
    Gap,
}

/// Who stored each byte last, after each step.
fn owners(steps: &[Step<'_>], length: u64) -> Vec<Vec<Owner>> {
    let start: Vec<Owner> = (0..length).map(|_| Owner::Before).collect();
    let mut all = vec![start.clone()];
    let mut now = start;
    for (k, step) in steps.iter().enumerate() {
        match step {
            Step::Moment(Moment::Part(touch) | Moment::Whole(touch)) => {
                for (byte, owner) in now.iter_mut().enumerate() {
                    if has(touch.bytes, byte) {
                        *owner = Owner::Step(k.saturating_add(1));
                    }
                }
            }
            Step::Gap(_) => now.fill(Owner::Gap),
            Step::Moment(_) => {}
        }
        all.push(now.clone());
    }
    all
}

fn has(touched: u8, byte: usize) -> bool {
    let byte = u32::try_from(byte).unwrap_or(u32::MAX);
    touched.checked_shr(byte).unwrap_or(0) & 1 == 1
}

/// A close-up: its heading, its picture and its words.
pub(super) fn put(
    out: &mut Vec<u8>,
    change: &Change,
    number: usize,
    length: u64,
    story: Option<&Story>,
) {
    let steps = steps(change);
    let owners = owners(&steps, length);
    let heading = heading(change, &steps);
    put!(out, "<div class=\"card\"><h3>{heading}</h3>\n");
    let height = TOP + ROW * length as f64 + 40.0;
    put!(
        out,
        "<svg viewBox=\"0 0 1040 {height:.0}\" role=\"img\" aria-labelledby=\"c{number} d{number}\"><title id=\"c{number}\">{heading}, byte by \
         byte</title><desc id=\"d{number}\">{} of the variable, and which step stored each last. The steps are listed below.</desc>\n",
        many(length, "byte")
    );
    for byte in 0..length {
        let y = TOP + ROW * byte as f64 + 11.0;
        put!(
            out,
            "<text class=\"s m\" x=\"72\" y=\"{y:.0}\" text-anchor=\"end\">byte {byte}</text>"
        );
    }
    put!(out, "\n");
    put_bytes(out, &steps, &owners);
    put_marks(out, &steps, length);
    put!(out, "</svg>\n<ol>\n");
    for (k, step) in steps.iter().enumerate() {
        let owners = owners.get(k).map_or(&[][..], Vec::as_slice);
        put_step(out, step, owners, story);
    }
    put!(out, "</ol></div>\n");
}

fn heading(change: &Change, steps: &[Step<'_>]) -> String {
    let record = |step: Option<&Step<'_>>| match step {
        Some(Step::Moment(Moment::Part(touch) | Moment::Whole(touch) | Moment::Read(touch))) => {
            touch.record
        }
        Some(Step::Moment(Moment::Hidden(record, _))) => *record,
        _ => 0,
    };
    let first = record(steps.first());
    let met = match change.met {
        true => ": a read met old bytes and new ones",
        false => "",
    };
    match change.ended {
        true => format!("Records {first} to {}{met}", record(steps.last())),
        false => format!("From record {first} on{met}; the rest was not stored"),
    }
}

/// Where a step stands.
fn at(step: usize, steps: usize) -> f64 {
    LEFT + LONG * (step as f64 + 1.0) / (steps as f64 + 1.0)
}

/// The stretch of each byte from one store to the next, one path for each colour.
fn put_bytes(out: &mut Vec<u8>, steps: &[Step<'_>], owners: &[Vec<Owner>]) {
    let edge = |k: usize| match k.checked_sub(1) {
        None => LEFT,
        Some(step) => at(step, steps.len()),
    };
    let mut paths = vec![String::new(); COLOURS.saturating_add(2)];
    for byte in 0..owners.first().map_or(0, Vec::len) {
        let y = TOP + ROW * byte as f64;
        let mut from = 0;
        for k in 0..owners.len() {
            let owner = |k: usize| owners.get(k).and_then(|all| all.get(byte)).copied();
            let next = k.saturating_add(1);
            if owner(k) == owner(next) {
                continue;
            }
            let (x, wide) = (edge(from), edge(next) - edge(from));
            // behind the last step all goes on to the end
            let wide = if next == owners.len() {
                LEFT + LONG - x
            } else {
                wide
            };
            let path = owner(k).and_then(|owner| paths.get_mut(colour(owner)));
            if let Some(path) = path {
                path.push_str(&format!("M{x:.0} {y:.0}h{wide:.0}v13h-{wide:.0}z"));
            }
            from = next;
        }
    }
    for (k, path) in paths.iter().enumerate().filter(|(_, d)| !d.is_empty()) {
        put!(out, "<path class=\"c{k}\" d=\"{path}\"/>\n");
    }
}

/// Before, left out, and the colours of stores in turn.
fn colour(owner: Owner) -> usize {
    match owner {
        Owner::Before => 0,
        Owner::Gap => 1,
        Owner::Step(k) => k
            .saturating_sub(1)
            .checked_rem(COLOURS)
            .unwrap_or(0)
            .saturating_add(2),
    }
}

/// The line of each step, its number and what it is above, its record below.
fn put_marks(out: &mut Vec<u8>, steps: &[Step<'_>], length: u64) {
    let below = TOP + ROW * length as f64;
    for (k, step) in steps.iter().enumerate() {
        let x = at(k, steps.len());
        let number = k.saturating_add(1);
        let (class, word, record) = match step {
            Step::Moment(Moment::Part(touch) | Moment::Whole(touch)) => {
                ("v", "store", Some(touch.record))
            }
            Step::Moment(Moment::Read(touch)) => ("v e", "read", Some(touch.record)),
            Step::Moment(Moment::Hidden(record, _)) => ("v h", "?", Some(*record)),
            Step::Moment(Moment::ReadSomewhere) | Step::Gap(_) => ("v h", "..", None),
        };
        put!(
            out,
            "<path class=\"{class}\" d=\"M{x:.0} 18V{:.0}\"/><text x=\"{x:.0}\" y=\"14\" text-anchor=\"middle\">{number} {word}</text>",
            below + 6.0
        );
        if let Some(record) = record {
            put!(
                out,
                "<text class=\"s\" x=\"{x:.0}\" y=\"{:.0}\" text-anchor=\"middle\">{record}</text>",
                below + 20.0
            );
        }
        put!(out, "\n");
    }
    put!(
        out,
        "<text class=\"s\" x=\"72\" y=\"{:.0}\" text-anchor=\"end\">record</text>\n",
        below + 20.0
    );
}

/// A step in words; `owners` is who stored each byte before it.
fn put_step(out: &mut Vec<u8>, step: &Step<'_>, owners: &[Owner], story: Option<&Story>) {
    put!(out, "<li>");
    match step {
        Step::Gap(n) => put!(out, "{}", left_out(*n)),
        Step::Moment(Moment::Part(touch) | Moment::Whole(touch)) => {
            put!(out, "{} stores {}", place(touch, story), bytes(touch.bytes));
        }
        Step::Moment(Moment::Read(touch)) => {
            let found = found(touch.bytes, owners);
            let before = found.iter().any(|(owner, _)| *owner == Owner::Before);
            let class = match before && found.len() > 1 {
                true => "bad",
                false => "good",
            };
            let words: Vec<String> = found.iter().map(words).collect();
            let (words, bytes) = (words.join(", "), bytes(touch.bytes));
            put!(
                out,
                "{} reads {bytes}: <b class=\"{class}\">{words}</b>{}",
                place(touch, story),
                shown(touch, story)
            );
        }
        Step::Moment(Moment::Hidden(record, why)) => put!(
            out,
            "record {record} may have stored any of them: {}",
            escaped(&cause(why))
        ),
        Step::Moment(Moment::ReadSomewhere) => {}
    }
    put!(out, "</li>\n");
}

/// What a read showed, where that is known.
fn shown(touch: &Touch, story: Option<&Story>) -> String {
    match story.and_then(|story| story.read_in(touch.record)) {
        None => String::new(),
        Some(read) => format!(
            "; it showed <code>{:#x}</code>{}, before it was <code>{:#x}</code>, after it <code>{:#x}</code>",
            read.value,
            match read.met {
                Met::Never => ", which never existed",
                Met::Whole | Met::Luck | Met::Unsettled => "",
            },
            read.before,
            read.after
        ),
    }
}

fn left_out(n: u64) -> String {
    match n {
        1 => "one more access, which is left out here".to_string(),
        n => format!("{} more accesses, which are left out here", grouped(n)),
    }
}

fn place(touch: &Touch, story: Option<&Story>) -> String {
    let spot = touch.rip.and_then(|rip| story?.spot_before(rip));
    if let Some(spot) = spot {
        let name: String = spot.name().chars().take(60).collect();
        return format!("record {}, {},", touch.record, escaped(&name));
    }
    match touch.rip {
        None => format!("record {}", touch.record),
        Some(rip) => {
            let record = touch.record;
            format!("record {record} (next instruction at <code>{rip:#x}</code>)")
        }
    }
}

/// Who stored the bytes that a read read.
fn found(read: u8, owners: &[Owner]) -> Vec<(Owner, u8)> {
    let mut found: Vec<(Owner, u8)> = Vec::new();
    for (byte, owner) in owners.iter().enumerate().filter(|(k, _)| has(read, *k)) {
        let bit = u32::try_from(byte).unwrap_or(0);
        let bit = 1_u8.checked_shl(bit).unwrap_or(0);
        match found.iter_mut().find(|(kind, _)| kind == owner) {
            Some((_, all)) => *all |= bit,
            None => found.push((*owner, bit)),
        }
    }
    found
}

fn words((owner, touched): &(Owner, u8)) -> String {
    let bytes = bytes(*touched);
    match owner {
        Owner::Before => format!("{bytes} from before"),
        Owner::Step(k) => format!("{bytes} from step {k}"),
        Owner::Gap => format!("{bytes} from a step that is left out"),
    }
}
