//! What the variable was and what its readers saw: a picture, and the reads of values that never existed.
use super::super::story::{Met, Read, Story};
use super::words::{escaped, grouped, many};
use crate::format::put;

/// The picture's units.
const LEFT: f64 = 150.0;
const RIGHT: f64 = 1024.0;
const TOP: f64 = 18.0;
const BELOW: f64 = 214.0;
/// So many changes are drawn, and so many reads at most.
const CHANGES: usize = 48;
const READS: usize = 150;
/// So many reads are listed.
const LISTED: usize = 40;

/// A stretch of the recording around the first read of what never was there, or its beginning.
struct Window<'a> {
    story: &'a Story,
    values: Vec<(u64, u64)>,
    reads: Vec<&'a Read>,
    from: u64,
    to: u64,
    low: f64,
    high: f64,
}

impl Window<'_> {
    fn of(story: &Story) -> Option<Window<'_>> {
        let centre = story.never().next().map_or(0, |read| read.record);
        let before = story.values.iter().filter(|(record, _)| *record <= centre);
        let skip = before.count().saturating_sub(CHANGES >> 1);
        let values: Vec<_> = story
            .values
            .iter()
            .skip(skip)
            .take(CHANGES)
            .copied()
            .collect();
        let (from, to) = (values.first()?.0, values.last()?.0);
        let inside = story
            .reads
            .iter()
            .filter(|read| read.record >= from && read.record <= to);
        let reads: Vec<_> = inside.take(READS).collect();
        let all = values.iter().map(|(_, value)| *value);
        let all = all.chain(reads.iter().map(|read| read.value));
        let numbers: Vec<i64> = all.map(|value| story.signed(value)).collect();
        let (low, high) = (*numbers.iter().min()?, *numbers.iter().max()?);
        Some(Window {
            story,
            values,
            reads,
            from,
            to,
            low: low as f64,
            high: high as f64,
        })
        .filter(|window| window.from < window.to)
    }

    fn x(&self, record: u64) -> f64 {
        let long = self.to.saturating_sub(self.from) as f64;
        LEFT + (RIGHT - LEFT) * record.saturating_sub(self.from) as f64 / long
    }

    fn y(&self, value: u64) -> f64 {
        let high = (self.high - self.low).max(1.0);
        BELOW - (BELOW - TOP) * (self.story.signed(value) as f64 - self.low) / high
    }
}

pub(super) fn put(out: &mut Vec<u8>, story: &Story) {
    if let Some(window) = Window::of(story) {
        put_picture(out, &window);
    }
    put_list(out, story);
}

fn put_picture(out: &mut Vec<u8>, window: &Window<'_>) {
    put!(
        out,
        "<h2>What it was, and what its readers saw</h2>\n<p class=\"sub\">The line is the value once all of it was stored. Dots are reads: \
         blue read whole, amber fell between the parts where they happened to fit, red showed a value that never existed.</p>\n"
    );
    put!(
        out,
        "<svg viewBox=\"0 0 1040 250\" role=\"img\" aria-labelledby=\"vt vd\"><title id=\"vt\">The variable's value and its reads, records {} to \
         {}</title><desc id=\"vd\">{} and {}, of which {} a value that never existed. The table below has these.</desc>\n",
        window.from,
        window.to,
        many(window.values.len() as u64, "value"),
        many(window.reads.len() as u64, "read"),
        window.reads.iter().filter(|read| read.met == Met::Never).count()
    );
    put_scale(out, window);
    let mut path = String::new();
    for (k, (record, value)) in window.values.iter().enumerate() {
        let (x, y) = (window.x(*record), window.y(*value));
        path.push_str(&match k {
            0 => format!("M{x:.0} {y:.0}"),
            _ => format!("H{x:.0}V{y:.0}"),
        });
    }
    put!(out, "<path class=\"v\" d=\"{path}\"/>\n");
    for read in &window.reads {
        put_read(out, window, read);
    }
    put!(out, "</svg>\n");
}

fn put_scale(out: &mut Vec<u8>, window: &Window<'_>) {
    for k in 0..5_u8 {
        let part = f64::from(k) / 4.0;
        let y = BELOW - (BELOW - TOP) * part;
        let value = window.low + (window.high - window.low) * part;
        put!(
            out,
            "<path class=\"l\" d=\"M{LEFT:.0} {y:.0}H{RIGHT:.0}\" stroke-width=\"1\"/><text class=\"s\" x=\"142\" y=\"{:.0}\" text-anchor=\"end\">{}</text>",
            y + 4.0,
            thousands(value)
        );
        let x = LEFT + (RIGHT - LEFT) * part;
        let record = window.from as f64 + window.to.saturating_sub(window.from) as f64 * part;
        put!(
            out,
            "<text class=\"s\" x=\"{x:.0}\" y=\"236\" text-anchor=\"{}\">{record:.0}</text>\n",
            if k == 4 { "end" } else { "middle" }
        );
    }
    put!(out, "<text class=\"s\" x=\"0\" y=\"236\">record</text>\n");
}

fn thousands(value: f64) -> String {
    let sign = if value < 0.0 { "-" } else { "" };
    format!("{sign}{}", grouped(value.abs() as u64))
}

fn put_read(out: &mut Vec<u8>, window: &Window<'_>, read: &Read) {
    let (x, y) = (window.x(read.record), window.y(read.value));
    let (class, size) = match read.met {
        Met::Whole => ("r", 3.0),
        Met::Luck | Met::Unsettled => ("u", 4.0),
        Met::Never => ("p", 5.5),
    };
    if read.met == Met::Never {
        let right = window.y(read.after);
        put!(
            out,
            "<path class=\"v e\" stroke-dasharray=\"3 3\" d=\"M{x:.0} {right:.0}V{y:.0}\"/>"
        );
    }
    put!(
        out,
        "<circle class=\"{class}\" cx=\"{x:.0}\" cy=\"{y:.0}\" r=\"{size}\"><title>record {} read {:#x}</title></circle>\n",
        read.record,
        read.value
    );
}

/// Every read of what never was there, as far as there is room.
fn put_list(out: &mut Vec<u8>, story: &Story) {
    let count = story.count(Met::Never);
    if count == 0 {
        return;
    }
    put!(
        out,
        "<details><summary>{} of a value that never existed</summary><div class=\"wide\"><table><caption>Reads of a value that never \
         existed</caption>\n<thead><tr><th scope=\"col\" class=\"n\">Record</th><th scope=\"col\">Reader</th><th scope=\"col\">Value read</th>\
         <th scope=\"col\">Before</th><th scope=\"col\">After</th><th scope=\"col\" class=\"n\">Off by</th></tr></thead><tbody>\n",
        many(count, "read")
    );
    for read in story.never().take(LISTED) {
        let off = match story.off(read) {
            Some(off) if off < 0 => format!("-{}", grouped(off.unsigned_abs())),
            Some(off) => format!("+{}", grouped(off.unsigned_abs())),
            None => String::new(),
        };
        let reader: String = story.reader(read).chars().take(60).collect();
        put!(
            out,
            "<tr><td class=\"n\">{}</td><td>{}</td><td><code>{:#x}</code></td><td><code>{:#x}</code></td><td><code>{:#x}</code></td><td class=\"n\">{off}</td></tr>\n",
            read.record,
            escaped(&reader),
            read.value,
            read.before,
            read.after
        );
    }
    if count > LISTED as u64 {
        let more = grouped(count.saturating_sub(LISTED as u64));
        put!(out, "<tr><td colspan=\"6\">and {more} more</td></tr>\n");
    }
    put!(out, "</tbody></table></div></details>\n");
}
