//! What a watch saw as a page: one file of HTML without script or outside reference, no longer for a longer trace.
mod changes;
mod closeup;
mod drawing;
mod pauses;
mod picture;
mod sentence;
mod sites;
mod tables;
mod target;
mod timeline;
mod values;
mod words;

use super::across::Across;
use super::answer::Answer;
use super::reasons::Reasons;
use super::story::Story;
use crate::format::put;
use crate::VERSION;
use machhurel::Watch;
pub(super) use picture::Picture;
use tables::Whose;
pub(super) use target::Target;
use words::{escaped, many};

/// So many notes of the recorder are shown.
const NOTES: usize = 16;
/// No page is longer.
const MOST: usize = 100_000;
/// So much of a trace's name is shown.
const NAME: usize = 200;

/// What a page is about.
pub(super) struct Page<'a> {
    /// The trace's name, shown harmlessly.
    pub(super) name: &'a str,
    pub(super) watch: &'a Watch,
    pub(super) answer: &'a Answer,
    pub(super) reasons: &'a Reasons,
    pub(super) damages: u64,
    pub(super) picture: &'a Picture,
    /// What is known besides of a variable that was named.
    pub(super) story: Option<&'a Story>,
}

impl Page<'_> {
    /// The page's bytes. What is known by name is shortened where the page would be too long.
    pub(super) fn bytes(&self) -> Vec<u8> {
        let nameless = Page {
            story: None,
            ..*self
        };
        let mut page = self.with(true);
        if page.len() >= MOST {
            page = self.with(false);
        }
        if page.len() >= MOST {
            page = nameless.with(false);
        }
        page
    }

    fn with(&self, values: bool) -> Vec<u8> {
        let mut out = Vec::new();
        self.put_head(&mut out);
        self.put_writers(&mut out);
        if let Some(story) = self.story.filter(|_| values) {
            values::put(&mut out, story);
        }
        if self.answer.pairs > 0 {
            self.put_timeline(&mut out);
        }
        self.put_pauses(&mut out);
        self.put_changes(&mut out);
        self.put_readers(&mut out);
        self.put_hidden(&mut out);
        put!(
            &mut out,
            "<footer><p>machhurel {VERSION}. Which stores wrote part and which all of the variable is the library's verdict. The rip is that of the \
             register file before the record: the address of the next instruction. What is not in the trace is not on this page: \
             other threads, the kernel, devices.</p></footer>\n</main></body></html>\n"
        );
        out
    }

    fn put_head(&self, out: &mut Vec<u8>) {
        let (watch, answer) = (self.watch, self.answer);
        let variable = match self.story {
            None => sentence::variable(watch),
            Some(story) => format!("variable {}", shortened(&story.side.name)),
        };
        let name = shortened(self.name);
        put!(
            out,
            "<!doctype html>\n<html lang=\"en\"><head><meta charset=\"utf-8\"><meta name=\"viewport\" content=\"width=device-width\">\n\
             <title>Who tore the {variable}: {name}</title>\n<style>\n{}</style></head><body><main>\n",
            include_str!("style.css")
        );
        put!(
            out,
            "<h1>Who tore the {variable}?</h1>\n<p class=\"sub\"><code>{name}</code>, {}</p>\n",
            many(answer.pairs, "record")
        );
        let class = match (answer.tally.part, answer.is_complete(), self.damages) {
            (0, true, 0) => "good",
            (0, _, _) => "unsure",
            _ => "bad",
        };
        let first = sentence::first(watch, answer, self.picture, self.damages);
        let reads = sentence::reads(self.picture);
        match self.story {
            None => put!(
                out,
                "<p class=\"verdict {class}\"><b>{first}</b> {reads}</p>\n"
            ),
            Some(story) => put!(
                out,
                "<p class=\"verdict {class}\"><b>{}</b></p>\n<p>{first} {reads}</p>\n",
                escaped(&story.sentence())
            ),
        }
        if let Some(across) = Across::of(watch, answer) {
            put!(out, "<p class=\"warn\"><b>Warning:</b> {across}.</p>\n");
        }
    }

    fn put_writers(&self, out: &mut Vec<u8>) {
        put!(out, "<h2>Who writes it</h2>\n");
        let writers = &self.picture.writers;
        if writers.count == 0 {
            put!(out, "<p>No store that wrote it was seen.</p>\n");
            return;
        }
        put!(out, "<div class=\"wide\">");
        tables::put_sites(
            out,
            writers,
            Whose::Writers,
            self.watch.length(),
            self.story,
        );
        put!(out, "</div>\n");
        let ends = [
            ("The first to write part of it", self.answer.first_part),
            ("The last to write all of it", self.answer.last_whole),
        ];
        for (words, record) in ends {
            if let Some(record) = record {
                put!(out, "<p>{words} is record {record}.</p>\n");
            }
        }
    }

    fn put_timeline(&self, out: &mut Vec<u8>) {
        let timeline = &self.picture.timeline;
        put!(
            out,
            "<h2>When</h2>\n<p class=\"sub\">{}</p>\n",
            drawing::scale(timeline)
        );
        drawing::put(out, self.picture, self.answer.pairs);
        put!(
            out,
            "<details><summary>In numbers</summary><div class=\"wide\">"
        );
        tables::put_timeline(out, timeline, self.answer.pairs);
        put!(out, "</div></details>\n");
    }

    fn put_pauses(&self, out: &mut Vec<u8>) {
        let pauses = &self.picture.pauses;
        if pauses.all.is_empty() {
            return;
        }
        put!(
            out,
            "<h2>What comes between two stores</h2>\n<p class=\"sub\">The stores of one change stand close together as a rule, and changes apart: a \
             read between the stores of one change sees half of it.</p>\n<div class=\"wide\">"
        );
        tables::put_pauses(out, pauses);
        put!(out, "</div>\n");
    }

    fn put_changes(&self, out: &mut Vec<u8>) {
        let changes = &self.picture.changes;
        let (met, others) = (&changes.met, &changes.others);
        if met.count == 0 && others.count == 0 {
            return;
        }
        put!(
            out,
            "<h2>Byte by byte</h2>\n<p>A change begins with a store of a part, and ends with the store after which every byte has been stored since; \
             the first begins with the first such store in the trace. {}</p>\n<p class=\"sub\">Grey bytes are from before; a colour begins with the \
             step that stored the byte. Steps stand side by side, however many records lie between them.</p>\n",
            sentence::changes(met, others)
        );
        let kept = met.first.iter().chain(&others.first);
        for (k, change) in kept.enumerate() {
            closeup::put(out, change, k, self.watch.length(), self.story);
        }
    }

    fn put_readers(&self, out: &mut Vec<u8>) {
        let readers = &self.picture.readers;
        put!(out, "<h2>Who reads it</h2>\n");
        if readers.count == 0 {
            put!(out, "<p>{}</p>\n", sentence::reads(self.picture));
            return;
        }
        put!(out, "<div class=\"wide\">");
        tables::put_sites(
            out,
            readers,
            Whose::Readers,
            self.watch.length(),
            self.story,
        );
        put!(out, "</div>\n");
        if readers.all.iter().any(|site| !site.whole) {
            put!(
                out,
                "<p>Where a reader takes it in parts, a store in between tears it for that reader.</p>\n"
            );
        }
    }

    fn put_hidden(&self, out: &mut Vec<u8>) {
        put!(out, "<h2>What could be hidden</h2>\n");
        if let Some(story) = self.story {
            for words in story.beside().iter().chain(&story.complex()).take(NOTES) {
                put!(out, "<p>{}.</p>\n", shortened(words));
            }
        }
        if self.answer.is_complete() && self.damages == 0 {
            put!(
                out,
                "<p>Nothing in the trace: no record was refused, and every store's address is known.</p>\n"
            );
            return;
        }
        put!(out, "<div class=\"wide\">");
        tables::put_hidden(out, self.reasons, self.damages);
        put!(out, "</div>\n");
    }
}

/// The first characters of a name, none of them markup.
fn shortened(name: &str) -> String {
    let mut first: String = name.chars().take(NAME).collect();
    if first.len() < name.len() {
        first.push('…');
    }
    escaped(&first)
}

#[cfg(test)]
mod tests {
    use super::super::moment::{Moment, Touch};
    use super::super::reasons::Why;
    use super::*;
    use machhurel::{Refusal, Tally};

    /// No page is longer.
    const LIMIT: usize = 100_000;

    fn touch(record: u64, bytes: u8, rip: u64) -> Touch {
        Touch {
            record,
            opcode: u16::MAX,
            rip: Some(u64::MAX - rip),
            address: u64::MAX,
            size: 64,
            bytes,
        }
    }

    /// Every row, column and close-up is used up, and every number is as long as it can be.
    #[test]
    fn the_longest_page() {
        let mut watch = Watch::new(u64::MAX - 3, 8).unwrap();
        assert!(watch.step(&[], &[]).is_ok());
        let mut picture = Picture::new(&watch);
        let mut reasons = Reasons::new();
        let hidden = |opcode: u16| Why::Refused(Refusal::Size.of_opcode(u16::MAX - opcode));
        let end = (timeline::COLUMNS as u64) << 55;
        for k in 0..4_000_u64 {
            let record = end / 4_000 * k;
            let byte = 1_u8 << (k % 7 + u64::from(k % 5 == 4)) % 8;
            // single bytes, with reads and refused records in between: changes of many steps
            picture.add(&Moment::Part(touch(record, byte, k)));
            picture.add(&Moment::Hidden(record, hidden(k as u16 % 40)));
            reasons.add(record, hidden(k as u16 % 40));
            reasons.add(record, Why::Unknown);
            if k >= 20 {
                picture.add(&Moment::Read(touch(record, u8::MAX, k)));
            }
            if k % 10 == 9 {
                picture.add(&Moment::Whole(touch(record, u8::MAX, k)));
            }
            picture.add(&Moment::ReadSomewhere);
        }
        picture.end(end);
        let most = u64::MAX / 2;
        let answer = Answer {
            from: 0,
            pairs: end,
            tally: Tally {
                unknown: most,
                none: most,
                part: most,
                whole: most,
            },
            refused: most,
            first_part: Some(u64::MAX),
            last_whole: Some(u64::MAX),
        };
        let page = Page {
            name: &"<".repeat(5_000),
            watch: &watch,
            answer: &answer,
            reasons: &reasons,
            damages: u64::MAX,
            picture: &picture,
            story: None,
        };
        let bytes = page.bytes();
        let text = String::from_utf8(bytes).unwrap();
        let count = |words: &str| text.matches(words).count();
        assert_eq!(count("<h3>"), 5, "close-ups");
        assert_eq!(count("from further places"), 2);
        let columns = count("h0.9v");
        assert!(columns > 4 * timeline::COLUMNS - 4, "columns: {columns}");
        assert!(count("<tr>") > 2 * 24 + 16 + 16 + 33, "{}", count("<tr>"));
        assert!(text.len() < LIMIT, "{}", text.len());
        assert!(text.len() > LIMIT / 4 * 3, "{}", text.len());
    }
}
