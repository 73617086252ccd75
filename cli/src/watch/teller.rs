//! Puts together what was seen in the blocks of a trace, and tells it.
use super::answer::Answer;
use super::block::{Look, Seen};
use super::html::{Page, Picture};
use super::reasons::Reasons;
use super::rows::Over;
use super::story::Story;
use super::{rows, Ended};
use crate::format::{put, Kind};
use crate::output::Output;
use crate::status::Status;
use machhurel::Watch;

pub(super) struct Teller {
    look: Look,
    /// The watch that goes on, and the number of its first record.
    watch: Watch,
    from: u64,
    /// The watches that are full.
    before: Option<Answer>,
    reasons: Reasons,
    picture: Option<Picture>,
    /// What is known besides of a variable that was named.
    story: Option<Story>,
}

impl Teller {
    pub(super) fn new(look: Look, story: Option<Story>) -> Teller {
        Teller {
            watch: look.watch,
            picture: Some(Picture::new(&look.watch)).filter(|_| look.pictured),
            look,
            from: 0,
            before: None,
            reasons: Reasons::new(),
            story,
        }
    }

    /// Whether the part writes are told by place, not one by one.
    fn is_told(&self) -> bool {
        self.story.is_some() && self.look.kind == Kind::Text
    }

    /// Takes what was seen in the next block of the trace.
    pub(super) fn take(&mut self, seen: Seen, output: &mut Output) -> Result<(), Ended> {
        if !seen.is_whole() {
            return Err(Ended::Lost);
        }
        match self.watch.then(&seen.watch) {
            Some(watch) => self.watch = watch,
            None => {
                if !self.is_told() {
                    self.put_watch(output);
                }
                self.before = Some(self.answer());
                self.watch = seen.watch;
                self.from = seen.first;
                let Look { kind, name, .. } = &self.look;
                if !self.is_told() {
                    rows::put_further(&mut output.bytes, *kind, name, seen.first);
                }
            }
        }
        if !self.is_told() {
            output.bytes.extend_from_slice(&seen.lines);
        }
        for (record, why) in seen.unsure {
            self.reasons.add(record, why);
        }
        if let Some(picture) = &mut self.picture {
            for moment in seen.moments.iter().flatten() {
                match &mut self.story {
                    None => picture.add(moment),
                    Some(story) => {
                        let moment = story.take(moment);
                        picture.add_judged(&moment, story.ended_torn);
                    }
                }
            }
        }
        Ok(output.flush_much()?)
    }

    /// What was seen as a page, where one is wanted.
    pub(super) fn page(&mut self, damages: u64) -> Option<Vec<u8>> {
        let answer = self.answer();
        let picture = self.picture.as_mut()?;
        picture.end(answer.pairs);
        let page = Page {
            name: &self.look.name,
            watch: &self.look.watch,
            answer: &answer,
            reasons: &self.reasons,
            damages,
            picture,
            story: self.story.as_ref(),
        };
        Some(page.bytes())
    }

    /// The answer over all watches so far.
    fn answer(&self) -> Answer {
        let last = Answer::of(&self.watch, self.from);
        self.before.map_or(last, |before| before.then(&last))
    }

    /// Says what the watch that goes on has seen.
    fn put_watch(&self, output: &mut Output) {
        self.put_answer(output, Over::One, &Answer::of(&self.watch, self.from));
    }

    fn put_answer(&self, output: &mut Output, over: Over, answer: &Answer) {
        let Look {
            kind, name, watch, ..
        } = &self.look;
        rows::put_answer(&mut output.bytes, *kind, name, watch, over, answer);
    }

    /// Says what came of it all.
    pub(super) fn end(&mut self, output: &mut Output, damages: u64) -> Status {
        if let Some(story) = &mut self.story {
            story.end();
        }
        let told = self.story.as_ref().filter(|_| self.is_told());
        if let Some(story) = told {
            story.put(&mut output.bytes);
        }
        let over = match self.before {
            None => Over::Trace,
            Some(_) if told.is_some() => Over::All,
            Some(_) => {
                self.put_watch(output);
                Over::All
            }
        };
        let answer = self.answer();
        self.put_answer(output, over, &answer);
        let Look {
            kind, name, watch, ..
        } = &self.look;
        rows::put_across(&mut output.bytes, *kind, name, watch, &answer);
        rows::put_reasons(&mut output.bytes, *kind, name, &self.reasons, damages);
        for words in told.map_or(Vec::new(), Story::complex) {
            put!(&mut output.bytes, "  {words}\n");
        }
        self.status()
    }

    pub(super) fn status(&self) -> Status {
        let answer = self.answer();
        match (answer.tally.part, answer.is_complete()) {
            (0, true) => Status::Done,
            (0, false) => Status::Unsure,
            _ => Status::Found,
        }
    }
}
