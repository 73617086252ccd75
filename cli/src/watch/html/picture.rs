//! What a page tells, gathered moment by moment in memory that does not grow with the trace.
use super::super::moment::Moment;
use super::changes::Changes;
use super::pauses::Pauses;
use super::sites::Sites;
use super::timeline::{Lane, Timeline};
use machhurel::Watch;

pub(in super::super) struct Picture {
    /// Bit i for each byte i of the variable.
    full: u8,
    pub(super) writers: Sites,
    pub(super) readers: Sites,
    /// How many stores wrote a part, by the bytes that they wrote.
    parts: Vec<u64>,
    pub(super) reads_somewhere: u64,
    pub(super) timeline: Timeline,
    pub(super) pauses: Pauses,
    pub(super) changes: Changes,
}

impl Picture {
    pub(in super::super) fn new(watch: &Watch) -> Picture {
        let full = all_bytes(watch);
        Picture {
            full,
            writers: Sites::default(),
            readers: Sites::default(),
            parts: vec![0; usize::from(u8::MAX).saturating_add(1)],
            reads_somewhere: 0,
            timeline: Timeline::new(),
            pauses: Pauses::default(),
            changes: Changes::new(full),
        }
    }

    pub(in super::super) fn add(&mut self, moment: &Moment) {
        self.add_judged(moment, false);
    }

    /// As `add`; `never` where the moment ends a change of which a read showed what never was there.
    pub(in super::super) fn add_judged(&mut self, moment: &Moment, never: bool) {
        self.changes.add(moment, never);
        match moment {
            Moment::Part(touch) => {
                if let Some(count) = self.parts.get_mut(usize::from(touch.bytes)) {
                    *count = count.saturating_add(1);
                }
                self.writers.add(touch, false);
                self.pauses.store(touch.bytes, touch.record);
                self.timeline.add(touch.record, Lane::Part);
            }
            Moment::Whole(touch) => {
                self.writers.add(touch, true);
                self.pauses.store(touch.bytes, touch.record);
                self.timeline.add(touch.record, Lane::Whole);
            }
            Moment::Read(touch) => {
                self.readers.add(touch, touch.bytes == self.full);
                self.pauses.read();
                self.timeline.add(touch.record, Lane::Read);
            }
            Moment::ReadSomewhere => {
                self.reads_somewhere = self.reads_somewhere.saturating_add(1);
            }
            Moment::Hidden(record, _) => {
                self.pauses.hide();
                self.timeline.add(*record, Lane::Hidden);
            }
        }
    }

    /// The trace has ended after so many records.
    pub(in super::super) fn end(&mut self, records: u64) {
        self.changes.end();
        self.pauses.end(records);
        if let Some(last) = records.checked_sub(1) {
            self.timeline.reach(last);
        }
    }

    /// The bytes that part writes wrote, and how many wrote them, the most often written first.
    pub(super) fn parts(&self) -> Vec<(u8, u64)> {
        let all = (0..=u8::MAX).zip(self.parts.iter().copied());
        let mut some: Vec<(u8, u64)> = all.filter(|(_, count)| *count > 0).collect();
        some.sort_by_key(|(bytes, count)| (std::cmp::Reverse(*count), bytes.trailing_zeros()));
        some
    }
}

fn all_bytes(watch: &Watch) -> u8 {
    let beyond = u64::from(u8::BITS).saturating_sub(watch.length());
    let shift = u32::try_from(beyond).unwrap_or(0);
    u8::MAX.checked_shr(shift).unwrap_or(0)
}
