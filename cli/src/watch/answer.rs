//! The answer over the watches of a trace, in the trace's numbers.
use crate::number::Range;
use machhurel::{Tally, Watch};

/// What a watch says, or several one after another.
#[derive(Clone, Copy, Debug, PartialEq, Eq)]
pub(super) struct Answer {
    /// The number of its first record.
    pub(super) from: u64,
    pub(super) pairs: u64,
    pub(super) tally: Tally,
    pub(super) refused: u64,
    pub(super) first_part: Option<u64>,
    pub(super) last_whole: Option<u64>,
}

impl Answer {
    /// A watch that began with this record.
    pub(super) fn of(watch: &Watch, from: u64) -> Answer {
        let moved = |number: Option<u64>| number.map(|n| from.saturating_add(n));
        Answer {
            from,
            pairs: watch.pairs(),
            tally: watch.tally(),
            refused: watch.refused(),
            first_part: moved(watch.first_part()),
            last_whole: moved(watch.last_whole()),
        }
    }

    /// This answer with a later one behind it.
    pub(super) fn then(&self, later: &Answer) -> Answer {
        let (a, b) = (self.tally, later.tally);
        Answer {
            from: self.from,
            pairs: self.pairs.saturating_add(later.pairs),
            tally: Tally {
                unknown: a.unknown.saturating_add(b.unknown),
                none: a.none.saturating_add(b.none),
                part: a.part.saturating_add(b.part),
                whole: a.whole.saturating_add(b.whole),
            },
            refused: self.refused.saturating_add(later.refused),
            first_part: self.first_part.or(later.first_part),
            last_whole: later.last_whole.or(self.last_whole),
        }
    }

    /// The numbers of its records.
    pub(super) fn records(&self) -> Range {
        Range {
            from: self.from,
            to: self.from.saturating_add(self.pairs),
        }
    }

    /// Whether it is known all that the pairs did.
    pub(super) fn is_complete(&self) -> bool {
        self.refused == 0 && self.tally.unknown == 0
    }
}
