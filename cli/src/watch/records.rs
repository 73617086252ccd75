//! The numbers of records, in memory that does not grow with the trace.
use crate::number::Range;

/// So many ranges of them are kept.
const RANGES: usize = 16;

/// Records in the order of the trace.
#[derive(Clone, Debug, Default, PartialEq, Eq)]
pub(super) struct Records {
    pub(super) count: u64,
    /// The first of them.
    pub(super) ranges: Vec<Range>,
    /// How many are in none of the ranges.
    pub(super) more: u64,
}

impl Records {
    pub(super) fn add(&mut self, record: u64) {
        self.count = self.count.saturating_add(1);
        let to = record.saturating_add(1);
        let room = self.ranges.len() < RANGES;
        match self.ranges.last_mut() {
            // once a record was left out, none behind it is kept: what is kept are the first ones
            Some(last) if self.more == 0 && last.to == record => last.to = to,
            _ if self.more == 0 && room => self.ranges.push(Range { from: record, to }),
            _ => self.more = self.more.saturating_add(1),
        }
    }
}

/// The records of these ranges: `records 0 to 3, 7`.
pub(super) fn words(ranges: &[Range], count: u64) -> String {
    let word = |range: &Range| {
        let last = range.to.saturating_sub(1);
        match range.from == last {
            true => last.to_string(),
            false => format!("{} to {last}", range.from),
        }
    };
    let words: Vec<String> = ranges.iter().map(word).collect();
    let name = if count == 1 { "record" } else { "records" };
    format!("{name} {}", words.join(", "))
}

#[cfg(test)]
mod tests {
    use super::*;

    #[test]
    fn neighbours_join_and_the_first_are_kept() {
        let mut records = Records::default();
        for record in [0, 1, 2, 5].into_iter().chain((10..100).step_by(2)) {
            records.add(record);
        }
        let ranges = &records.ranges;
        assert_eq!((records.count, ranges.len()), (49, RANGES));
        let kept: u64 = ranges.iter().map(|range| range.to - range.from).sum();
        assert_eq!(kept + records.more, 49);
        assert_eq!(ranges[0], Range { from: 0, to: 3 });
        assert_eq!(ranges[1], Range { from: 5, to: 6 });
        assert_eq!(ranges[15], Range { from: 36, to: 37 });
    }
}
