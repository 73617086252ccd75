//! When: accesses over the records of a trace, in a fixed number of columns. A column stands for one record where they
//! are few, and for twice as many each time the columns are used up: nothing is left out, since each column counts.

/// So many columns at most.
pub(super) const COLUMNS: usize = 320;

/// What is counted in a column.
#[derive(Clone, Copy)]
pub(super) enum Lane {
    Part,
    Whole,
    Read,
    Hidden,
}

pub(super) const LANES: usize = 4;

/// The counts of a column, by lane.
pub(super) type Column = [u64; LANES];

pub(super) struct Timeline {
    /// So many records are one column: a power of two.
    pub(super) records_each: u64,
    pub(super) columns: Vec<Column>,
}

impl Timeline {
    pub(super) fn new() -> Timeline {
        Timeline {
            records_each: 1,
            columns: Vec::with_capacity(COLUMNS),
        }
    }

    pub(super) fn add(&mut self, record: u64, lane: Lane) {
        let column = self.reach(record);
        if let Some(count) = self
            .columns
            .get_mut(column)
            .and_then(|column| column.get_mut(lane as usize))
        {
            *count = count.saturating_add(1);
        }
    }

    /// Makes room up to a record, and says which column it is in.
    pub(super) fn reach(&mut self, record: u64) -> usize {
        loop {
            let column = record.checked_div(self.records_each).unwrap_or(0);
            match usize::try_from(column) {
                Ok(column) if column < COLUMNS => {
                    if column >= self.columns.len() {
                        self.columns.resize(column.saturating_add(1), [0; LANES]);
                    }
                    return column;
                }
                _ => self.halve(),
            }
        }
    }

    fn halve(&mut self) {
        self.columns = self.columns.chunks(2).map(sum).collect();
        self.records_each = self.records_each.saturating_mul(2);
    }

    /// The same counts in at most so many stretches, each with its first record and how many records it has.
    pub(super) fn stretches(&self, most: usize) -> Vec<(u64, u64, Column)> {
        let mut each = 1;
        while self.columns.len().checked_div(each).unwrap_or(0) >= most {
            each = each.saturating_mul(2);
        }
        let records = self.records_each.saturating_mul(each as u64);
        let rows = self.columns.chunks(each).map(sum).zip(0_u64..);
        rows.map(|(column, k)| (k.saturating_mul(records), records, column))
            .collect()
    }
}

fn sum(columns: &[Column]) -> Column {
    let mut all = [0; LANES];
    for column in columns {
        for (count, more) in all.iter_mut().zip(column) {
            *count = u64::saturating_add(*count, *more);
        }
    }
    all
}

#[cfg(test)]
mod tests {
    use super::*;

    #[test]
    fn columns_lose_nothing() {
        for records in [1_u64, 319, 320, 321, 5_000, 1_000_003] {
            let mut timeline = Timeline::new();
            for record in 0..records {
                let lane = if record % 3 == 0 {
                    Lane::Part
                } else {
                    Lane::Read
                };
                timeline.add(record, lane);
            }
            assert!(timeline.columns.len() <= COLUMNS);
            assert!(records <= COLUMNS as u64 || timeline.columns.len() > COLUMNS / 2);
            let total = sum(&timeline.columns);
            assert_eq!(total[Lane::Part as usize], (records + 2) / 3);
            assert_eq!(total[Lane::Read as usize], records - (records + 2) / 3);
            for (k, column) in timeline.columns.iter().enumerate() {
                let from = k as u64 * timeline.records_each;
                let here = timeline.records_each.min(records - from);
                assert_eq!(column.iter().sum::<u64>(), here, "{k} of {records}");
            }
            let stretches = timeline.stretches(16);
            assert!(stretches.len() <= 16);
            let all: u64 = stretches.iter().flat_map(|(_, _, counts)| counts).sum();
            assert_eq!(all, records);
        }
    }

    #[test]
    fn a_record_far_off_takes_no_memory() {
        let mut timeline = Timeline::new();
        timeline.add(0, Lane::Part);
        timeline.add(u64::MAX, Lane::Part);
        assert!(timeline.columns.len() <= COLUMNS);
        assert_eq!(sum(&timeline.columns)[Lane::Part as usize], 2);
    }
}
