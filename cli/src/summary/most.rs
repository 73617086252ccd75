//! The addresses written most, in memory that does not grow with the trace.
//!
//! Counts are exact while the addresses are few. When the table is full, a write at a further address takes one off every count (Misra
//! and Gries): each count is then too low by at most the number of times that happened, which is kept. It costs no more than one step
//! for each write in all, since every count taken off was put on once.
use std::collections::HashMap;

/// So many addresses are counted at once.
const LIMIT: usize = 1 << 18;

/// An address, and how many writes began there: at least, and at most.
#[derive(Clone, Copy, Debug, PartialEq, Eq)]
pub(super) struct Written {
    pub(super) address: u64,
    pub(super) least: u64,
    pub(super) most: u64,
}

pub(super) struct Most {
    counts: HashMap<u64, u64>,
    limit: usize,
    /// How often one was taken off every count.
    taken: u64,
}

impl Most {
    pub(super) fn new() -> Most {
        Most::with(LIMIT)
    }

    fn with(limit: usize) -> Most {
        Most {
            counts: HashMap::new(),
            limit,
            taken: 0,
        }
    }

    pub(super) fn add(&mut self, address: u64) {
        if let Some(count) = self.counts.get_mut(&address) {
            *count = count.saturating_add(1);
        } else if self.counts.len() < self.limit {
            self.counts.insert(address, 1);
        } else {
            self.taken = self.taken.saturating_add(1);
            self.counts.retain(|_, count| {
                *count = count.saturating_sub(1);
                *count > 0
            });
        }
    }

    /// The addresses with the highest counts, those first; of equal ones the lower address.
    pub(super) fn highest(&self, n: usize) -> Vec<Written> {
        let mut all: Vec<Written> = self
            .counts
            .iter()
            .map(|(address, count)| self.row(*address, *count))
            .collect();
        all.sort_unstable_by_key(|row| (std::cmp::Reverse(row.least), row.address));
        all.truncate(n);
        all
    }

    fn row(&self, address: u64, least: u64) -> Written {
        let most = least.saturating_add(self.taken);
        Written {
            address,
            least,
            most,
        }
    }
}

#[cfg(test)]
mod tests {
    use super::*;

    #[test]
    fn few_addresses_are_counted_exactly() {
        let mut most = Most::with(3);
        for address in [5, 7, 5, 9, 7, 5] {
            most.add(address);
        }
        let rows: Vec<_> = most
            .highest(2)
            .iter()
            .map(|row| (row.address, row.least, row.most))
            .collect();
        assert_eq!(rows, [(5, 3, 3), (7, 2, 2)]);
    }

    #[test]
    fn many_addresses_are_counted_between_two_bounds() {
        let mut most = Most::with(16);
        let mut exact = HashMap::new();
        let mut random = 0x9E37_79B9_7F4A_7C15_u64;
        for _ in 0..100_000 {
            random ^= random << 13;
            random ^= random >> 7;
            random ^= random << 17;
            // address k comes about twice as often as k + 1
            let address = u64::from(random.trailing_zeros().min(20)) * 1000
                + if random >> 60 == 0 {
                    random >> 8 & 0xFF
                } else {
                    0
                };
            most.add(address);
            *exact.entry(address).or_insert(0_u64) += 1;
            assert!(most.counts.len() <= 16);
        }
        let rows = most.highest(10);
        assert_eq!(rows.first().map(|row| row.address), Some(0));
        assert!(rows.iter().any(|row| row.least < row.most));
        for row in rows {
            let count = exact.get(&row.address).copied().unwrap_or(0);
            assert!(row.least <= count && count <= row.most, "{row:?} {count}");
        }
    }
}
