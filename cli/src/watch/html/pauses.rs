//! Which store of the variable comes after which, and what comes in between.

/// So many pairs of stores are told apart.
const PAUSES: usize = 16;

/// From a store of these bytes of the variable to the next store, of those.
pub(super) struct Pause {
    /// None before the first store.
    pub(super) after: Option<u8>,
    /// None behind the last one.
    pub(super) before: Option<u8>,
    pub(super) count: u64,
    /// The records from one store to the next: at least, at most.
    pub(super) least: u64,
    pub(super) most: u64,
    /// Reads of the variable, and records that may have written it.
    pub(super) reads: u64,
    pub(super) hidden: u64,
}

#[derive(Default)]
pub(super) struct Pauses {
    pub(super) all: Vec<Pause>,
    /// How many were not told apart, and the reads in them.
    pub(super) others: u64,
    pub(super) other_reads: u64,
    /// The bytes and the record of the last store.
    last: Option<(u8, u64)>,
    reads: u64,
    hidden: u64,
}

impl Pauses {
    pub(super) fn read(&mut self) {
        self.reads = self.reads.saturating_add(1);
    }

    pub(super) fn hide(&mut self) {
        self.hidden = self.hidden.saturating_add(1);
    }

    pub(super) fn store(&mut self, bytes: u8, record: u64) {
        self.close(Some(bytes), record);
        self.last = Some((bytes, record));
    }

    /// The trace has ended.
    pub(super) fn end(&mut self, records: u64) {
        self.close(None, records);
    }

    fn close(&mut self, before: Option<u8>, record: u64) {
        let after = self.last.map(|(bytes, _)| bytes);
        let (reads, hidden) = (self.reads, self.hidden);
        self.reads = 0;
        self.hidden = 0;
        // before the first store and behind the last there may be nothing to tell
        if (after.is_none() || before.is_none()) && reads == 0 && hidden == 0 {
            return;
        }
        let distance = record.saturating_sub(self.last.map_or(0, |(_, from)| from));
        let pause = Pause {
            after,
            before,
            count: 1,
            least: distance,
            most: distance,
            reads,
            hidden,
        };
        let same = |kept: &&mut Pause| kept.after == after && kept.before == before;
        if let Some(kept) = self.all.iter_mut().find(same) {
            kept.add(&pause);
        } else if self.all.len() < PAUSES {
            self.all.push(pause);
        } else {
            self.others = self.others.saturating_add(1);
            self.other_reads = self.other_reads.saturating_add(reads);
        }
    }
}

impl Pause {
    fn add(&mut self, other: &Pause) {
        self.count = self.count.saturating_add(other.count);
        self.least = self.least.min(other.least);
        self.most = self.most.max(other.most);
        self.reads = self.reads.saturating_add(other.reads);
        self.hidden = self.hidden.saturating_add(other.hidden);
    }
}
