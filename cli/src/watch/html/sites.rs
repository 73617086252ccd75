//! Who touches the variable: accesses that are alike, in memory that does not grow with the trace.
use super::super::moment::Touch;
use super::super::records::Records;

/// So many are told apart.
pub(super) const SITES: usize = 24;

/// Accesses from one place of a program, as far as a trace tells: the same rip, opcode, address and length.
pub(super) struct Site {
    /// The first of them.
    pub(super) first: Touch,
    pub(super) whole: bool,
    pub(super) count: u64,
    pub(super) records: Records,
    last: u64,
}

/// The places in the order in which they came.
#[derive(Default)]
pub(super) struct Sites {
    pub(super) all: Vec<Site>,
    /// Accesses from places beyond those that are told apart.
    pub(super) others: u64,
    /// All accesses.
    pub(super) count: u64,
}

impl Sites {
    pub(super) fn add(&mut self, touch: &Touch, whole: bool) {
        self.count = self.count.saturating_add(1);
        if let Some(site) = self.all.iter_mut().find(|site| site.has(touch)) {
            site.add(touch.record);
        } else if self.all.len() < SITES {
            let mut site = Site {
                first: *touch,
                whole,
                count: 0,
                records: Records::default(),
                last: touch.record,
            };
            site.add(touch.record);
            self.all.push(site);
        } else {
            self.others = self.others.saturating_add(1);
        }
    }
}

impl Site {
    fn has(&self, touch: &Touch) -> bool {
        let key = |touch: &Touch| (touch.rip, touch.opcode, touch.address, touch.size);
        key(&self.first) == key(touch)
    }

    fn add(&mut self, record: u64) {
        // a record is named once, however often it touched the variable
        if self.count == 0 || self.last != record {
            self.records.add(record);
        }
        self.last = record;
        self.count = self.count.saturating_add(1);
    }
}
