//! Changes of the variable in several stores, of which a few are kept for a close-up.
use super::super::moment::{Moment, Touch};

/// So many moments of a change are kept, besides the store that ends it.
const MOMENTS: usize = 10;
/// So many changes are kept in which a read met bytes of before and bytes stored since, and so many others.
const MET: usize = 3;
const OTHERS: usize = 2;

/// From a store of a part on, up to the store with which every byte was stored since.
#[derive(Default)]
pub(super) struct Change {
    pub(super) moments: Vec<Moment>,
    /// How many moments were left out behind these.
    pub(super) more: u64,
    /// The store that ended it, where it is not among the moments.
    pub(super) end: Option<Moment>,
    pub(super) ended: bool,
    /// The bytes stored since it began.
    stored: u8,
    /// Whether a read met bytes stored since, and bytes of before.
    pub(super) met: bool,
    /// Whether it is known that such a read showed what never was there.
    never: bool,
}

pub(super) struct Changes {
    /// All bytes of the variable.
    full: u8,
    open: Option<Change>,
    pub(super) met: Kept,
    pub(super) others: Kept,
}

/// The first changes of a kind, and how many there were.
#[derive(Default)]
pub(super) struct Kept {
    pub(super) first: Vec<Change>,
    pub(super) count: u64,
}

impl Kept {
    fn add(&mut self, change: Change, most: usize) {
        self.count = self.count.saturating_add(1);
        // what never was there goes before what happened to fit
        let least = self.first.iter().rposition(|kept| !kept.never);
        match (self.first.len() < most, least) {
            (true, _) => {}
            (false, Some(at)) if change.never => {
                self.first.remove(at);
            }
            (false, _) => return,
        }
        self.first.push(change);
    }
}

impl Changes {
    pub(super) fn new(full: u8) -> Changes {
        Changes {
            full,
            open: None,
            met: Kept::default(),
            others: Kept::default(),
        }
    }

    /// Takes the next moment; `never` where it ends a change of which a read showed what never was there.
    pub(super) fn add(&mut self, moment: &Moment, never: bool) {
        if let (Moment::Part(_), None) = (moment, &self.open) {
            self.open = Some(Change::default());
        }
        let mut change = match self.open.take() {
            None => return,
            Some(change) => change,
        };
        match moment {
            Moment::Part(touch) | Moment::Whole(touch) => change.stored |= touch.bytes,
            Moment::Read(touch) => change.met |= change.is_met_by(touch),
            Moment::ReadSomewhere | Moment::Hidden(..) => {}
        }
        change.ended = change.stored == self.full;
        change.never = change.ended && never;
        change.keep(moment);
        match change.ended {
            true => self.close(change),
            false => self.open = Some(change),
        }
    }

    /// The trace has ended.
    pub(super) fn end(&mut self) {
        if let Some(change) = self.open.take() {
            self.close(change);
        }
    }

    fn close(&mut self, change: Change) {
        match change.met {
            true => self.met.add(change, MET),
            false => self.others.add(change, OTHERS),
        }
    }
}

impl Change {
    /// Whether a read meets bytes stored since the change began, and bytes of before.
    fn is_met_by(&self, read: &Touch) -> bool {
        read.bytes & self.stored != 0 && read.bytes & !self.stored != 0
    }

    fn keep(&mut self, moment: &Moment) {
        if let Moment::ReadSomewhere = moment {
            return;
        }
        if self.moments.len() < MOMENTS {
            self.moments.push(*moment);
        } else if self.ended {
            self.end = Some(*moment);
        } else {
            self.more = self.more.saturating_add(1);
        }
    }
}
