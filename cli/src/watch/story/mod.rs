//! What happened to a variable, by name and by value: the library's verdicts, and what the recorder wrote beside the trace.
mod side;
mod told;

use super::moment::{Moment, Touch};
use machhurel::Watch;
use side::Seen;
pub(super) use side::{paths, Side, Spot};

/// So many reads are kept of each kind, and so many values.
const KEPT: usize = 1 << 20;
/// So many places are told apart.
const PLACES: usize = 64;

/// How a read met the parts of the variable.
#[derive(Clone, Copy, Debug, PartialEq, Eq)]
pub(super) enum Met {
    /// It fell between no parts.
    Whole,
    /// Between the parts, and it showed what was there before or after.
    Luck,
    /// Between the parts, and it showed what never was there.
    Never,
    /// Between the parts of a change that was not ended.
    Unsettled,
}

/// A read with what it showed.
#[derive(Clone, Copy, Debug)]
pub(super) struct Read {
    pub(super) record: u64,
    site: u64,
    bytes: u8,
    pub(super) value: u64,
    pub(super) before: u64,
    pub(super) after: u64,
    pub(super) met: Met,
}

/// Accesses from one place of the program.
pub(super) struct Place {
    site: u64,
    pub(super) bytes: u8,
    pub(super) count: u64,
    /// Of reads, those that showed what never was there.
    pub(super) never: u64,
}

/// A change that is under way.
struct Open {
    before: u64,
    stored: u8,
    stores: u64,
    reads: Vec<Read>,
}

pub(super) struct Story {
    pub(super) side: Side,
    /// Bit i for each byte i of the variable.
    full: u8,
    /// The next access and the next change without a record that the side file has.
    next_seen: usize,
    next_unsaid: usize,
    value: u64,
    open: Option<Open>,
    pub(super) writers: Vec<Place>,
    pub(super) readers: Vec<Place>,
    pub(super) reads: Vec<Read>,
    /// The value after each whole store, and after the last store of each change.
    pub(super) values: Vec<(u64, u64)>,
    /// All reads, by how they met the parts.
    pub(super) counts: [u64; 4],
    /// The fewest and the most stores of a change, and how many changes.
    pub(super) fewest: u64,
    pub(super) most: u64,
    pub(super) changes: u64,
    /// Accesses that the side file does not have.
    pub(super) unplaced: u64,
    /// Whether the last moment ended a change of which a read showed what never was there.
    pub(super) ended_torn: bool,
}

impl Story {
    pub(super) fn new(side: Side, watch: &Watch) -> Story {
        let beyond = u64::from(u8::BITS).saturating_sub(watch.length());
        let full = u8::MAX.checked_shr(u32::try_from(beyond).unwrap_or(0));
        Story {
            full: full.unwrap_or(0),
            next_seen: 0,
            next_unsaid: 0,
            value: side.value,
            values: vec![(0, side.value)],
            side,
            open: None,
            writers: Vec::new(),
            readers: Vec::new(),
            reads: Vec::new(),
            counts: [0; 4],
            fewest: u64::MAX,
            most: 0,
            changes: 0,
            unplaced: 0,
            ended_torn: false,
        }
    }

    /// Takes the next moment, and says where the program stood: the rip that the trace leaves out.
    pub(super) fn take(&mut self, moment: &Moment) -> Moment {
        self.ended_torn = false;
        let (touch, writes) = match moment {
            Moment::Part(touch) | Moment::Whole(touch) => (*touch, true),
            Moment::Read(touch) => (*touch, false),
            Moment::Hidden(record, _) => {
                self.catch_up(record.saturating_add(1));
                return *moment;
            }
            Moment::ReadSomewhere => return *moment,
        };
        self.catch_up(touch.record);
        let seen = self.seen(&touch, writes);
        let placed = Touch {
            rip: seen.and_then(|seen| Some(self.side.spots.get(&seen.site)?.next)),
            ..touch
        };
        match (seen, writes) {
            (None, _) => self.unplaced = self.unplaced.saturating_add(1),
            (Some(seen), true) => self.store(&seen),
            (Some(seen), false) => self.read(&seen),
        }
        match moment {
            Moment::Part(_) => Moment::Part(placed),
            Moment::Whole(_) => Moment::Whole(placed),
            _ => Moment::Read(placed),
        }
    }

    /// The side file's line on an access.
    fn seen(&mut self, touch: &Touch, writes: bool) -> Option<Seen> {
        while let Some(seen) = self.side.seen.get(self.next_seen).copied() {
            let same = seen.record == touch.record && seen.writes == writes;
            if seen.record > touch.record {
                return None;
            }
            self.next_seen = self.next_seen.saturating_add(1);
            if same && seen.bytes == touch.bytes {
                return Some(seen);
            }
        }
        None
    }

    /// What changed before a record without being told by one.
    fn catch_up(&mut self, record: u64) {
        while let Some(unsaid) = self.side.unsaid.get(self.next_unsaid) {
            if unsaid.record > record {
                return;
            }
            self.value = unsaid.value;
            self.next_unsaid = self.next_unsaid.saturating_add(1);
        }
    }

    fn store(&mut self, seen: &Seen) {
        add(&mut self.writers, seen);
        let mut open = self.open.take().unwrap_or(Open {
            before: self.value,
            stored: 0,
            stores: 0,
            reads: Vec::new(),
        });
        self.value = seen.value;
        open.stored |= seen.bytes;
        open.stores = open.stores.saturating_add(1);
        if open.stored != self.full {
            self.open = Some(open);
            return;
        }
        self.changes = self.changes.saturating_add(1);
        self.fewest = self.fewest.min(open.stores);
        self.most = self.most.max(open.stores);
        if self.values.len() < KEPT {
            self.values.push((seen.record, seen.value));
        }
        let never = self.count(Met::Never);
        for read in open.reads {
            self.settle(read, Some(seen.value));
        }
        self.ended_torn = self.count(Met::Never) > never;
    }

    fn read(&mut self, seen: &Seen) {
        add(&mut self.readers, seen);
        let mut read = Read {
            record: seen.record,
            site: seen.site,
            bytes: seen.bytes,
            value: seen.value,
            before: seen.value,
            after: seen.value,
            met: Met::Whole,
        };
        match &mut self.open {
            Some(open) if seen.bytes & open.stored != 0 && seen.bytes & !open.stored != 0 => {
                read.before = open.before;
                if open.reads.len() < KEPT {
                    open.reads.push(read);
                } else {
                    self.settle(read, None);
                }
            }
            _ => self.keep(read),
        }
    }

    /// A read between the parts, once it is known what came after it.
    fn settle(&mut self, mut read: Read, after: Option<u64>) {
        read.after = after.unwrap_or(read.value);
        let shown = mask(read.bytes);
        let is = |value: u64| read.value & shown == value & shown;
        read.met = match after {
            None => Met::Unsettled,
            Some(after) if is(read.before) || is(after) => Met::Luck,
            Some(_) => Met::Never,
        };
        if read.met == Met::Never {
            let place = self
                .readers
                .iter_mut()
                .find(|place| place.site == read.site);
            if let Some(place) = place {
                place.never = place.never.saturating_add(1);
            }
        }
        self.keep(read);
    }

    fn keep(&mut self, read: Read) {
        if let Some(count) = self.counts.get_mut(read.met as usize) {
            *count = count.saturating_add(1);
        }
        if self.reads.len() < KEPT {
            self.reads.push(read);
        }
    }

    /// The trace has ended.
    pub(super) fn end(&mut self) {
        if let Some(open) = self.open.take() {
            for read in open.reads {
                self.settle(read, None);
            }
        }
        self.reads.sort_by_key(|read| read.record);
    }

    pub(super) fn count(&self, met: Met) -> u64 {
        self.counts.get(met as usize).copied().unwrap_or(0)
    }

    pub(super) fn never(&self) -> impl Iterator<Item = &Read> {
        self.reads.iter().filter(|read| read.met == Met::Never)
    }

    fn spot(&self, site: u64) -> Option<&Spot> {
        self.side.spots.get(&site)
    }

    /// Who a read came from.
    pub(super) fn reader(&self, read: &Read) -> String {
        self.spot(read.site).map_or(String::new(), Spot::name)
    }

    /// The first read of a record, once the story has ended.
    pub(super) fn read_in(&self, record: u64) -> Option<&Read> {
        let at = self.reads.partition_point(|read| read.record < record);
        self.reads.get(at).filter(|read| read.record == record)
    }

    /// What is known of the instruction before an address.
    pub(super) fn spot_before(&self, next: u64) -> Option<&Spot> {
        self.side.spots.values().find(|spot| spot.next == next)
    }

    /// By how much a read is off what came after it, as a signed number of the variable's length; none where it was not read whole.
    pub(super) fn off(&self, read: &Read) -> Option<i64> {
        let off = read.value.wrapping_sub(read.after);
        Some(self.signed(off)).filter(|_| read.bytes == self.full)
    }

    /// A value as a signed number of the variable's length.
    pub(super) fn signed(&self, value: u64) -> i64 {
        let beyond = u32::from(self.full.count_zeros() as u8).saturating_mul(8);
        let top = value.checked_shl(beyond).unwrap_or(0);
        let moved = i64::from_le_bytes(top.to_le_bytes());
        moved.checked_shr(beyond).unwrap_or(0)
    }
}

fn add(places: &mut Vec<Place>, seen: &Seen) {
    let known = places
        .iter_mut()
        .find(|place| place.site == seen.site && place.bytes == seen.bytes);
    if let Some(place) = known {
        place.count = place.count.saturating_add(1);
    } else if places.len() < PLACES {
        places.push(Place {
            site: seen.site,
            bytes: seen.bytes,
            count: 1,
            never: 0,
        });
    }
}

/// The bits of these bytes.
fn mask(bytes: u8) -> u64 {
    let mut mask = [0; 8];
    for (k, byte) in mask.iter_mut().enumerate() {
        let k = u32::try_from(k).unwrap_or(0);
        if bytes.checked_shr(k).unwrap_or(0) & 1 == 1 {
            *byte = u8::MAX;
        }
    }
    u64::from_le_bytes(mask)
}

#[cfg(test)]
mod tests {
    use super::*;

    /// A variable of 8 bytes that holds 1 in both halves, and these accesses: w or r, bytes, value.
    fn told(accesses: &[(char, u8, u64)]) -> Story {
        let seen = |(k, (kind, bytes, value)): (usize, &(char, u8, u64))| Seen {
            record: k as u64,
            site: 0,
            writes: *kind == 'w',
            bytes: *bytes,
            value: *value,
        };
        let side = Side {
            name: "position".to_string(),
            length: 8,
            value: 0x1_0000_0001,
            seen: accesses.iter().enumerate().map(seen).collect(),
            ended: true,
            ..Side::default()
        };
        let mut story = Story::new(side, &Watch::new(0x1000, 8).unwrap());
        for (k, (kind, bytes, _)) in accesses.iter().enumerate() {
            let touch = Touch {
                record: k as u64,
                opcode: 100,
                rip: None,
                address: 0x1000,
                size: 8,
                bytes: *bytes,
            };
            story.take(&match (kind, bytes) {
                ('r', _) => Moment::Read(touch),
                (_, 0xFF) => Moment::Whole(touch),
                _ => Moment::Part(touch),
            });
        }
        story.end();
        story
    }

    fn counts(accesses: &[(char, u8, u64)]) -> [u64; 4] {
        let story = told(accesses);
        assert_eq!(story.unplaced, 0);
        story.counts
    }

    const OLD: u64 = 0x1_0000_0001;
    const MIXED: u64 = 0x1_0000_0002;
    const NEW: u64 = 0x2_0000_0002;

    #[test]
    fn reads_are_told_apart() {
        let low = ('w', 0x0F, MIXED);
        let high = ('w', 0xF0, NEW);
        let read = |value| ('r', 0xFF, value);
        // whole, luck, never, unsettled
        assert_eq!(counts(&[read(OLD), low, high, read(NEW)]), [2, 0, 0, 0]);
        assert_eq!(counts(&[low, read(MIXED), high]), [0, 0, 1, 0]);
        assert_eq!(counts(&[low, read(MIXED)]), [0, 0, 0, 1]);
        // the high half stays as it was: what is read is the new value
        let same = ('w', 0xF0, MIXED);
        assert_eq!(counts(&[low, read(MIXED), same]), [0, 1, 0, 0]);
        // a read of one half alone is not between the parts
        assert_eq!(counts(&[low, ('r', 0x0F, MIXED), high]), [1, 0, 0, 0]);
        assert_eq!(counts(&[low, ('r', 0xF0, MIXED), high]), [1, 0, 0, 0]);
        // a whole store ends a change
        let whole = ('w', 0xFF, NEW);
        assert_eq!(counts(&[low, read(MIXED), whole, read(NEW)]), [1, 0, 1, 0]);
    }

    #[test]
    fn changes_and_by_how_much() {
        let story = told(&[
            ('w', 0x0F, MIXED),
            ('r', 0xFF, MIXED),
            ('w', 0xF0, NEW),
            ('w', 0xFF, OLD),
        ]);
        assert_eq!((story.changes, story.fewest, story.most), (2, 1, 2));
        let off: Vec<_> = story.never().map(|read| story.off(read)).collect();
        assert_eq!(off, [Some(-0x1_0000_0000)]);
        let said = story.sentence();
        assert!(said.contains("in 1 to 2 stores"), "{said}");
        assert!(said.contains("off by -4,294,967,296."), "{said}");
    }

    #[test]
    fn what_no_record_tells() {
        let mut story = told(&[]);
        story.side.unsaid.push(side::Unsaid {
            record: 3,
            value: NEW,
            by: "the kernel in read()".to_string(),
        });
        story.catch_up(2);
        assert_eq!(story.value, OLD);
        story.catch_up(3);
        assert_eq!(story.value, NEW);
        let words = "changed by the kernel in read(), once, first at record 3";
        assert_eq!(story.beside(), [words]);
        assert!(story
            .sentence()
            .starts_with("No store to position was seen."));
    }

    #[test]
    fn signed_by_length() {
        let of = |length, value| {
            let side = Side {
                length,
                ..Side::default()
            };
            Story::new(side, &Watch::new(0, length).unwrap()).signed(value)
        };
        assert_eq!(of(1, 0xFF), -1);
        assert_eq!(of(2, 0x7FFF), 0x7FFF);
        assert_eq!(of(4, 0x8000_0000), -0x8000_0000);
        assert_eq!(of(8, u64::MAX), -1);
    }
}
