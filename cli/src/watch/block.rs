//! A stretch of a trace, looked at on its own: stretches merge, so that several can be looked at at once.
use super::moment::{Moment, Pair};
use super::reasons::Why;
use super::rows;
use crate::format::Kind;
use crate::line::Place;
use crate::walk::{Met, Walk};
use machhurel::{known, visit, Class, Items, Known, Step, Verdict, Watch, LOG_BYTES, WATCH_PAIRS};

/// So many pairs are looked at in one go.
const PAIRS: u64 = 4_096;
/// So many bytes end a block too: register files may follow each other without a record.
const BYTES: usize = 1 << 20;

/// Items that follow each other, and the register file before them.
pub(super) struct Block {
    /// The number of its first record.
    first: u64,
    file: Vec<u8>,
    /// Good register files and records.
    items: Vec<u8>,
    pub(super) pairs: u64,
}

impl Block {
    /// The next block, and whether the trace has ended. No block reaches over the end of a watch, over a damaged place, or over a place
    /// at which more may be long in coming.
    pub(super) fn fill(walk: &mut Walk) -> (Block, bool) {
        let mut block = Block {
            first: walk.records(),
            file: walk.file().to_vec(),
            items: Vec::new(),
            pairs: 0,
        };
        loop {
            match walk.meet() {
                None => return (block, true),
                Some(Met::BadFile(_)) => return (block, false),
                Some(Met::File) => block.items.extend_from_slice(walk.file()),
                Some(Met::Record(_)) => {
                    block.items.extend_from_slice(walk.record());
                    block.pairs = block.pairs.saturating_add(1);
                }
            }
            let full = walk.records().checked_rem(WATCH_PAIRS) == Some(0) && block.pairs > 0;
            let much = block.pairs >= PAIRS || block.items.len() >= BYTES;
            if full || much || walk.may_wait() {
                return (block, false);
            }
        }
    }
}

/// What is looked for.
#[derive(Clone)]
pub(super) struct Look {
    /// The variable, and no pair yet.
    pub(super) watch: Watch,
    pub(super) kind: Kind,
    /// The trace's name.
    pub(super) name: String,
    /// Whether every access of the variable is wanted, for a page.
    pub(super) pictured: bool,
}

/// What was seen in a block.
pub(super) struct Seen {
    pub(super) first: u64,
    /// The pairs of the block.
    pairs: u64,
    pub(super) watch: Watch,
    /// A line for each part write, and how many.
    pub(super) lines: Vec<u8>,
    named: u64,
    /// Records of which not all is known, and why.
    pub(super) unsure: Vec<(u64, Why)>,
    /// Every access of the variable, where that is wanted.
    pub(super) moments: Option<Vec<Moment>>,
}

impl Look {
    pub(super) fn over(&self, block: &Block) -> Seen {
        let mut seen = Seen {
            first: block.first,
            pairs: block.pairs,
            watch: self.watch,
            lines: Vec::new(),
            named: 0,
            unsure: Vec::new(),
            moments: Some(Vec::new()).filter(|_| self.pictured),
        };
        let mut file = block.file.as_slice();
        let mut number = block.first;
        for item in Items::new(&block.items).flatten() {
            if item.class == Class::File {
                file = item.bytes;
                continue;
            }
            let opcode = item.opcode().unwrap_or(0);
            if let Ok(step) = seen.watch.step(item.bytes, file) {
                seen.note(number, opcode, &step);
                if step.tally.part > 0 {
                    self.name_parts(&mut seen, number, item.bytes, file);
                }
            }
            if let Some(moments) = &mut seen.moments {
                let record = item.bytes;
                let pair = Pair {
                    number,
                    opcode,
                    record,
                    file,
                };
                pair.moments(&self.watch, moments);
            }
            number = number.saturating_add(1);
        }
        seen
    }

    /// A line for each part write of a pair, by the library's verdict on each event of its log.
    fn name_parts(&self, seen: &mut Seen, record: u64, bytes: &[u8], file: &[u8]) {
        let mut log = [0; LOG_BYTES];
        let length = visit(bytes, file, &mut log, 0).unwrap_or(0);
        let trace = &self.name;
        let rip = known(file, Known::Rip);
        let place = Place { trace, record, rip };
        let names = self.watch.names(log.get(..length).unwrap_or(&[]));
        for (event, named) in names.flatten() {
            if named.verdict == Verdict::PartTouched {
                seen.named = seen.named.saturating_add(1);
                let length = self.watch.length();
                rows::put_part(
                    &mut seen.lines,
                    self.kind,
                    &place,
                    &event,
                    named.touched,
                    length,
                );
            }
        }
    }
}

impl Seen {
    /// Whether no pair was passed over, and every part write named, in the lines and among the moments.
    pub(super) fn is_whole(&self) -> bool {
        let tally = self.watch.tally();
        let moments = self.moments.as_ref().map_or(true, |moments| {
            let count = |is: fn(&&Moment) -> bool| moments.iter().filter(is).count() as u64;
            count(|moment| matches!(moment, Moment::Part(_))) == tally.part
                && count(|moment| matches!(moment, Moment::Whole(_))) == tally.whole
                && count(|moment| matches!(moment, Moment::Hidden(..)))
                    == tally.unknown.saturating_add(self.watch.refused())
        });
        self.watch.pairs() == self.pairs && tally.part == self.named && moments
    }

    fn note(&mut self, record: u64, opcode: u16, step: &Step) {
        if let Some(refusal) = step.refused {
            self.unsure
                .push((record, Why::Refused(refusal.of_opcode(opcode))));
        }
        if step.tally.unknown > 0 {
            self.unsure.push((record, Why::Unknown));
        }
    }
}
