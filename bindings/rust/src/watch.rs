//! Who tore a variable: the stores of a trace against a watched variable.
use crate::event::{Event, Events};
use crate::ffi;
use crate::refusal::Refusal;

/// A watch takes no more pairs.
pub const WATCH_PAIRS: u64 = 1_000_000;

const FINISHED: u64 = 255;
const NEVER: u64 = u64::MAX;

/// How many write events got each verdict.
#[derive(Clone, Copy, Debug, Default, PartialEq, Eq, Hash)]
pub struct Tally {
    /// Their address was not known.
    pub unknown: u64,
    /// They touched none of the variable's bytes.
    pub none: u64,
    /// They touched part of them.
    pub part: u64,
    /// They touched all of them.
    pub whole: u64,
}

impl Tally {
    fn plus(self, other: Tally) -> Tally {
        Tally {
            unknown: self.unknown + other.unknown,
            none: self.none + other.none,
            part: self.part + other.part,
            whole: self.whole + other.whole,
        }
    }
}

/// What one pair did.
#[derive(Clone, Copy, Debug, PartialEq, Eq, Hash)]
pub struct Step {
    /// Why visiting refuses the pair, where it does. Such a pair may have written the variable, and nobody knows.
    pub refused: Option<Refusal>,
    /// The pair's own write events.
    pub tally: Tally,
}

/// A watched variable, and what the pairs of a trace did to it so far. Pairs are a record and the register file before it, numbered from 0.
///
/// ```
/// use machhurel::{Watch, FILE_BYTES, RECORD_BYTES};
///
/// // a 4-byte store to [rbx + 8]: half of the variable at 0x1008
/// let mut record = [0u8; RECORD_BYTES];
/// record[..5].copy_from_slice(&[0x10, 40, 0, 1, 24]);
/// record[11] = 3;
/// record[16] = 4;
/// record[18] = 8;
/// record[37] = 0x02;
/// let mut file = [0u8; FILE_BYTES];
/// file[..2].copy_from_slice(&[0x20, 1 << 3]);
/// file[5 + 3 * 8 + 1] = 0x10;
///
/// let mut watch = Watch::new(0x1008, 8)?;
/// assert_eq!(watch.step(&record, &file)?.tally.part, 1);
/// assert_eq!(watch.step(b"no record", &file)?.refused, Some(machhurel::Refusal::Form));
/// assert_eq!((watch.pairs(), watch.refused()), (2, 1));
/// assert_eq!((watch.first_part(), watch.last_whole()), (Some(0), None));
/// assert_eq!(Watch::new(0x1008, 9), Err(machhurel::Refusal::Field));
/// # Ok::<(), machhurel::Refusal>(())
/// ```
#[derive(Clone, Copy, Debug, PartialEq, Eq, Hash)]
pub struct Watch {
    words: [u64; 10],
}

impl Watch {
    /// A new watch of the `length` bytes from `address` on. Another length than 1 to 8 is refused.
    pub fn new(address: u64, length: u64) -> Result<Watch, Refusal> {
        let mut words = [0; 10];
        // SAFETY: the words are ours alone.
        let answer = unsafe { ffi::machhurel_watch_new(&mut words, address, length) };
        Refusal::of(answer).map_or(Ok(Watch { words }), Err)
    }

    /// The next pair of the trace. Past [`WATCH_PAIRS`] it is refused before it is looked at, and nothing changes.
    pub fn step(&mut self, record: &[u8], file: &[u8]) -> Result<Step, Refusal> {
        // SAFETY: the words are borrowed for writing alone; each pointer and length are those of a slice.
        let answer = unsafe {
            ffi::machhurel_watch_step(
                &mut self.words,
                record.as_ptr(),
                record.len(),
                file.as_ptr(),
                file.len(),
            )
        };
        if let Some(refusal) = Refusal::of(answer & 0xFF) {
            return Err(refusal);
        }
        let count = |bit: u32| (answer >> bit) & 0xFF;
        Ok(Step {
            refused: Refusal::of(count(8) | (answer >> 48) << 8),
            tally: Tally {
                unknown: count(16),
                none: count(24),
                part: count(32),
                whole: count(40),
            },
        })
    }

    /// The watch of this trace with another one behind it: counts add, the first part write is the earlier, the last whole one the later,
    /// and the later trace's numbers go on behind this one's. That this is the watch of both traces in one is proved where they have the
    /// same variable and no more than [`WATCH_PAIRS`] pairs together; elsewhere there is none.
    pub fn then(&self, later: &Watch) -> Option<Watch> {
        if self.words[..2] != later.words[..2] || self.pairs() + later.pairs() > WATCH_PAIRS {
            return None;
        }
        let tally = self.tally().plus(later.tally());
        let moved = |number: Option<u64>| number.map(|n| self.pairs() + n);
        let first = self.first_part().or(moved(later.first_part()));
        let last = moved(later.last_whole()).or(self.last_whole());
        Some(Watch {
            words: [
                self.address(),
                self.length(),
                self.pairs() + later.pairs(),
                tally.unknown,
                tally.none,
                tally.part,
                tally.whole,
                self.refused() + later.refused(),
                first.unwrap_or(NEVER),
                last.unwrap_or(NEVER),
            ],
        })
    }

    /// Which of the variable's bytes an event reached, read or written: bit i for byte i. None where it is no access of memory, or its
    /// address is not known. A read reaches what the library says that a store of as many bytes at its address writes.
    ///
    /// ```
    /// use machhurel::{Event, Watch};
    /// let watch = Watch::new(0x1008, 8)?;
    /// let read = |address, size| watch.reached(&Event::MemoryRead { address, size });
    /// assert_eq!((read(Some(0x1008), 8), read(Some(0x100C), 8)), (0xFF, 0xF0));
    /// assert_eq!((read(Some(0x1010), 8), read(None, 8)), (0, 0));
    /// # Ok::<(), machhurel::Refusal>(())
    /// ```
    pub fn reached(&self, event: &Event) -> u8 {
        let (address, size) = match *event {
            Event::MemoryRead { address, size } | Event::MemoryWrite { address, size } => {
                (address, size)
            }
            _ => (None, 0),
        };
        let store = match address {
            None => return 0,
            Some(address) => store_at(address, size),
        };
        match verdict(self.address(), self.length(), &store, 0) {
            Some(Ok(named)) => named.touched,
            _ => 0,
        }
    }

    /// The events of a log, each with what it did to the variable.
    pub fn names<'a>(&self, log: &'a [u8]) -> Names<'a> {
        Names {
            address: self.address(),
            length: self.length(),
            log,
            events: Events::new(log),
        }
    }

    /// The variable's first byte.
    pub fn address(&self) -> u64 {
        self.words[0]
    }

    /// The variable's length in bytes.
    pub fn length(&self) -> u64 {
        self.words[1]
    }

    /// The pairs taken so far, refused ones among them.
    pub fn pairs(&self) -> u64 {
        self.words[2]
    }

    /// The write events so far.
    pub fn tally(&self) -> Tally {
        Tally {
            unknown: self.words[3],
            none: self.words[4],
            part: self.words[5],
            whole: self.words[6],
        }
    }

    /// The pairs that visiting refuses, so far.
    pub fn refused(&self) -> u64 {
        self.words[7]
    }

    /// The number of the first pair with a part write.
    pub fn first_part(&self) -> Option<u64> {
        Some(self.words[8]).filter(|&number| number != NEVER)
    }

    /// The number of the last pair with a whole write.
    pub fn last_whole(&self) -> Option<u64> {
        Some(self.words[9]).filter(|&number| number != NEVER)
    }
}

/// How a store at a known address begins, and its length in a log: kind, address, size.
const STORE: u8 = 4;
const STORE_BYTES: usize = 10;

/// The log of one store.
fn store_at(address: u64, size: u8) -> [u8; STORE_BYTES] {
    let [a, b, c, d, e, f, g, h] = address.to_le_bytes();
    [STORE, a, b, c, d, e, f, g, h, size]
}

/// What an event did to a watched variable.
#[derive(Clone, Copy, Debug, PartialEq, Eq, Hash)]
pub enum Verdict {
    /// It wrote no memory.
    NoWrite,
    /// It wrote memory at an address that is not known.
    AddressUnknown,
    /// It wrote none of the variable's bytes.
    NoneTouched,
    /// It wrote part of them: it tore the variable.
    PartTouched,
    /// It wrote all of them.
    WholeTouched,
}

/// The verdict on an event, and which of the variable's bytes it wrote.
#[derive(Clone, Copy, Debug, PartialEq, Eq, Hash)]
pub struct Named {
    /// What it did.
    pub verdict: Verdict,
    /// Bit i for byte i of the variable.
    pub touched: u8,
    /// The event's length in the log.
    pub length: usize,
}

/// The verdict on the event at `log[at..]`, against the variable of `length` bytes at `address`; none at or past the log's end.
///
/// ```
/// use machhurel::{verdict, Verdict};
/// let mut log = [0u8; 10]; // a store of 4 bytes at 0x100C
/// log[..3].copy_from_slice(&[4, 0x0C, 0x10]);
/// log[9] = 4;
/// let named = verdict(0x1008, 8, &log, 0).unwrap()?;
/// assert_eq!((named.verdict, named.touched, named.length), (Verdict::PartTouched, 0xF0, 10));
/// assert_eq!(verdict(0x1008, 8, &log, 10), None);
/// # Ok::<(), machhurel::Refusal>(())
/// ```
pub fn verdict(address: u64, length: u64, log: &[u8], at: usize) -> Option<Result<Named, Refusal>> {
    // SAFETY: the pointer and the length are those of a slice.
    let answer = unsafe { ffi::machhurel_verdict(address, length, log.as_ptr(), log.len(), at) };
    if answer & 0xFF == FINISHED {
        return None;
    }
    if let Some(refusal) = Refusal::of(answer) {
        return Some(Err(refusal));
    }
    Some(Ok(Named {
        verdict: match (answer >> 8) & 0xFF {
            0 => Verdict::NoWrite,
            1 => Verdict::AddressUnknown,
            2 => Verdict::NoneTouched,
            3 => Verdict::PartTouched,
            _ => Verdict::WholeTouched,
        },
        touched: (answer >> 16) as u8,
        length: (answer >> 32) as usize,
    }))
}

/// Walks the events of a log from its start, each with what it did to a variable. It ends after the last event, or after the first refusal.
#[derive(Clone, Debug)]
pub struct Names<'a> {
    address: u64,
    length: u64,
    log: &'a [u8],
    events: Events<'a>,
}

impl Iterator for Names<'_> {
    type Item = Result<(Event, Named), Refusal>;

    fn next(&mut self) -> Option<Self::Item> {
        let at = self.events.at();
        let event = match self.events.next()? {
            Ok(event) => event,
            Err(refusal) => return Some(Err(refusal)),
        };
        let named = verdict(self.address, self.length, self.log, at)?;
        Some(named.map(|named| (event, named)))
    }
}

impl core::iter::FusedIterator for Names<'_> {}
