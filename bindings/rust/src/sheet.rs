//! Exact figures for the acceptance sheet: totals over many logs under one watch.
use crate::ffi;
use crate::refusal::Refusal;

/// A sheet takes no more logs.
pub const SHEET_LOGS: u64 = 4_294_967_295;
/// A log that a sheet takes has no more bytes.
pub const SHEET_LOG_BYTES: usize = 65_536;

/// The words of a sheet, as a C caller keeps it.
const WORDS: usize = 99;
const BANKS: usize = 14;
const SIZES: usize = 64;
const READS: usize = 7;
const WRITES: usize = READS + BANKS;
const BY_SIZE: usize = WRITES + BANKS;

/// Totals over all events of the logs taken so far, against a watched variable. They are the same for any order of the logs, and each stays
/// below two to the 53.
///
/// ```
/// use machhurel::{Refusal, Sheet};
///
/// // rbx is read, and 4 bytes are written at 0x100C: half of the variable at 0x1008
/// let log = [1, 0, 3, 4, 0x0C, 0x10, 0, 0, 0, 0, 0, 0, 4];
/// let mut sheet = Sheet::new(0x1008, 8)?;
/// sheet.add(&log)?;
/// assert_eq!((sheet.logs(), sheet.reads(0), sheet.of_size(4)), (1, 1, 1));
/// assert_eq!((sheet.bytes_in(), sheet.bytes_out()), (0, 4));
/// assert_eq!((sheet.part_writes(), sheet.known_writes()), (1, 1));
///
/// // a refused log adds nothing, and is no log taken
/// assert_eq!(sheet.add(&log[..12]), Err(Refusal::Form));
/// assert_eq!((sheet.logs(), sheet.reads(0)), (1, 1));
/// assert_eq!(Sheet::new(0x1008, 9), Err(Refusal::Field));
/// # Ok::<(), Refusal>(())
/// ```
#[derive(Clone, Copy, Debug, PartialEq, Eq, Hash)]
pub struct Sheet {
    words: [u64; WORDS],
}

impl Sheet {
    /// A new sheet, whose watch is of the `length` bytes from `address` on. Another length than 1 to 8 is refused.
    pub fn new(address: u64, length: u64) -> Result<Sheet, Refusal> {
        let mut words = [0; WORDS];
        // SAFETY: the words are ours alone.
        let answer = unsafe { ffi::machhurel_sheet_new(&mut words, address, length) };
        Refusal::of(answer).map_or(Ok(Sheet { words }), Err)
    }

    /// One log more. Past [`SHEET_LOGS`] it is refused with [`Refusal::Logs`], whatever it is; then with [`Refusal::Field`] where it has more
    /// than [`SHEET_LOG_BYTES`]; then, where it does not read whole, by its own refusal. A refused log changes nothing.
    pub fn add(&mut self, log: &[u8]) -> Result<(), Refusal> {
        // SAFETY: the words are borrowed for writing alone; the pointer and the length are those of a slice.
        let answer = unsafe { ffi::machhurel_sheet_add(&mut self.words, log.as_ptr(), log.len()) };
        Refusal::of(answer).map_or(Ok(()), Err)
    }

    /// The watched variable's first byte.
    pub fn address(&self) -> u64 {
        self.words[0]
    }

    /// The watched variable's length in bytes.
    pub fn length(&self) -> u64 {
        self.words[1]
    }

    /// The logs taken.
    pub fn logs(&self) -> u64 {
        self.words[2]
    }

    /// Bytes of memory read, at unknown addresses too.
    pub fn bytes_in(&self) -> u64 {
        self.words[3]
    }

    /// Bytes of memory written, at unknown addresses too.
    pub fn bytes_out(&self) -> u64 {
        self.words[4]
    }

    /// Writes at known addresses that touched part of the variable.
    pub fn part_writes(&self) -> u64 {
        self.words[5]
    }

    /// Writes at known addresses.
    pub fn known_writes(&self) -> u64 {
        self.words[6]
    }

    /// Register reads of a bank; 0 for a bank that there is not.
    pub fn reads(&self, bank: u8) -> u64 {
        self.count(READS, BANKS, bank.into())
    }

    /// Register writes of a bank; 0 for a bank that there is not.
    pub fn writes(&self, bank: u8) -> u64 {
        self.count(WRITES, BANKS, bank.into())
    }

    /// Memory events of so many bytes, at unknown addresses too; 0 for a size outside 1 to 64.
    pub fn of_size(&self, bytes: u8) -> u64 {
        self.count(BY_SIZE, SIZES, usize::from(bytes).wrapping_sub(1))
    }

    /// Word `i` of the `count` words from a place on; 0 where there is none.
    fn count(&self, from: usize, count: usize, i: usize) -> u64 {
        let word = self
            .words
            .get(from..from + count)
            .and_then(|words| words.get(i));
        word.copied().unwrap_or(0)
    }
}
