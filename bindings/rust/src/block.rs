//! A block of records in one call.
use crate::ffi;
use crate::refusal::Refusal;

/// No block has more records.
pub const BLOCK_RECORDS: usize = 1000;
/// The bytes of a record's answer.
pub const ANSWER_BYTES: usize = 4;

/// What a block of records left.
///
/// ```
/// use machhurel::{visit_block, Refusal, ANSWER_BYTES, FILE_BYTES, RECORD_BYTES};
///
/// // one register is read: 3 bytes of log
/// let mut record = [0u8; RECORD_BYTES];
/// record[..5].copy_from_slice(&[0x10, 40, 0, 1, 1]);
/// record[37] = 0x01;
/// let mut complex = record;
/// complex[36] = 0x20;
/// let mut file = [0u8; FILE_BYTES];
/// file[0] = 0x20;
///
/// // the logs of the records stand behind one another; the last one has no room
/// let records = [record, complex, record, record].concat();
/// let mut log = [0u8; 8];
/// let mut answers = [0u8; 4 * ANSWER_BYTES];
/// let block = visit_block(&records, RECORD_BYTES, &file, &mut log, 0, &mut answers)?;
/// assert_eq!((block.count(), block.written()), (3, 6));
/// let refused: Vec<_> = block.answers().map(Result::err).collect();
/// let complex = Some(Refusal::Complex { opcode: 40 });
/// assert_eq!(refused, [None, complex, None, Some(Refusal::Room { needed: 3 })]);
/// let logs: Vec<&[u8]> = block.answers().flatten().collect();
/// assert_eq!(logs, [[1, 0, 0], [1, 0, 0]]);
/// # Ok::<(), Refusal>(())
/// ```
#[derive(Clone, Copy, Debug, PartialEq, Eq, Hash)]
pub struct Block<'a> {
    count: usize,
    log: &'a [u8],
    answers: &'a [u8],
}

impl<'a> Block<'a> {
    /// The records before the first that had too little room; all of them where none had.
    pub fn count(&self) -> usize {
        self.count
    }

    /// The bytes of log that were written, from the start on.
    pub fn written(&self) -> usize {
        self.log.len()
    }

    /// The logs behind one another, without a gap.
    pub fn log(&self) -> &'a [u8] {
        self.log
    }

    /// What each record's visit answered, up to the first that had too little room, and with it: its log, or why it was refused.
    pub fn answers(&self) -> Answers<'a> {
        Answers {
            log: self.log,
            answers: self.answers,
        }
    }
}

/// The answers of a block's records, one after the other.
#[derive(Clone, Copy, Debug, PartialEq, Eq, Hash)]
pub struct Answers<'a> {
    log: &'a [u8],
    answers: &'a [u8],
}

impl<'a> Iterator for Answers<'a> {
    type Item = Result<&'a [u8], Refusal>;

    fn next(&mut self) -> Option<Self::Item> {
        let (number, count, opcode, rest) = match self.answers {
            [number, count, low, high, rest @ ..] => {
                (*number, *count, u16::from_le_bytes([*low, *high]), rest)
            }
            _ => return None,
        };
        self.answers = rest;
        let bits = u64::from(number) | u64::from(opcode) << 8 | u64::from(count) << 32;
        if let Some(refusal) = Refusal::of(bits) {
            return Some(Err(refusal));
        }
        let (log, rest) = self.log.split_at(usize::from(count).min(self.log.len()));
        self.log = rest;
        Some(Ok(log))
    }
}

/// Visits up to [`BLOCK_RECORDS`] records of `each` bytes under one register file, which is parsed once. Their logs go into `log[start..]`
/// behind one another, and equal those of single calls. Each record gets [`ANSWER_BYTES`] in `answers`; the first that has too little room
/// ends the block, and what is behind stays as it was. A record that is refused otherwise writes no log, and the next goes on.
///
/// The whole call is refused, and writes nothing, where `each` is no record's length or the bytes are no whole records (1), there are too
/// many (2), the file is bad (3), or `answers` has too little room (7, which says no bytes).
pub fn visit_block<'a>(
    records: &[u8],
    each: usize,
    file: &[u8],
    log: &'a mut [u8],
    start: usize,
    answers: &'a mut [u8],
) -> Result<Block<'a>, Refusal> {
    // SAFETY: each pointer and length are those of a slice; `log` and `answers` are borrowed for writing alone.
    let answer = unsafe {
        ffi::machhurel_block(
            records.as_ptr(),
            records.len(),
            each,
            file.as_ptr(),
            file.len(),
            log.as_mut_ptr(),
            log.len(),
            start,
            answers.as_mut_ptr(),
            answers.len(),
        )
    };
    if let Some(refusal) = Refusal::of(answer) {
        return Err(refusal);
    }
    let count = usize::from((answer >> 8) as u16);
    let written = (answer >> 32) as usize;
    // the first that is refused for room has its answer too
    let all = records.len().checked_div(each).unwrap_or(0);
    let answered = ANSWER_BYTES * all.min(count + 1);
    Ok(Block {
        count,
        log: log.get(start..start + written).unwrap_or(&[]),
        answers: answers.get(..answered).unwrap_or(&[]),
    })
}
