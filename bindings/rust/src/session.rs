//! A log session: one visit's log after the other in one buffer, with running counts.
use crate::ffi;
use crate::refusal::Refusal;

/// A buffer that logs are appended to, and what stands in it: the bytes used, the events, and the memory events at unknown addresses.
/// The counts are always those that reading the log from its start would give.
///
/// ```
/// use machhurel::{Refusal, Session, FILE_BYTES, RECORD_BYTES};
///
/// // 8 bytes are read at rbx
/// let mut record = [0u8; RECORD_BYTES];
/// record[..5].copy_from_slice(&[0x10, 40, 0, 1, 18]);
/// record[11] = 3;
/// record[16] = 8;
/// record[37] = 0x01;
/// let mut file = [0u8; FILE_BYTES];
/// file[0] = 0x20; // it knows nothing
///
/// let mut buffer = [0u8; 12];
/// let mut session = Session::new(&mut buffer);
/// assert_eq!(session.append(&record, &file), Ok(5));
/// assert_eq!(session.append(&record, &file), Ok(5));
/// assert_eq!((session.used(), session.events(), session.unknown()), (10, 4, 2));
/// assert_eq!(session.log(), [1, 0, 3, 5, 8, 1, 0, 3, 5, 8]);
///
/// // refused, it changes nothing; after a reset there is room again
/// assert_eq!(session.append(&record, &file), Err(Refusal::Room { needed: 5 }));
/// assert_eq!(session.events(), 4);
/// session.reset();
/// assert_eq!((session.used(), session.events(), session.unknown()), (0, 0, 0));
/// assert_eq!(session.append(&record, &file), Ok(5));
/// ```
#[derive(Debug, PartialEq, Eq, Hash)]
pub struct Session<'a> {
    words: [u64; 3],
    buffer: &'a mut [u8],
}

impl<'a> Session<'a> {
    /// An empty session over a buffer. No byte of it is cleared.
    pub fn new(buffer: &'a mut [u8]) -> Session<'a> {
        let words = [0; 3];
        let mut session = Session { words, buffer };
        session.reset();
        session
    }

    /// Visits a record under a register file, with its log behind the bytes used, and answers how many bytes it took. Refused, it changes
    /// no count and no byte; for too little room it says how much this append needs.
    pub fn append(&mut self, record: &[u8], file: &[u8]) -> Result<usize, Refusal> {
        // SAFETY: the words and the buffer are borrowed for writing alone; each pointer and length are those of a slice.
        let answer = unsafe {
            ffi::machhurel_append(
                &mut self.words,
                record.as_ptr(),
                record.len(),
                file.as_ptr(),
                file.len(),
                self.buffer.as_mut_ptr(),
                self.buffer.len(),
            )
        };
        Refusal::of(answer).map_or(Ok((answer >> 32) as usize), Err)
    }

    /// Makes all counts 0 and clears no byte: the whole buffer has room again.
    pub fn reset(&mut self) {
        // SAFETY: the words are borrowed for writing alone. The call always answers 0.
        unsafe { ffi::machhurel_reset(&mut self.words) };
    }

    /// The bytes used.
    pub fn used(&self) -> usize {
        self.words[0] as usize
    }

    /// The events in them.
    pub fn events(&self) -> u64 {
        self.words[1]
    }

    /// The memory events at unknown addresses among these.
    pub fn unknown(&self) -> u64 {
        self.words[2]
    }

    /// The log so far.
    pub fn log(&self) -> &[u8] {
        self.buffer.get(..self.used()).unwrap_or(&[])
    }

    /// The whole buffer again, with the log at its front. The counts end here.
    pub fn into_buffer(self) -> &'a mut [u8] {
        self.buffer
    }
}
