//! A stream of register files and records, in pieces of any size.
use crate::ffi;
use crate::refusal::Refusal;

/// Reads a stream as it arrives: the unfinished item and the latest good register file are kept, and each record's log is told under
/// that file. However the stream is cut into chunks, what is told is the same.
///
/// ```
/// use machhurel::{Access, End, Known, Reader, Record, Register, RegisterFile, Spec, Told, LOG_BYTES};
///
/// let file = RegisterFile::new().with(Known::Rbx, 0x1000);
/// let record = Record::builder(40).operand(Spec::Disp, Access::Read).base(Register::quad(3)).memory_size(8).build()?;
/// let stream = [&file[..], &record[..], &record[..7]].concat();
///
/// let mut log = [0u8; LOG_BYTES];
/// let mut reader = Reader::new();
/// // the first bytes end inside the record
/// let first = reader.read(&stream[..150], &mut log, 0);
/// assert_eq!((first.taken, first.told), (150, Told::More));
/// // one call tells of one record, and says how much of the chunk it took
/// let second = reader.read(&stream[150..], &mut log, 0);
/// assert_eq!((second.taken, second.told), (31, Told::Log(13)));
/// let third = reader.read(&stream[181..], &mut log, 0);
/// assert_eq!((third.taken, third.told), (7, Told::More));
/// assert_eq!(reader.close(), End::Inside);
/// # Ok::<(), machhurel::Refusal>(())
/// ```
#[derive(Clone, Debug, PartialEq, Eq, Hash)]
pub struct Reader {
    words: [u64; 48],
}

/// How much of a chunk was taken, and what came of it.
#[derive(Clone, Copy, Debug, PartialEq, Eq, Hash)]
pub struct Handed {
    /// The bytes taken from the chunk's front. The rest is to be handed over again.
    pub taken: usize,
    /// What came of them.
    pub told: Told,
}

/// What a call told.
#[derive(Clone, Copy, Debug, PartialEq, Eq, Hash)]
pub enum Told {
    /// The chunk is taken, and no record or bad file finished in it.
    More,
    /// A record's log stands in the buffer from the start on: so many bytes.
    Log(usize),
    /// A record, or a register file, was refused. It is used up, and reading goes on; a refused file is not used.
    Refused(Refusal),
    /// The next byte begins no item, or did in an earlier call: nothing more is read.
    Stopped,
    /// Behind the start there is no room for every log: nothing was taken.
    Room {
        /// The room that a call needs.
        needed: usize,
    },
}

/// How a stream ended.
#[derive(Clone, Copy, Debug, PartialEq, Eq, Hash)]
pub enum End {
    /// Behind an item, or before the first.
    Between,
    /// Inside an item.
    Inside,
    /// At a byte that begins no item.
    Stopped,
}

impl Default for Reader {
    fn default() -> Reader {
        Reader::new()
    }
}

impl Reader {
    /// A reader at the front of a stream, with no register file.
    pub fn new() -> Reader {
        let mut reader = Reader { words: [0; 48] };
        // SAFETY: the words are borrowed for writing alone. The call always answers 0.
        unsafe { ffi::machhurel_reader_new(&mut reader.words) };
        reader
    }

    /// Takes the next bytes of the stream, up to the first record or bad file that finishes. [`crate::LOG_BYTES`] behind the start are
    /// room enough.
    pub fn read(&mut self, chunk: &[u8], log: &mut [u8], start: usize) -> Handed {
        let mut taken = 0;
        // SAFETY: the words, the log and the number are borrowed for writing alone; each pointer and length are those of a slice.
        let answer = unsafe {
            ffi::machhurel_reader_read(
                &mut self.words,
                chunk.as_ptr(),
                chunk.len(),
                log.as_mut_ptr(),
                log.len(),
                start,
                &mut taken,
            )
        };
        let count = (answer >> 32) as usize;
        let is_finished = answer >> 24 & 1 == 1;
        let told = match Refusal::of(answer) {
            None if is_finished => Told::Log(count),
            None => Told::More,
            Some(refusal) if is_finished => Told::Refused(refusal),
            Some(Refusal::Room { needed }) => Told::Room { needed },
            Some(_) => Told::Stopped,
        };
        Handed {
            taken: taken as usize,
            told,
        }
    }

    /// Ends the stream. The reader is fresh then, with no register file.
    pub fn close(&mut self) -> End {
        // SAFETY: the words are borrowed for writing alone.
        match unsafe { ffi::machhurel_reader_close(&mut self.words) } {
            0 => End::Between,
            8 => End::Inside,
            _ => End::Stopped,
        }
    }
}
