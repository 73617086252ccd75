//! The items of a trace of any length, read through a buffer of one size.
use crate::item::{first, Broken, Class, Item};
use std::fmt;
use std::io::{self, ErrorKind, Read};
use std::vec::Vec;

/// How many bytes are asked for at once.
const BUFFER: usize = 1 << 18;

/// Reads the items of a trace one by one. Its memory does not grow with the trace.
///
/// ```
/// use machhurel::{RegisterFile, TraceReader};
/// let trace = [RegisterFile::new(), RegisterFile::new()].concat();
/// let mut reader = TraceReader::new(&trace[..]);
/// while let Some(item) = reader.next_item()? {
///     assert_eq!(item.at % 141, 0);
/// }
/// assert_eq!(reader.at(), 282);
/// # Ok::<(), machhurel::TraceError>(())
/// ```
pub struct TraceReader<R> {
    source: R,
    buffer: Vec<u8>,
    begin: usize,
    end: usize,
    at: u64,
    stopped: bool,
}

/// Why a trace could not be read further. Its items up to [`TraceReader::at`] were read.
#[derive(Debug)]
pub enum TraceError {
    /// What stands there is no item.
    Broken(Broken),
    /// Reading failed.
    Unread(io::Error),
}

impl fmt::Display for TraceError {
    fn fmt(&self, f: &mut fmt::Formatter<'_>) -> fmt::Result {
        match self {
            TraceError::Broken(broken) => broken.fmt(f),
            TraceError::Unread(error) => write!(f, "cannot be read: {error}"),
        }
    }
}

impl std::error::Error for TraceError {}

impl<R: Read> TraceReader<R> {
    /// The items of what this source gives.
    pub fn new(source: R) -> Self {
        TraceReader {
            source,
            buffer: std::vec![0; BUFFER],
            begin: 0,
            end: 0,
            at: 0,
            stopped: false,
        }
    }

    /// The byte at which the next item begins, or at which reading ended.
    pub fn at(&self) -> u64 {
        self.at
    }

    /// Whether a whole item is at hand, so that the next call does not wait for the source.
    pub fn is_ready(&self) -> bool {
        matches!(first(self.held()), Some(Ok(_)))
    }

    fn held(&self) -> &[u8] {
        self.buffer.get(self.begin..self.end).unwrap_or(&[])
    }

    /// The next item; none at the trace's end, and after an error.
    pub fn next_item(&mut self) -> Result<Option<Item<'_>>, TraceError> {
        if self.stopped {
            return Ok(None);
        }
        let found = self.find();
        if !matches!(found, Ok(Some(_))) {
            self.stopped = true;
        }
        let (class, length) = match found? {
            Some(found) => found,
            None => return Ok(None),
        };
        let (at, begin) = (self.at, self.begin);
        self.at = at.saturating_add(length as u64);
        self.begin = begin.saturating_add(length);
        let bytes = self.buffer.get(begin..self.begin).unwrap_or(&[]);
        Ok(Some(Item { at, class, bytes }))
    }

    /// The class and the length of the item at hand, which is whole in the buffer then.
    fn find(&mut self) -> Result<Option<(Class, usize)>, TraceError> {
        loop {
            let found = first(self.held());
            match found {
                Some(Ok(found)) => return Ok(Some(found)),
                Some(Err(broken @ Broken::Unknown { .. })) => {
                    return Err(TraceError::Broken(broken))
                }
                Some(Err(Broken::Cut { .. })) | None => {}
            }
            if self.fill().map_err(TraceError::Unread)? == 0 {
                return match found {
                    Some(Err(broken)) => Err(TraceError::Broken(broken)),
                    _ => Ok(None),
                };
            }
        }
    }

    /// Moves what is held to the front and reads more behind it. Answers how many bytes came.
    fn fill(&mut self) -> io::Result<usize> {
        self.buffer.copy_within(self.begin..self.end, 0);
        self.end = self.end.saturating_sub(self.begin);
        self.begin = 0;
        loop {
            let room = self.buffer.get_mut(self.end..).unwrap_or(&mut []);
            match self.source.read(room) {
                Ok(n) => {
                    self.end = self.end.saturating_add(n).min(self.buffer.len());
                    return Ok(n);
                }
                Err(error) if error.kind() == ErrorKind::Interrupted => {}
                Err(error) => return Err(error),
            }
        }
    }
}
