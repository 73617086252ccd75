//! Standard output and standard error, which may be closed or full at any time.
use std::fmt;
use std::io::{self, ErrorKind, Write};

/// Output could not be written.
pub(crate) enum Unwritten {
    /// Whoever read it has gone: that is no error.
    Closed,
    /// It is full, or fails.
    Failed(io::Error),
}

impl From<io::Error> for Unwritten {
    fn from(error: io::Error) -> Self {
        match error.kind() {
            ErrorKind::BrokenPipe => Unwritten::Closed,
            _ => Unwritten::Failed(error),
        }
    }
}

/// So many bytes are written at once.
const FULL: usize = 1 << 16;

/// Lines on their way to standard output.
pub(crate) struct Output {
    /// What is not written yet.
    pub(crate) bytes: Vec<u8>,
    /// Whether the rest is still wanted where the reader has gone: something else comes of it.
    pub(crate) outlives_reader: bool,
}

impl Output {
    pub(crate) fn new() -> Output {
        Output {
            bytes: Vec::with_capacity(2 * FULL),
            outlives_reader: false,
        }
    }

    /// Writes what has gathered, where it is much.
    pub(crate) fn flush_much(&mut self) -> Result<(), Unwritten> {
        if self.bytes.len() < FULL {
            return Ok(());
        }
        self.flush()
    }

    /// Writes what has gathered. What could not be written is not tried again.
    pub(crate) fn flush(&mut self) -> Result<(), Unwritten> {
        let mut out = io::stdout();
        let written = out.write_all(&self.bytes).and_then(|()| out.flush());
        self.bytes.clear();
        match written.map_err(Unwritten::from) {
            Err(Unwritten::Closed) if self.outlives_reader => Ok(()),
            written => written,
        }
    }
}

/// A line on standard error. Where that cannot be written there is nobody to tell.
pub(crate) fn complain(words: fmt::Arguments<'_>) {
    let _ = writeln!(io::stderr(), "machhurel: {words}");
}

/// Why an operation failed, without the system's number.
pub(crate) fn reason(error: &io::Error) -> String {
    let words = error.to_string();
    match words.split_once(" (os error") {
        Some((words, _)) => words.to_string(),
        None => words,
    }
}
