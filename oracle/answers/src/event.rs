//! A plain reader of log events, written from document 01.

use crate::refusals::{is_logged, LARGEST_SIZE};

#[derive(Copy, Clone, Debug, PartialEq, Eq)]
pub enum Read {
    /// An event of so many bytes stands here.
    Event(usize),
    /// Refused 1 or 2.
    Refused(u8),
    /// At or past the end.
    Finished,
}

/// Reads the event that starts at `at`.
pub fn read(log: &[u8], at: usize) -> Read {
    if at >= log.len() {
        return Read::Finished;
    }
    let length = match log[at] {
        1 | 2 => 3,
        3 | 4 => 10,
        5 | 6 => 2,
        _ => return Read::Refused(1),
    };
    if log.len() - at < length {
        return Read::Refused(1);
    }
    let event = &log[at..at + length];
    let good = match length {
        3 => is_logged(event[1], event[2]),
        _ => (1..=LARGEST_SIZE).contains(&event[length - 1]),
    };
    if good {
        Read::Event(length)
    } else {
        Read::Refused(2)
    }
}
