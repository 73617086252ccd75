//! How far a long trace is read: a line on standard error that is written over, where that is a terminal.
use std::io::{self, Write};
use std::time::{Duration, Instant};

/// A trace that takes less gets no such line.
const PATIENCE: Duration = Duration::from_millis(500);
/// The clock is asked once in so many calls.
const STRIDE: u32 = 1 << 12;

pub(crate) struct Progress {
    name: String,
    length: Option<u64>,
    begun: Instant,
    said: Option<Instant>,
    calls: u32,
    enabled: bool,
}

impl Progress {
    pub(crate) fn new(name: &str, length: Option<u64>, enabled: bool) -> Progress {
        Progress {
            name: name.to_string(),
            length,
            begun: Instant::now(),
            said: None,
            calls: 0,
            enabled,
        }
    }

    /// Says how far reading is, now and then.
    pub(crate) fn tell(&mut self, at: u64, records: u64) {
        self.calls = self.calls.wrapping_add(1);
        if !self.enabled || self.calls & STRIDE.wrapping_sub(1) != 0 {
            return;
        }
        let now = Instant::now();
        if now.duration_since(self.said.unwrap_or(self.begun)) >= PATIENCE {
            self.said = Some(now);
            let spent = now.duration_since(self.begun);
            let words = words(at, records, self.length, spent);
            let _ = write!(io::stderr(), "\r\x1b[Kmachhurel: {}: {words}", self.name);
        }
    }

    /// Takes the line away again.
    pub(crate) fn clear(&mut self) {
        if self.said.take().is_some() {
            let _ = write!(io::stderr(), "\r\x1b[K");
        }
    }
}

/// `1234567 records, 45 %, 0:12 left`, or without the length of the trace `1234567 records, 226 MB`.
fn words(at: u64, records: u64, length: Option<u64>, spent: Duration) -> String {
    let part = |length: u64| {
        let percent = u128::from(at)
            .saturating_mul(100)
            .checked_div(u128::from(length))?;
        let all = spent.as_millis().saturating_mul(100).checked_div(percent)?;
        let left = all.saturating_sub(spent.as_millis()).checked_div(1000)?;
        let (minutes, seconds) = (left.checked_div(60)?, left.checked_rem(60)?);
        Some(format!("{percent} %, {minutes}:{seconds:02} left"))
    };
    match length.filter(|length| *length >= at).and_then(part) {
        Some(part) => format!("{records} records, {part}"),
        None => format!("{records} records, {} MB", at >> 20),
    }
}

#[cfg(test)]
mod tests {
    use super::*;

    #[test]
    fn how_far() {
        let ten = Duration::from_secs(10);
        assert_eq!(words(50, 7, Some(200), ten), "7 records, 25 %, 0:30 left");
        assert_eq!(words(0, 0, Some(200), ten), "0 records, 0 MB");
        assert_eq!(words(3 << 20, 7, None, ten), "7 records, 3 MB");
        // a file that grows meanwhile
        assert_eq!(words(3 << 20, 7, Some(5), ten), "7 records, 3 MB");
    }
}
