//! Inputs tried on the library, and what came of it.

use answers::cases::{logs, rooms};
use answers::expected::{self, Bytes, LOG_EVENTS};
use answers::input::{Call, Input};

use crate::counts::Counts;
use crate::judge::Judge;
use crate::report;

/// More than any log or listing needs.
const LARGE: usize = 256;

pub struct Comparison {
    judge: Judge,
    pub counts: Counts,
    /// Moves starts and rooms from one case to the next.
    turn: usize,
    pub longest_log: usize,
    pub most_events: usize,
    pub longest_listing: usize,
}

impl Comparison {
    pub fn new() -> Comparison {
        let (longest_log, most_events, longest_listing) = (0, 0, 0);
        Comparison {
            judge: Judge::new(),
            counts: Counts::default(),
            turn: 0,
            longest_log,
            most_events,
            longest_listing,
        }
    }

    fn call(&mut self, input: &Input, answer: u64, written: &[u8]) {
        self.counts.answer(input.call, answer);
        if let Some(fault) = self.judge.fault(input, answer, written) {
            if self.counts.differences() == 0 {
                report::difference(&mut self.judge, input, &fault);
            }
            self.counts.difference(input.call);
        }
    }

    /// Every call on a record and a file, in a large buffer, in one exactly full and in one short.
    pub fn pair(&mut self, record: &[u8], file: &[u8]) {
        self.turn += 1;
        let log = expected::log(record, file);
        let listing = expected::listing(record);
        for (room, start) in self.usual_rooms(&log) {
            self.visit(record, file, &log, room, start);
        }
        for (room, start) in self.usual_rooms(&listing) {
            self.listing(record, &listing, room, start);
        }
        self.call(&Input::of_record(Call::Digest, record), expected::digest(record), &[]);
        self.call(&Input::of_record(Call::Privilege, record), expected::privilege(record), &[]);
        self.call(&Input::of_record(Call::Exceptions, record), expected::exceptions(record), &[]);
        if let Ok(listing) = listing {
            self.longest_listing = self.longest_listing.max(listing.len());
        }
        if let Ok(log) = log {
            self.walk(&log);
        }
    }

    /// The same record and file with many rooms and starts.
    pub fn rooms(&mut self, record: &[u8], file: &[u8]) {
        let log = expected::log(record, file);
        let listing = expected::listing(record);
        for (room, start) in rooms::around(log.as_ref().map_or(0, Vec::len)) {
            self.visit(record, file, &log, room, start);
        }
        for (room, start) in rooms::around(listing.as_ref().map_or(0, Vec::len)) {
            self.listing(record, &listing, room, start);
        }
    }

    /// A log read at one place.
    pub fn event(&mut self, log: &[u8], at: usize) {
        self.call(&Input::event(log, at), expected::event(log, at), &[]);
    }

    /// A log read at all places, and past its end.
    pub fn events(&mut self, log: &[u8]) {
        logs::at_all_places(log, &mut |log, at| self.event(log, at));
    }

    fn visit(&mut self, record: &[u8], file: &[u8], log: &Bytes, room: usize, start: usize) {
        let (answer, written) = expected::delivered(log, room, start);
        self.call(&Input::visit(record, file, room, start), answer, written);
    }

    fn listing(&mut self, record: &[u8], listing: &Bytes, room: usize, start: usize) {
        let (answer, written) = expected::delivered(listing, room, start);
        self.call(&Input::listing(record, room, start), answer, written);
    }

    fn usual_rooms(&self, bytes: &Bytes) -> [(usize, usize); 3] {
        let start = self.turn % 5;
        match bytes.as_ref().map_or(0, Vec::len) {
            0 => [(LARGE, self.turn % 80), (start, start), (start, start + 1)],
            n => [(LARGE, self.turn % 80), (start + n, start), (start + n - 1, start)],
        }
    }

    /// Walks a log from event to event, as its reader does.
    fn walk(&mut self, log: &[u8]) {
        let (mut at, mut events) = (0, 0);
        loop {
            let answer = expected::event(log, at);
            self.call(&Input::event(log, at), answer, &[]);
            if answer as u32 != 0 {
                assert_eq!(answer, expected::FINISHED as u64, "a log of the oracle does not read whole: {log:02X?}");
                break;
            }
            at += (answer >> 32) as usize;
            events += 1;
        }
        assert!(events <= LOG_EVENTS, "a log of the oracle has {events} events: {log:02X?}");
        self.longest_log = self.longest_log.max(log.len());
        self.most_events = self.most_events.max(events);
    }
}
