//! Writes a fixed list of the oracle's answers to standard output, for a program that replays it
//! where the given Rust is not at hand.
//!
//! All numbers are little-endian. Nothing is aligned; one item follows another without a gap.
//!
//! ```text
//! list:   8 bytes "MACHLIST", 4 bytes number of files, 4 bytes number of cases, the files, the cases
//! file:   2 bytes length, the bytes
//! case:   24 bytes head, the record or log, the bytes written
//! head:   0      call: 1 visit, 2 listing, 3 digest, 4 privilege, 5 exceptions, 6 event
//!         1      count of bytes written
//!         2-3    file, as an index into the files (0, the empty file, where the call takes none)
//!         4-5    length of the record or log
//!         6-7    room: length of the lent buffer
//!         8-15   start; for an event the place in the log
//!         16-23  answer, in the bits of the C interface
//! ```
//!
//! The lent buffer is filled with 0xA5 before the call. After it, the bytes written stand from the
//! start on, and every other byte is still 0xA5.

use std::collections::HashSet;
use std::io::Write;

use answers::cases::draft::NONTRIVIAL;
use answers::cases::edges::every_edge;
use answers::cases::random::{self, Random};
use answers::cases::{bases, kinds, logs, rooms, Take, FAMILIES};
use answers::expected;
use answers::input::{Call, Input, CALLS};

const SEED: u64 = 2024;
/// Pairs of record and file taken from each family.
const OF_EACH_FAMILY: u64 = 16;
const RANDOM_PAIRS: u64 = 120;
const LARGEST: usize = 600_000;

struct List {
    files: Vec<Vec<u8>>,
    cases: Vec<u8>,
    count: u32,
    /// The calls with the numbers that they answered.
    answered: HashSet<(u8, u8)>,
    /// Moves rooms and starts from one case to the next.
    turn: usize,
}

impl List {
    fn add(&mut self, input: &Input) {
        let outcome = expected::outcome(input);
        assert_ne!(outcome.answer, u64::MAX, "the given Rust and document 01's table disagree: run compare");
        let file = match self.files.iter().position(|file| file == input.file) {
            Some(index) => index,
            None => {
                self.files.push(input.file.to_vec());
                self.files.len() - 1
            }
        };
        let short = |number: usize| u16::try_from(number).unwrap().to_le_bytes();
        self.cases.extend([input.call as u8, outcome.written.len() as u8]);
        self.cases.extend(short(file));
        self.cases.extend(short(input.subject.len()));
        self.cases.extend(short(input.room));
        self.cases.extend((input.start as u64).to_le_bytes());
        self.cases.extend(outcome.answer.to_le_bytes());
        self.cases.extend(input.subject);
        self.cases.extend(outcome.written);
        self.count += 1;
        self.answered.insert((input.call as u8, outcome.answer as u8));
    }

    /// A visit, in turn with much room, just enough, or too little; the digest where fix-ups may
    /// happen; and another call.
    fn pair(&mut self, random: &mut Random, record: &[u8], file: &[u8]) {
        self.turn += 1;
        let start = self.turn % 7;
        let n = expected::log(record, file).map_or(0, |log| log.len());
        let room = match self.turn % 11 {
            0 => start + n,
            1 => (start + n).saturating_sub(1),
            _ => 256,
        };
        self.add(&Input::visit(record, file, room, start));
        if record.get(36).is_some_and(|behavior| behavior & NONTRIVIAL != 0) {
            self.add(&Input::of_record(Call::Digest, record));
        }
        match random.below(8) {
            0 => self.add(&Input::of_record(Call::Privilege, record)),
            1 => self.add(&Input::of_record(Call::Digest, record)),
            2..=4 => self.add(&Input::of_record(Call::Exceptions, record)),
            _ => self.add(&Input::listing(record, 40, start)),
        }
    }

    /// Many rooms and starts for a base.
    fn rooms(&mut self, base: &bases::Base) {
        let record = &base.record.0;
        let log = expected::log(record, &base.file).map_or(0, |log| log.len());
        for (room, start) in rooms::around(log).into_iter().filter(|&(room, _)| room <= 300) {
            self.add(&Input::visit(record, &base.file, room, start));
        }
        let listing = expected::listing(record).map_or(0, |listing| listing.len());
        for (room, start) in rooms::around(listing).into_iter().filter(|&(room, _)| room <= 50) {
            self.add(&Input::listing(record, room, start));
        }
    }

    /// The longest log of all, with just enough room and with one byte less.
    fn longest_in_a_segment(&mut self) {
        let longest = bases::longest();
        let record = kinds::segmented(&longest.record.0, 1).expect("a record of kind 0x10");
        let file = kinds::based(&longest.file, 3).expect("a file of kind 0x20");
        for room in [expected::LOG_BYTES, expected::LOG_BYTES - 1] {
            self.add(&Input::visit(&record, &file, room, 0));
        }
    }

    /// Every opcode of the table and those beside it, in a record without a digest; 9 comes before 3.
    fn no_digest(&mut self) {
        let p2 = bases::p2();
        for opcode in [0, 1, 2, 28, 29].into_iter().chain(99..=119) {
            let record = kinds::bare(&p2.record.opcode(opcode).0).expect("a record of kind 0x10");
            for call in [Call::Digest, Call::Privilege, Call::Exceptions] {
                self.add(&Input::of_record(call, &record));
            }
            self.add(&Input::visit(&record, &p2.file, 256, 3));
            self.add(&Input::visit(&record, &[], 256, 3));
            self.add(&Input::listing(&record, 40, 3));
        }
    }

    /// Every number that a call can answer is in the list.
    fn assert_complete(&self) {
        for call in CALLS {
            for &number in expected::possible(call) {
                assert!(self.answered.contains(&(call as u8, number)), "{call:?} never answers {number}");
            }
        }
    }

    fn bytes(&self) -> Vec<u8> {
        let mut bytes = b"MACHLIST".to_vec();
        bytes.extend((self.files.len() as u32).to_le_bytes());
        bytes.extend(self.count.to_le_bytes());
        for file in &self.files {
            bytes.extend((file.len() as u16).to_le_bytes());
            bytes.extend(file);
        }
        bytes.extend(&self.cases);
        bytes
    }
}

/// Takes `wanted` of a family's pairs, one from each of as many equal stretches.
fn sample(random: &mut Random, each: fn(&mut Take), wanted: u64, mut take: impl FnMut(&mut Random, &[u8], &[u8])) {
    let mut total = 0;
    each(&mut |_, _| total += 1);
    let places: Vec<u64> = (0..wanted).map(|i| total * i / wanted + random.below(total / wanted)).collect();
    let (mut index, mut next) = (0, 0);
    each(&mut |record, file| {
        if places.get(next) == Some(&index) {
            take(random, record, file);
            next += 1;
        }
        index += 1;
    });
}

fn main() {
    let mut random = Random::new(SEED);
    let mut list = List { files: vec![Vec::new()], cases: Vec::new(), count: 0, answered: HashSet::new(), turn: 0 };
    every_edge(&mut |record, file| list.pair(&mut random, record, file));
    list.rooms(&bases::p2());
    list.rooms(&bases::longest());
    list.longest_in_a_segment();
    list.no_digest();
    for family in &FAMILIES {
        let mut turn = 0;
        sample(&mut random, family.each, OF_EACH_FAMILY, |random, record, file| {
            list.pair(random, record, file);
            turn += 1;
            if turn % 4 == 0 {
                kinds::each(record, file, turn / 4, &mut |record, file| list.pair(random, record, file));
            }
        });
    }
    let files: Vec<Vec<u8>> = (0..24).map(|_| random::file(&mut random)).collect();
    for _ in 0..RANDOM_PAIRS {
        let record = random::record(&mut random);
        let file = &files[random.below(files.len() as u64) as usize];
        list.pair(&mut random, &record, file);
    }
    logs::every_event_edge(&mut |log, at| list.add(&Input::event(log, at)));
    list.assert_complete();
    let bytes = list.bytes();
    assert!(bytes.len() <= LARGEST, "{} bytes are too many to keep", bytes.len());
    std::io::stdout().write_all(&bytes).expect("standard output takes the list");
    eprintln!("list: {} files, {} cases, {} bytes", list.files.len(), list.count, bytes.len());
}
