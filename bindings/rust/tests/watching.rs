//! A watch against a second reading of document 02's words: every byte by itself, in sets.
mod common;

use common::calls::{machhurel_watch_new, machhurel_watch_step};
use common::Random;
use machhurel::*;
use std::collections::HashSet;

/// A record and the file before it.
type Pair = (Vec<u8>, Vec<u8>);

/// One or two memory operands at rbx and rdi, read or written, near the variable; sometimes damaged, complex or without a file.
fn any_pair(random: &mut Random, address: u64) -> Pair {
    let mut record = vec![0u8; RECORD_BYTES];
    record[..4].copy_from_slice(&[0x10, 40, 0, 2]);
    record[4..6].copy_from_slice(&[18, 20]);
    record[11] = 3;
    record[16] = random.one_of(&[1, 2, 4, 8, 16, 32, 64]);
    record[37] = random.below(16) as u8;
    match random.below(12) {
        0 => record[16] = 0,
        1 => record.truncate(39),
        2 => {
            record[1] = 24;
            record[36] = 0x20;
        }
        3 => record[4] = 36,
        _ => {}
    }
    let mut file = vec![0u8; FILE_BYTES];
    file[0] = 0x20;
    file[1] = random.one_of(&[0x88, 0x88, 0x88, 0x08, 0x80, 0]);
    for register in [3, 7] {
        let spread = random.one_of(&[12, 80]);
        let near = address
            .wrapping_add(random.below(2 * spread))
            .wrapping_sub(spread);
        file[5 + 8 * register..][..8].copy_from_slice(&near.to_le_bytes());
    }
    if random.below(16) == 0 {
        file.clear();
    }
    (record, file)
}

/// The bytes from an address on, round the circle of addresses.
fn bytes_from(address: u64, length: u64) -> HashSet<u64> {
    (0..length).map(|i| address.wrapping_add(i)).collect()
}

fn naive_verdict(address: u64, length: u64, event: Event) -> (Verdict, u8) {
    let Event::MemoryWrite { address: at, size } = event else {
        return (Verdict::NoWrite, 0);
    };
    let Some(at) = at else {
        return (Verdict::AddressUnknown, 0);
    };
    let stored = bytes_from(at, size.into());
    let bits: u8 = (0..length)
        .filter(|&i| stored.contains(&address.wrapping_add(i)))
        .map(|i| 1 << i)
        .sum();
    let verdict = match u64::from(bits.count_ones()) {
        0 => Verdict::NoneTouched,
        n if n == length => Verdict::WholeTouched,
        _ => Verdict::PartTouched,
    };
    (verdict, bits)
}

/// Document 02's answer, pair by pair, as a reader would keep it.
#[derive(Debug, Default, PartialEq)]
struct Story {
    tally: Tally,
    refused: u64,
    first: Option<u64>,
    last: Option<u64>,
}

fn naive_step(story: &mut Story, address: u64, length: u64, number: u64, pair: &Pair) -> Step {
    let mut log = [0u8; LOG_BYTES];
    let n = match visit(&pair.0, &pair.1, &mut log, 0) {
        Ok(n) => n,
        Err(refusal) => {
            story.refused += 1;
            return Step {
                refused: Some(refusal),
                tally: Tally::default(),
            };
        }
    };
    let mut tally = Tally::default();
    for event in Events::new(&log[..n]) {
        match naive_verdict(address, length, event.unwrap()).0 {
            Verdict::NoWrite => {}
            Verdict::AddressUnknown => tally.unknown += 1,
            Verdict::NoneTouched => tally.none += 1,
            Verdict::PartTouched => tally.part += 1,
            Verdict::WholeTouched => tally.whole += 1,
        }
    }
    story.tally.unknown += tally.unknown;
    story.tally.none += tally.none;
    story.tally.part += tally.part;
    story.tally.whole += tally.whole;
    if tally.part > 0 && story.first.is_none() {
        story.first = Some(number);
    }
    if tally.whole > 0 {
        story.last = Some(number);
    }
    Step {
        refused: None,
        tally,
    }
}

fn told(watch: &Watch) -> Story {
    Story {
        tally: watch.tally(),
        refused: watch.refused(),
        first: watch.first_part(),
        last: watch.last_whole(),
    }
}

fn watched(address: u64, length: u64, pairs: &[Pair]) -> Watch {
    let mut watch = Watch::new(address, length).unwrap();
    for (record, file) in pairs {
        watch.step(record, file).unwrap();
    }
    watch
}

const ADDRESSES: [u64; 6] = [0, 4, 0x1000, 1 << 63, u64::MAX - 3, u64::MAX];

#[test]
fn random_traces_as_the_naive_reading_has_them() {
    let mut random = Random(0x2545_F491_4F6C_DD1D);
    let mut seen = Tally::default();
    let mut refused = 0;
    for _ in 0..400 {
        let address = random.one_of(&ADDRESSES);
        let length = 1 + random.below(8);
        let mut watch = Watch::new(address, length).unwrap();
        let mut story = Story::default();
        for number in 0..random.below(60) {
            let pair = any_pair(&mut random, address);
            let step = watch.step(&pair.0, &pair.1).unwrap();
            assert_eq!(step, naive_step(&mut story, address, length, number, &pair));
            assert_eq!(told(&watch), story);
            assert_eq!(watch.pairs(), number + 1);
        }
        seen.unknown += story.tally.unknown;
        seen.none += story.tally.none;
        seen.part += story.tally.part;
        seen.whole += story.tally.whole;
        refused += story.refused;
    }
    let least = [seen.unknown, seen.none, seen.part, seen.whole, refused];
    assert!(least.iter().all(|&n| n > 500), "{least:?}");
}

#[test]
fn parts_merge_wherever_a_trace_is_cut() {
    let mut random = Random(7);
    for _ in 0..100 {
        let address = random.one_of(&ADDRESSES);
        let length = 1 + random.below(8);
        let pairs: Vec<Pair> = (0..random.below(40))
            .map(|_| any_pair(&mut random, address))
            .collect();
        let whole = watched(address, length, &pairs);
        for cut in 0..=pairs.len() {
            let (before, behind) = pairs.split_at(cut);
            let first = watched(address, length, before);
            let second = watched(address, length, behind);
            assert_eq!(first.then(&second), Some(whole));
        }
    }
    let other = Watch::new(1, 2).unwrap();
    assert_eq!(Watch::new(0, 2).unwrap().then(&other), None);
}

#[test]
fn every_store_is_named_as_it_is_counted() {
    let mut random = Random(99);
    for _ in 0..20_000 {
        let address = random.one_of(&ADDRESSES);
        let length = 1 + random.below(8);
        let (record, file) = any_pair(&mut random, address);
        let mut log = [0u8; LOG_BYTES];
        let Ok(n) = visit(&record, &file, &mut log, 0) else {
            continue;
        };
        let watch = Watch::new(address, length).unwrap();
        let mut at = 0;
        for name in watch.names(&log[..n]) {
            let (event, named) = name.unwrap();
            assert_eq!(
                (named.verdict, named.touched),
                naive_verdict(address, length, event)
            );
            assert_eq!(verdict(address, length, &log[..n], at), Some(Ok(named)));
            at += named.length;
        }
        assert_eq!(at, n);
    }
}

#[test]
fn a_verdict_refuses_as_the_reader_does() {
    assert_eq!(verdict(0, 0, &[], 0), Some(Err(Refusal::Field)));
    assert_eq!(verdict(0, 9, &[], 0), Some(Err(Refusal::Field)));
    assert_eq!(verdict(0, u64::MAX, &[], 0), Some(Err(Refusal::Field)));
    assert_eq!(verdict(0, 1, &[], 0), None);
    assert_eq!(verdict(0, 1, &[6, 8], usize::MAX), None);
    assert_eq!(verdict(0, 1, &[7, 8], 0), Some(Err(Refusal::Form)));
    assert_eq!(verdict(0, 1, &[6, 65], 0), Some(Err(Refusal::Field)));
}

#[test]
fn lengths_that_no_variable_has() {
    for length in [0, 9, 256, 264, 1 << 32, u64::MAX] {
        assert_eq!(Watch::new(0x1000, length), Err(Refusal::Field));
        let mut words = [5u64; 10];
        let answer = machhurel_watch_new(&mut words, 0x1000, length);
        assert_eq!((answer, words), (2, [5; 10]));
    }
}

/// A step on words as they stand.
fn raw_step(words: &mut [u64; 10], (record, file): &Pair) -> u64 {
    machhurel_watch_step(words, record, file)
}

#[test]
fn any_words_get_an_answer() {
    let mut random = Random(3);
    let edges = [0, 1, 8, 9, 999_999, 1_000_000, u64::MAX - 1, u64::MAX];
    for _ in 0..20_000 {
        let mut words = [0u64; 10].map(|_| random.one_of(&edges));
        if random.below(2) == 0 {
            words[1] = 1 + random.below(8);
            words[2] = random.below(WATCH_PAIRS);
        }
        let old = words;
        let pair = any_pair(&mut random, words[0]);
        let answer = raw_step(&mut words, &pair);
        if !(1..=8).contains(&old[1]) || old[2] >= WATCH_PAIRS {
            assert_eq!((answer, words), (2, old));
            continue;
        }
        let mut story = Story::default();
        let step = naive_step(&mut story, old[0], old[1], old[2], &pair);
        let mut new = old;
        new[2] += 1;
        let tally = step.tally;
        for (k, more) in [
            tally.unknown,
            tally.none,
            tally.part,
            tally.whole,
            story.refused,
        ]
        .into_iter()
        .enumerate()
        {
            new[3 + k] = old[3 + k].wrapping_add(more);
        }
        if tally.part > 0 && old[8] == u64::MAX {
            new[8] = old[2];
        }
        if tally.whole > 0 {
            new[9] = old[2];
        }
        assert_eq!((answer & 0xFF, words), (0, new));
    }
}

#[test]
fn the_limit_is_tested_before_the_look() {
    let mut words = [0u64; 10];
    assert_eq!(machhurel_watch_new(&mut words, 0x1000, 8), 0);
    words[2] = WATCH_PAIRS - 1;
    let damaged = (vec![], vec![]);
    assert_eq!(raw_step(&mut words, &damaged), 0x100);
    assert_eq!((words[2], words[7]), (WATCH_PAIRS, 1));
    let full = words;
    assert_eq!(raw_step(&mut words, &damaged), 2);
    assert_eq!(words, full);
}
