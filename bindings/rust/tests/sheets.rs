//! A sheet against a second reading of document 02's words, over the bytes of the logs: nothing of the library but the two calls is asked.
mod common;

use common::calls::{machhurel_sheet_add as add, machhurel_sheet_new as new};
use common::Random;
use machhurel::*;
use std::collections::HashSet;

const WORDS: usize = 99;
type Words = [u64; WORDS];

/// By bank, how many registers an event may name.
const REGISTERS: [u8; 14] = [16, 16, 16, 16, 8, 32, 32, 32, 8, 1, 1, 1, 32, 2];

fn any_event(random: &mut Random, address: u64, log: &mut Vec<u8>) {
    let kind = 1 + random.below(6) as u8;
    log.push(kind);
    if kind < 3 {
        let bank = random.below(14) as u8;
        let number = random.below(REGISTERS[bank as usize].into()) as u8;
        log.extend([bank, number]);
        return;
    }
    if kind < 5 {
        let near = address.wrapping_add(random.below(96)).wrapping_sub(72);
        log.extend(near.to_le_bytes());
    }
    log.push(random.one_of(&[1, 2, 4, 8, 8, 16, 32, 63, 64]));
}

/// A log of some events; every third is damaged in one byte, or cut.
fn any_log(random: &mut Random, address: u64) -> Vec<u8> {
    let mut log = Vec::new();
    for _ in 0..random.below(12) {
        any_event(random, address, &mut log);
    }
    if !log.is_empty() && random.below(3) == 0 {
        let place = random.below(log.len() as u64) as usize;
        match random.below(2) {
            0 => log[place] = random.next() as u8,
            _ => log.truncate(place),
        }
    }
    log
}

/// The bytes from an address on, round the circle of addresses.
fn bytes_from(address: u64, length: u64) -> HashSet<u64> {
    (0..length).map(|i| address.wrapping_add(i)).collect()
}

/// What a log adds to the words, or the number of the first event that does not read: its form first, then its contents.
fn naive_adds(address: u64, length: u64, log: &[u8]) -> Result<Words, u64> {
    let mut words = [0; WORDS];
    words[2] = 1;
    let mut rest = log;
    while let Some((&kind, behind)) = rest.split_first() {
        let body = match kind {
            1 | 2 => 2,
            3 | 4 => 9,
            5 | 6 => 1,
            _ => return Err(1),
        };
        if behind.len() < body {
            return Err(1);
        }
        let (body, after) = behind.split_at(body);
        rest = after;
        if kind < 3 {
            let (bank, number) = (body[0] as usize, body[1]);
            if !REGISTERS.get(bank).is_some_and(|&count| number < count) {
                return Err(2);
            }
            words[if kind == 1 { 7 } else { 21 } + bank] += 1;
            continue;
        }
        let size = u64::from(*body.last().unwrap());
        if !(1..=64).contains(&size) {
            return Err(2);
        }
        words[34 + size as usize] += 1;
        words[if kind % 2 == 1 { 3 } else { 4 }] += size;
        if kind == 4 {
            let at = u64::from_le_bytes(body[..8].try_into().unwrap());
            let stored = bytes_from(at, size);
            let touched = bytes_from(address, length).intersection(&stored).count() as u64;
            words[5] += u64::from(0 < touched && touched < length);
            words[6] += 1;
        }
    }
    Ok(words)
}

/// Document 02's answer to one log more, on any words.
fn naive_add(words: &Words, log: &[u8]) -> (u64, Words) {
    let refused = |number| (number, *words);
    if words[2] >= 4_294_967_295 {
        return refused(10);
    }
    if !(1..=8).contains(&words[1]) || log.len() > 65_536 {
        return refused(2);
    }
    match naive_adds(words[0], words[1], log) {
        Ok(more) => (0, std::array::from_fn(|i| words[i].wrapping_add(more[i]))),
        Err(number) => refused(number),
    }
}

const ADDRESSES: [u64; 4] = [0x1008, 0, u64::MAX - 3, 1 << 63];

#[test]
fn new_sheets() {
    for length in [0, 1, 2, 7, 8, 9, 255, 256, 257, u64::MAX] {
        for address in ADDRESSES {
            let mut words = [0xA5A5; WORDS];
            let answer = new(&mut words, address, length);
            let mut expected = [0; WORDS];
            expected[..2].copy_from_slice(&[address, length]);
            match (1..=8).contains(&length) {
                true => assert_eq!((answer, words), (0, expected)),
                false => assert_eq!((answer, words), (2, [0xA5A5; WORDS])),
            }
        }
    }
}

#[test]
fn random_logs() {
    let mut random = Random(9);
    let mut seen = [0u64; 3];
    let mut parts = 0;
    for round in 0..600 {
        let (address, length) = (random.one_of(&ADDRESSES), 1 + random.below(8));
        let mut words = [0; WORDS];
        assert_eq!(new(&mut words, address, length), 0);
        let mut expected = words;
        for _ in 0..25 {
            let log = any_log(&mut random, address);
            let answer;
            (answer, expected) = naive_add(&expected, &log);
            assert_eq!(
                (add(&mut words, &log), words),
                (answer, expected),
                "{round}: {log:?}"
            );
            seen[answer as usize] += 1;
        }
        parts += words[5];
    }
    assert!(seen.iter().all(|&count| count > 500), "{seen:?}");
    assert!(parts > 500, "{parts}");
}

#[test]
fn any_order_and_any_cut() {
    let mut random = Random(10);
    for _ in 0..100 {
        let address = random.one_of(&ADDRESSES);
        let mut logs: Vec<Vec<u8>> = (0..12).map(|_| any_log(&mut random, address)).collect();
        let mut sheet = Sheet::new(address, 8).unwrap();
        let taken = logs.iter().filter(|log| sheet.add(log).is_ok()).count() as u64;
        assert_eq!(sheet.logs(), taken);

        for i in (1..logs.len()).rev() {
            logs.swap(i, random.below(i as u64 + 1) as usize);
        }
        let mut other = Sheet::new(address, 8).unwrap();
        for log in &logs {
            let _ = other.add(log);
        }
        assert_eq!(sheet, other);

        // each log whole against each log cut between two events
        let (mut whole, mut cut) = ([0; WORDS], [0; WORDS]);
        assert_eq!(
            (new(&mut whole, address, 8), new(&mut cut, address, 8)),
            (0, 0)
        );
        for log in logs {
            if add(&mut whole, &log) != 0 {
                continue;
            }
            let mut events = Events::new(&log);
            let read = events.by_ref().take(random.below(6) as usize).count();
            let (front, rest) = log.split_at(events.at());
            assert_eq!(
                (add(&mut cut, front), add(&mut cut, rest)),
                (0, 0),
                "{read}"
            );
            whole[2] += 1;
        }
        assert_eq!(whole, cut);
    }
}

#[test]
fn the_limits() {
    let mut words = [0; WORDS];
    assert_eq!(new(&mut words, 0x1008, 8), 0);
    let most = [5u8, 64].repeat(SHEET_LOG_BYTES / 2);
    assert_eq!(add(&mut words, &most), 0);
    assert_eq!((words[2], words[3], words[98]), (1, 2_097_152, 32_768));
    // a byte more is refused 2, though it reads whole, and though it does not
    let before = words;
    for kind in [5, 7] {
        let mut long = most.clone();
        long[0] = kind;
        long.extend([5, 64]);
        assert_eq!((add(&mut words, &long), words), (2, before));
    }
    // the last log, and the next: whatever it is, and before its length is looked at
    words[2] = SHEET_LOGS - 1;
    assert_eq!((add(&mut words, &[]), words[2]), (0, SHEET_LOGS));
    let before = words;
    for log in [&[][..], &[7], &[5, 0], &[5, 64].repeat(40_000)] {
        assert_eq!((add(&mut words, log), words), (10, before));
    }
    words[2] = u64::MAX;
    assert_eq!(add(&mut words, &[]), 10);
}

#[test]
fn any_words() {
    let mut random = Random(11);
    for _ in 0..4000 {
        let mut words: Words = std::array::from_fn(|_| random.next());
        words[1] = random.one_of(&[0, 1, 8, 9, random.0]);
        words[2] = random.one_of(&[0, SHEET_LOGS - 1, SHEET_LOGS, random.0]);
        words[3] = random.one_of(&[u64::MAX, u64::MAX - 8, random.0]);
        let log = any_log(&mut random, words[0]);
        let (answer, expected) = naive_add(&words, &log);
        assert_eq!(
            (add(&mut words, &log), words),
            (answer, expected),
            "{log:?}"
        );
    }
}

/// Document 02's example: P2's log, watched at 0x1008.
#[test]
fn the_example() {
    let log = [
        2, 0x0B, 0, 1, 0, 3, 3, 8, 0x10, 0, 0, 0, 0, 0, 0, 8, 1, 0, 3, 4, 8, 0x10, 0, 0, 0, 0, 0,
        0, 8, 1, 0, 0,
    ];
    let mut sheet = Sheet::new(0x1008, 8).unwrap();
    assert_eq!(sheet.add(&log), Ok(()));
    assert_eq!(
        (sheet.address(), sheet.length(), sheet.logs()),
        (0x1008, 8, 1)
    );
    assert_eq!(
        (sheet.reads(0), sheet.writes(11), sheet.of_size(8)),
        (3, 1, 2)
    );
    assert_eq!((sheet.bytes_in(), sheet.bytes_out()), (8, 8));
    assert_eq!((sheet.part_writes(), sheet.known_writes()), (0, 1));
    let banks = (0..=255).map(|bank| sheet.reads(bank) + sheet.writes(bank));
    let sizes = (0..=255).map(|size| sheet.of_size(size));
    assert_eq!((banks.sum::<u64>(), sizes.sum::<u64>()), (4, 2));
}
