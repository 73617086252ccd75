//! The numbers that each call can be refused with, and the bits of its answers: those of the tables, and no others, over many inputs.
use crate::common::calls::*;
use crate::common::Random;
use crate::document::{number, range, table};
use crate::subject::{full, record};
use machhurel::EVERYDAY_RECORD_BYTES;
use std::collections::{BTreeMap, BTreeSet};

const CASES: usize = 50_000;
const FINISHED: u64 = 255;

/// A record with every field inside its table, or one that is damaged.
fn any_record(random: &mut Random) -> Vec<u8> {
    let mut bytes = record(&[]).to_vec();
    bytes[1] = random.below(41) as u8;
    bytes[2] = random.one_of(&[0, 0, 0, 1]);
    bytes[3] = random.below(5) as u8;
    for at in 4..8 {
        bytes[at] = random.below(36) as u8;
    }
    for at in [8, 10, 12, 14] {
        bytes[at] = random.one_of(&[0, 1, 2, 4, 5, 8]);
        bytes[at + 1] = random.below(8) as u8;
    }
    bytes[16] = random.one_of(&[0, 1, 8, 64]);
    bytes[34] = random.below(16) as u8;
    bytes[36] = random.next() as u8 & random.next() as u8;
    bytes[37] = random.next() as u8;
    bytes[38] = random.below(29) as u8;
    match random.below(16) {
        0 => bytes.truncate(random.index(40)),
        2..=4 => {
            bytes[0] = 0x12;
            bytes[1] = random.one_of(&[1, 28, 99, 100, 117, 118, 119]);
            bytes.truncate(EVERYDAY_RECORD_BYTES);
        }
        1 => {
            let at = random.index(40);
            bytes[at] = random.next() as u8;
        }
        _ => {}
    }
    bytes
}

fn any_file(random: &mut Random) -> Vec<u8> {
    let mut bytes = full().to_vec();
    if random.below(16) == 0 {
        let at = random.index(5);
        bytes[at] ^= random.next() as u8;
    }
    bytes
}

/// What every call of the base answered, by its name in C.
fn answers() -> BTreeMap<&'static str, Vec<u64>> {
    let mut random = Random(0x9E37_79B9_7F4A_7C15);
    let mut seen: BTreeMap<_, Vec<u64>> = BTreeMap::new();
    for _ in 0..CASES {
        let (r, f) = (any_record(&mut random), any_file(&mut random));
        let mut out = vec![0; random.index(200)];
        let start = random.index(64);
        let answered = [
            ("machhurel_visit", machhurel_visit(&r, &f, &mut out, start)),
            // the log that is there now, or zeros
            ("machhurel_event", machhurel_event(&out, start)),
            ("machhurel_listing", machhurel_listing(&r, &mut out, start)),
            ("machhurel_digest", machhurel_digest(&r)),
            ("machhurel_privilege", machhurel_privilege(&r)),
            ("machhurel_exceptions", machhurel_exceptions(&r)),
        ];
        for (call, answer) in answered {
            seen.entry(call).or_default().push(answer);
        }
        let torn = [random.below(8) as u8, random.below(16) as u8, 0x41];
        let event = machhurel_event(&torn, 0);
        seen.entry("machhurel_event").or_default().push(event);
    }
    seen
}

/// `1, 2, or finished`.
fn numbers(cell: &str) -> BTreeSet<u64> {
    cell.split(", ")
        .map(|word| match word {
            "or finished" => FINISHED,
            word => number(word),
        })
        .collect()
}

/// The names in a cell, without their marks.
fn names(cell: &str) -> impl Iterator<Item = &str> {
    cell.split(", ").map(|name| name.trim_matches('`'))
}

#[test]
fn numbers_of_each_call() {
    let seen = answers();
    let calls = table("Refusals", |row| row.len() == 3 && row[1].starts_with('`'));
    assert_eq!(calls.len(), seen.len());
    for row in calls {
        let name = row[1].trim_matches('`');
        let given: BTreeSet<_> = seen[name].iter().map(|answer| answer & 0xFF).collect();
        let given: BTreeSet<_> = given.into_iter().filter(|&number| number != 0).collect();
        assert_eq!(given, numbers(row[2]), "{name}");
    }
}

/// The bits that a cell speaks of: the column's, or those that it names itself.
fn bits(column: &str, cell: &str) -> u64 {
    if cell.is_empty() {
        return 0;
    }
    let (first, last) = range(cell.split_once(", in ").map_or(column, |(_, own)| own));
    (u64::MAX >> (63 - last)) & (u64::MAX << first)
}

/// Bits that are not named are 0 in every answer, and each part that is named is not always 0.
#[test]
fn bits_of_each_call() {
    let seen = answers();
    let columns = table("Answers in C", |row| row[0] == "call").remove(0);
    let calls = table("Answers in C", |row| row[0].starts_with('`'));
    assert_eq!(
        calls.iter().flat_map(|row| names(row[0])).count(),
        seen.len()
    );
    for row in calls {
        for name in names(row[0]) {
            let ever = seen[name].iter().fold(0, |bits, answer| bits | answer);
            let mut named = 0;
            for (column, cell) in columns.iter().zip(&row).skip(1) {
                let part = bits(column, cell);
                assert!(part == 0 || ever & part != 0, "{name}: {column}");
                named |= part;
            }
            assert_eq!(ever & !named, 0, "{name}");
        }
    }
}
