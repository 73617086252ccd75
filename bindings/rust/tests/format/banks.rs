//! The table of banks.
use crate::document::{number, range, rows};
use crate::subject::{logged, memory, record, value};
use machhurel::digest;

/// What the last column of the banks says of a register: its value, or none.
fn told(text: &str, n: u64) -> Option<u64> {
    if text == "nothing" {
        return None;
    }
    let part = match text.split_once("; from 4 on ") {
        Some((low, high)) => {
            if n < 4 {
                low
            } else {
                high
            }
        }
        None => text,
    };
    let (bits, slot) = part
        .strip_prefix("bits ")
        .expect(text)
        .split_once(" of slot ")
        .expect(text);
    let slot = match slot {
        "n" => n,
        "n - 4" => n - 4,
        fixed => number(fixed),
    };
    let (first, last) = range(bits);
    Some(value(slot) << (63 - last) >> (63 - last + first))
}

#[test]
fn banks() {
    let table = rows("Banks");
    assert_eq!(table.len(), 13);
    for bank in 0..=255u8 {
        let row = table.iter().find(|row| number(row[0]) == u64::from(bank));
        let last = row.map(|row| range(row[2]).1);
        for n in 0..=255u8 {
            let is_register = last.is_some_and(|last| u64::from(n) <= last);
            for at in [8, 10, 12, 14] {
                let named = digest(&record(&[(at, bank), (at + 1, n)]));
                assert_eq!(named.is_ok(), is_register, "bank {bank}, number {n}");
            }
            let Some(row) = row.filter(|_| is_register) else {
                continue;
            };
            let read = logged(&[(3, 1), (4, 18), (10, bank), (11, n), (37, 1)]);
            let access = told(row[4], n.into()).map_or(vec![5, 8], |address| memory(3, address));
            assert_eq!(
                read,
                [&[1, bank, n][..], &access].concat(),
                "bank {bank}, number {n}"
            );
        }
    }
}

#[test]
fn widths() {
    for row in rows("Banks") {
        let multiplied = digest(&record(&[
            (1, 1),
            (4, 2),
            (10, number(row[0]) as u8),
            (16, 0),
            (36, 0x10),
        ]));
        let list = match number(row[3]) {
            1 => 1,
            2 => 2,
            4 => 3,
            _ => 4,
        };
        assert_eq!(
            multiplied.map(|digest| digest.list),
            Ok(list),
            "bank {}",
            row[1]
        );
    }
}
