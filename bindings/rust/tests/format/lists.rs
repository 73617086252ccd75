//! The implicit lists: what each logs, and what it lists.
use crate::document::{number, rows};
use crate::names::{named, valued};
use crate::subject::{logged, memory, record};
use machhurel::*;

/// An entry of a list as it is logged and as it is listed; the slots hold Deref_rsi and Deref.
fn entry(text: &str) -> (Vec<u8>, Vec<u8>) {
    let (way, what) = text.split_once(' ').expect(text);
    let way = if way == "r" { 1 } else { 2 };
    if let Some(slot) = what.strip_prefix("slot ") {
        let [bank, n] = if slot == "0" {
            named("rsi")
        } else {
            named("regs[1]")
        };
        return (vec![way, bank, n], vec![0x43, 0, 7, way]);
    }
    let Some(inside) = what.strip_prefix('[') else {
        let [bank, n] = named(what);
        return (vec![way, bank, n], vec![0x42, bank, n, way]);
    };
    let inside = inside.trim_end_matches(']');
    if let Some((base, _)) = inside.split_once(" + al * 1") {
        let ([bank, n], al) = (named(base), named("al"));
        let address = valued([bank, n]).wrapping_add(valued(al));
        let log = [
            &[1, bank, n, 1, al[0], al[1]][..],
            &memory(2 + way, address),
        ]
        .concat();
        return (log, vec![0x45, bank, n, al[0], al[1], 1, way]);
    }
    let (base, down) = inside
        .split_once(" - ")
        .map_or((inside, 0), |(base, down)| (base, number(down)));
    let [bank, n] = named(base);
    let address = valued([bank, n]).wrapping_sub(down);
    let log = [&[1, bank, n][..], &memory(2 + way, address)].concat();
    let disp = (down as u32).wrapping_neg().to_le_bytes();
    let item = if down == 0 {
        vec![0x43, bank, n, way]
    } else {
        [&[0x44, bank, n][..], &disp, &[way]].concat()
    };
    (log, item)
}

#[test]
fn implicit_lists() {
    let table = rows("Implicit lists");
    assert_eq!(table.len(), 29);
    for row in table {
        let entries: Vec<_> = row[2]
            .split(", ")
            .filter(|text| !text.is_empty())
            .map(entry)
            .collect();
        let changes = [
            (4, 21),
            (5, 18),
            (10, 0),
            (11, 3),
            (38, number(row[0]) as u8),
        ];
        let log: Vec<u8> = entries.iter().flat_map(|(log, _)| log.clone()).collect();
        assert_eq!(logged(&changes), log, "list {}", row[0]);
        let mut out = [0; LISTING_BYTES];
        let n = listing(&record(&changes), &mut out, 0).expect("not refused");
        let items: Vec<u8> = entries.iter().flat_map(|(_, item)| item.clone()).collect();
        assert_eq!(out[..n], items, "list {}", row[0]);
    }
    assert_eq!(digest(&record(&[(38, 29)])), Err(Refusal::Field));
}
