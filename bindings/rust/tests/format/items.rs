//! The table of listing items: which bytes an item has, and how many.
use crate::common::calls::machhurel_listing;
use crate::document::{section, table};
use crate::subject::record;
use machhurel::LISTING_BYTES;

/// The bytes that a record lists as.
fn listed(changes: &[(usize, u8)]) -> Vec<u8> {
    let (record, mut out) = (record(changes), [0u8; LISTING_BYTES]);
    let answer = machhurel_listing(&record, &mut out, 0);
    assert_eq!(answer as u32, 0);
    out[..(answer >> 32) as usize].to_vec()
}

/// A field of an item of the records below, by the words of the table.
fn field(kind: u64, words: &str) -> Vec<u8> {
    match (kind, words) {
        (0x41, "access") => vec![3],
        (0x42, "bank") => vec![4],
        (0x42, "number") => vec![0],
        (0x42, "access") => vec![1],
        (0x43, "bank") => vec![1],
        (0x43, "number") => vec![7],
        (0x43, "access") => vec![2],
        (0x44, "bank") => vec![0],
        (0x44, "number") => vec![4],
        (0x44, "displacement of 4 bytes") => (-8i32).to_le_bytes().to_vec(),
        (0x44, "access") => vec![2],
        (0x45, "bank") => vec![0],
        (0x45, "number of the base") => vec![3],
        (0x45, "bank of the index") => vec![4],
        (0x45, "number of the index") => vec![0],
        (0x45, "scale") => vec![1],
        (0x45, "access") => vec![1],
        (0x46, "its index from 0") => vec![0],
        (0x46, "its spec") => vec![24],
        (0x46, "access") => vec![3],
        _ => panic!("kind {kind:#x} has no {words:?}"),
    }
}

#[test]
fn listing_items() {
    let items = table("Listing", |row| row[0].starts_with("0x"));
    assert_eq!(items.len(), 6);
    // flags; MUL of a byte; lists 15, 26, 28; a read and written operand
    let records: [&[(usize, u8)]; 6] = [
        &[(36, 0x0C)],
        &[(38, 1)],
        &[(38, 15)],
        &[(38, 26)],
        &[(38, 28)],
        &[(3, 1), (4, 24), (37, 3)],
    ];
    for (row, changes) in items.iter().zip(records) {
        let kind = u64::from_str_radix(&row[0][2..], 16).expect(row[0]);
        let mut item = vec![kind as u8];
        item.extend(row[2].split(", ").flat_map(|words| field(kind, words)));
        assert_eq!(item.len().to_string(), row[3], "{}", row[1]);
        let listing = listed(changes);
        assert!(
            listing.windows(item.len()).any(|bytes| bytes == item),
            "{}: {listing:x?}",
            row[1]
        );
    }
}

/// Flags, then the list's entries, then the operands, those with access none too.
#[test]
fn listing_order() {
    let order: Vec<_> = section("Listing")
        .into_iter()
        .filter_map(|line| {
            line.split_once(". ")
                .filter(|(n, _)| n.parse::<u8>().is_ok())
        })
        .map(|(_, words)| words)
        .collect();
    assert!(order[0].starts_with("the flags"));
    assert!(order[1].starts_with("the entries of the implicit list"));
    assert!(order[2].starts_with("the explicit operands"));
    let listing = listed(&[(3, 2), (4, 1), (5, 2), (36, 0x04), (37, 1), (38, 15)]);
    assert_eq!(
        listing,
        [0x41, 1, 0x43, 1, 7, 2, 0x46, 0, 1, 1, 0x46, 1, 2, 0]
    );
}
