//! The fields of a record, and the kinds of events: what each may hold, and how long it is.
use crate::document::{number, range, rows, section};
use crate::subject::record;
use machhurel::*;

/// The first and last byte of a field.
fn place(text: &str) -> (usize, usize) {
    let (first, last) = if text.contains('-') {
        range(text)
    } else {
        (number(text), number(text))
    };
    (first as usize, last as usize)
}

/// Whether a record with one byte changed is refused 2.
fn is_refused(at: usize, byte: u8) -> bool {
    match digest(&record(&[(at, byte)])) {
        Ok(_) => false,
        Err(refusal) => {
            assert_eq!(refusal, Refusal::Field, "byte {at} is {byte}");
            true
        }
    }
}

#[test]
fn fields() {
    let mut next = 1;
    for line in section("Record") {
        let cells: Vec<_> = line.trim_matches('|').split('|').map(str::trim).collect();
        let [bytes, field, _, refused] = cells[..] else {
            continue;
        };
        if !bytes.starts_with(|c: char| c.is_ascii_digit()) || field == "kind" {
            continue;
        }
        let (first, last) = place(bytes);
        assert_eq!(first, next, "{field} follows the field before it");
        next = last + 1;
        let most = refused
            .rsplit("above ")
            .next()
            .and_then(|most| most.split(',').next()?.parse::<u64>().ok());
        for at in first..=last {
            for byte in 0..=255u8 {
                let wanted = match (refused, most) {
                    ("never", _) => false,
                    ("bit 4, 5, 6 or 7 is set", _) => byte >= 0x10,
                    (_, Some(most)) if field == "`extra`" => {
                        u64::from(byte) << (8 * (at - first)) > most
                    }
                    (_, Some(most)) => u64::from(byte) > most,
                    _ => continue, // the registers: the table of banks
                };
                assert_eq!(is_refused(at, byte), wanted, "{field}: byte {at} is {byte}");
            }
        }
    }
    assert_eq!(next, RECORD_BYTES);
}

#[test]
fn events() {
    let table = rows("Events");
    assert_eq!(table.len(), 6);
    for kind in 0..=255u8 {
        // a body that is good for every kind: register Q 1, or an address and size 1
        let log = [kind, 1, 1, 1, 1, 1, 1, 1, 1, 1];
        let length = table
            .iter()
            .find(|row| number(row[0]) == kind.into())
            .map_or(0, |row| number(row[3]) as usize);
        for cut in 1..=log.len() {
            let mut events = Events::new(&log[..cut]);
            let is_event = length != 0 && length <= cut;
            match events.next() {
                Some(Ok(_)) => assert!(is_event && events.at() == length, "kind {kind}"),
                other => assert!(
                    !is_event && other == Some(Err(Refusal::Form)),
                    "kind {kind}"
                ),
            }
        }
    }
}
