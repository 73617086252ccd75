//! The worked instruction, byte by byte.
use crate::document::section;
use machhurel::*;

fn hex(text: &str) -> Vec<u8> {
    text.split_whitespace()
        .map(|byte| u8::from_str_radix(byte, 16).expect(text))
        .collect()
}

/// A line of the worked instruction, by its first word.
fn worked(word: &str) -> Vec<u8> {
    let lines = section("A real instruction");
    let line = lines
        .iter()
        .find_map(|line| line.strip_prefix("    ")?.strip_prefix(word))
        .expect(word);
    hex(line)
}

#[test]
fn a_real_instruction() {
    let cells: Vec<u8> = section("A real instruction")
        .into_iter()
        .filter_map(|line| line.split('|').nth(2)?.trim().strip_prefix('`'))
        .flat_map(|value| hex(value.trim_end_matches('`')))
        .collect();
    let record = worked("record");
    assert_eq!(cells, record, "the table's bytes are the record's");
    let mut file = [0; FILE_BYTES];
    file[..2].copy_from_slice(&[0x20, 0x08]);
    file[5 + 8 * 3..13 + 8 * 3].copy_from_slice(&0x1000u64.to_le_bytes());
    let mut log = [0; LOG_BYTES];
    let n = visit(&record, &file, &mut log, 0).expect("not refused");
    assert_eq!(log[..n], worked("log"));
    let mut out = [0; LISTING_BYTES];
    let n = listing(&record, &mut out, 0).expect("not refused");
    assert_eq!(out[..n], worked("listing"));
    file[1] = 0;
    let n = visit(&record, &file, &mut log, 0).expect("not refused");
    assert_eq!(log[..n], [1, 0, 3, 6, 8, 1, 0, 0]);
}
