//! The same records and files in the later kinds: a record with a segment, one without a digest, a file with the bases of fs and gs.

use crate::everyday;

/// The record with a segment behind it, where it is one of kind 0x10.
pub fn segmented(record: &[u8], segment: u8) -> Option<Vec<u8>> {
    if record.len() != 40 || record[0] != 0x10 {
        return None;
    }
    let mut bytes = record.to_vec();
    bytes[0] = 0x11;
    bytes.push(segment);
    Some(bytes)
}

/// The record without its digest, where it is one of kind 0x10.
pub fn bare(record: &[u8]) -> Option<Vec<u8>> {
    if record.len() != 40 || record[0] != 0x10 {
        return None;
    }
    let mut bytes = record[..everyday::LENGTH].to_vec();
    bytes[0] = everyday::KIND;
    Some(bytes)
}

/// The same under an opcode: by the turn one from 100 to 119, MUL, LEA, or the record's own.
fn renamed(mut record: Vec<u8>, turn: usize) -> Vec<u8> {
    let opcode = match turn % 23 {
        place @ 0..=19 => 100 + place as u16,
        20 => 1,
        21 => 28,
        _ => return record,
    };
    record[1..3].copy_from_slice(&opcode.to_le_bytes());
    record
}

/// The file with two bases behind it, where it is one of kind 0x20; `known` has bit 0 for fs and bit 1 for gs.
pub fn based(file: &[u8], known: u8) -> Option<Vec<u8>> {
    if file.len() != 141 || file[0] != 0x20 {
        return None;
    }
    let mut bytes = file.to_vec();
    bytes[0] = 0x21;
    bytes[3] |= (known & 3) << 1;
    bytes.extend(0xFFFF_8812_3456_7890_u64.to_le_bytes());
    bytes.extend(0x0000_7FFE_DCBA_9870_u64.to_le_bytes());
    Some(bytes)
}

/// A record and a file, and the same in the later kinds. Which segment, and which base is known, goes by the turn.
pub fn each(record: &[u8], file: &[u8], turn: usize, take: &mut dyn FnMut(&[u8], &[u8])) {
    let known = (turn / 2 % 4) as u8;
    let file = based(file, known).unwrap_or_else(|| file.to_vec());
    let Some(none) = segmented(record, 0) else {
        return take(record, &file);
    };
    take(&none, &file);
    let named = segmented(record, 1 + (turn % 2) as u8).expect("the record has a segment already");
    take(&named, &file);
    let bare = bare(record).expect("the record has no segment");
    take(&renamed(bare.clone(), turn), &file);
    if turn % 16 == 0 {
        take(record, &file);
        take(&bare[..everyday::LENGTH - 1], &file);
        take(&segmented(record, 3).expect("the record has a segment already"), &file);
    }
}
