//! T-11: a record of kind 0x12 is the first 36 bytes of one of kind 0x10, and its digest comes from document 02's table.

use std::borrow::Cow;

pub const KIND: u8 = 0x12;
pub const LENGTH: usize = 36;

const NO_FLAGS: u8 = 0;
const WRITES_FLAGS: u8 = 2 << 2;
const READS_AND_WRITES_FLAGS: u8 = 3 << 2;
const NONTRIVIAL: u8 = 0x10;

/// The rows of document 02: the first and last opcode, access, `behavior`, list.
const ROWS: [(u16, u16, u8, u8, u16); 11] = [
    (1, 1, 0x01, NONTRIVIAL | WRITES_FLAGS, 0),
    (28, 28, 0x06, NO_FLAGS, 0),
    (100, 102, 0x06, NO_FLAGS, 0),
    (103, 107, 0x07, WRITES_FLAGS, 0),
    (108, 109, 0x07, READS_AND_WRITES_FLAGS, 0),
    (110, 111, 0x05, WRITES_FLAGS, 0),
    (112, 114, 0x03, WRITES_FLAGS, 0),
    (115, 115, 0x03, NO_FLAGS, 0),
    (116, 116, 0x0F, NO_FLAGS, 0),
    (117, 117, 0x01, NO_FLAGS, 26),
    (118, 118, 0x02, NO_FLAGS, 27),
];

/// `behavior`, `operand_access` and list, where the table has the opcode.
pub fn digest(opcode: u16) -> Option<(u8, u8, u16)> {
    let row = ROWS.iter().find(|(first, last, ..)| (*first..=*last).contains(&opcode))?;
    Some((row.3, row.2, row.4))
}

/// The record of kind 0x10 that one of kind 0x12 stands for, where its opcode has a digest; another kind as it is.
pub fn filled_in(record: &[u8]) -> Option<Cow<'_, [u8]>> {
    if record[0] != KIND {
        return Some(Cow::Borrowed(record));
    }
    let (behavior, access, list) = digest(u16::from_le_bytes([record[1], record[2]]))?;
    let mut bytes = record.to_vec();
    bytes[0] = 0x10;
    bytes.extend([behavior, access]);
    bytes.extend(list.to_le_bytes());
    Some(Cow::Owned(bytes))
}
