//! What the library is asked with: records, a file that knows everything, and their log.
use machhurel::*;

/// A record whose fields are 0 but for the bytes named, with opcode 40 and size 8.
pub fn record(changes: &[(usize, u8)]) -> [u8; RECORD_BYTES] {
    let mut bytes = [0; RECORD_BYTES];
    bytes[0] = 0x10;
    bytes[1] = 40;
    bytes[16] = 8;
    for &(at, byte) in changes {
        bytes[at] = byte;
    }
    bytes
}

/// The value of a slot in `full()`: no two bytes of two slots are alike in their low half.
pub fn value(slot: u64) -> u64 {
    0x8182_8384_0000_0000 + 0x0101 * slot + 0xA000
}

/// A file that knows every slot.
pub fn full() -> [u8; FILE_BYTES] {
    let mut file = [0; FILE_BYTES];
    file[..4].copy_from_slice(&[0x20, 0xFF, 0xFF, 0x01]);
    for slot in 0..17 {
        file[5 + 8 * slot..13 + 8 * slot].copy_from_slice(&value(slot as u64).to_le_bytes());
    }
    file
}

pub fn logged(changes: &[(usize, u8)]) -> Vec<u8> {
    let mut log = [0; LOG_BYTES];
    let n = visit(&record(changes), &full(), &mut log, 0).expect("not refused");
    log[..n].to_vec()
}

pub fn memory(kind: u8, address: u64) -> Vec<u8> {
    [&[kind][..], &address.to_le_bytes(), &[8]].concat()
}
