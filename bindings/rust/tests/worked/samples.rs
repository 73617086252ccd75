//! Records and register files, by what is not 0 in them. Where a row does not say: opcode PLAIN, no operand, access 0x01, size 8.
use machhurel::{FILE_BYTES, RECORD_BYTES};

// Places in a record.
pub const OPCODE: usize = 1;

pub const COUNT: usize = 3;

pub const SPEC_3: usize = 7;

pub const BANK_0: usize = 8;

pub const BANK_1: usize = 10;

pub const NUMBER_1: usize = 11;

pub const BANK_3: usize = 14;

pub const NUMBER_3: usize = 15;

pub const SIZE: usize = 16;

pub const SCALE: usize = 17;

pub const DISP: usize = 18;

pub const PREFIXES: usize = 34;

pub const MASK: usize = 35;

pub const BEHAVIOR: usize = 36;

pub const LIST: usize = 38;

/// An opcode that no rule of a digest names.
pub const PLAIN: u8 = 40;

// Specs.
pub const REG_RRR: u8 = 1;

pub const REG_MMM: u8 = 2;

pub const DEREF: u8 = 18;

pub const MEM_DISP: u8 = 24;

pub const MEM_INDEX_SCALE: u8 = 26;

pub const DISP_U32: u8 = 35;

/// Banks.
pub const D: u8 = 1;

pub const W: u8 = 2;

pub const B: u8 = 4;

pub const X: u8 = 5;

pub const EIP: u8 = 10;

pub fn with(mut bytes: [u8; RECORD_BYTES], place: usize, value: u8) -> [u8; RECORD_BYTES] {
    bytes[place] = value;
    bytes
}

/// No more than the first two specs.
pub fn operands(count: u8, first: u8, second: u8, access: u8) -> [u8; RECORD_BYTES] {
    let mut bytes = [0u8; RECORD_BYTES];
    bytes[0] = 0x10;
    bytes[1] = PLAIN;
    bytes[3] = count;
    bytes[4] = first;
    bytes[5] = second;
    bytes[16] = 8;
    bytes[37] = access;
    bytes
}

/// No operand.
pub fn plain() -> [u8; RECORD_BYTES] {
    operands(0, 0, 0, 0x01)
}

/// An opcode with one operand.
pub fn one(opcode: u8, behavior: u8, spec: u8) -> [u8; RECORD_BYTES] {
    with(
        with(operands(1, spec, 0, 0x01), OPCODE, opcode),
        BEHAVIOR,
        behavior,
    )
}

/// An implicit list, and no operand.
pub fn listed(list: u8) -> [u8; RECORD_BYTES] {
    with(plain(), LIST, list)
}

/// Displacement 0xFFFFFFF8.
pub fn minus_8(bytes: [u8; RECORD_BYTES]) -> [u8; RECORD_BYTES] {
    let low = with(with(bytes, DISP, 0xF8), DISP + 1, 0xFF);
    with(with(low, DISP + 2, 0xFF), DISP + 3, 0xFF)
}

/// A file that knows nothing.
pub fn unknown() -> [u8; FILE_BYTES] {
    let mut bytes = [0u8; FILE_BYTES];
    bytes[0] = 0x20;
    bytes
}

/// A file that knows one of the first eight registers more.
pub fn knowing(mut bytes: [u8; FILE_BYTES], register: u8, value: u64) -> [u8; FILE_BYTES] {
    if register < 8 {
        let place = 5 + 8 * (register as usize);
        bytes[place..place + 8].copy_from_slice(&value.to_le_bytes());
        bytes[1] = bytes[1] | (1u8 << register);
    }
    bytes
}
