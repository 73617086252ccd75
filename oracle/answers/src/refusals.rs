//! Document 01's refusal table, but for 4 (the given Rust's answer) and 7 (the room).

use crate::{everyday, record, register_file};

/// The bases of fs and gs, which an event alone may name.
const BASES: u8 = 13;

/// How many registers each bank has, by the bank's number.
const REGISTERS: [u8; 13] = [16, 16, 16, 16, 8, 32, 32, 32, 8, 1, 1, 1, 32];

pub const LARGEST_SIZE: u8 = 64;
const LAST_SPEC: u8 = 35;
const LAST_LIST: u16 = 28;

pub fn is_register(bank: u8, number: u8) -> bool {
    REGISTERS.get(bank as usize).is_some_and(|&registers| number < registers)
}

/// What an event may name: the bases of fs and gs too (T-10).
pub fn is_logged(bank: u8, number: u8) -> bool {
    is_register(bank, number) || (bank == BASES && number < 2)
}

/// 1, 2 or 9, for a record's bytes.
pub fn of_record(bytes: &[u8]) -> Option<u8> {
    let kind = bytes.first().zip(Some(bytes.len()));
    if !record::KINDS.iter().any(|(byte, length)| kind == Some((byte, *length))) {
        return Some(1);
    }
    let bad = bytes[3] > 4
        || bytes[4..8].iter().any(|&spec| spec > LAST_SPEC)
        || bytes[8..16].chunks(2).any(|reg| !is_register(reg[0], reg[1]))
        || bytes[16] > LARGEST_SIZE
        || bytes[34] > 0x0F
        || bytes[35] > 7
        || bytes.get(38..40).is_some_and(|list| u16::from_le_bytes([list[0], list[1]]) > LAST_LIST)
        || bytes.get(40).is_some_and(|&segment| segment > 2);
    match everyday::filled_in(bytes) {
        _ if bad => Some(2),
        None => Some(9),
        Some(_) => None,
    }
}

/// Whether a register file is refused 3.
pub fn of_file(bytes: &[u8]) -> bool {
    let kind = bytes.first().zip(Some(bytes.len()));
    let Some((_, _, values)) = register_file::KINDS.iter().find(|(byte, length, _)| kind == Some((byte, *length)))
    else {
        return true;
    };
    u32::from_le_bytes(bytes[1..5].try_into().unwrap()) >> values != 0
}

/// The causes of 5 and 6 in a record, under the digest after fix-ups.
#[derive(Debug)]
pub struct Causes {
    /// 5: an accessed operand is Nothing, or a string slot holds another spec.
    pub no_operand: bool,
    /// 5: an accessed Reg4 lies outside its bank. The given Rust does not mind.
    pub reg4_outside: bool,
    /// 6: memory without a size.
    pub no_size: bool,
}

/// For a record that `of_record` does not refuse.
pub fn causes(record: &[u8], operand_access: u8, list: u16) -> Causes {
    let specs = &record[4..8];
    let accessed = || (0..record[3] as usize).filter(|i| operand_access >> (2 * i) & 3 != 0).map(|i| specs[i]);
    let is_string_slot = |spec: u8| matches!(spec, 18 | 20..=23);
    let slots = match list {
        24 => &specs[..1],
        25 => &specs[..2],
        _ => &[],
    };
    Causes {
        no_operand: accessed().any(|spec| spec == 0) || slots.iter().any(|&spec| !is_string_slot(spec)),
        reg4_outside: accessed().any(|spec| spec == 4) && !is_register(record[14], record[26]),
        no_size: record[16] == 0
            && (accessed().any(|spec| (18..=35).contains(&spec)) || matches!(list, 15 | 16 | 26..=28)),
    }
}
