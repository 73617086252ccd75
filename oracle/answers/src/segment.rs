//! T-10, applied to the given Rust's log: the base of a segment is read before every part of an explicit operand that touches memory,
//! and added to where it lies. Written over the record's bytes and the log's: nothing of the given Rust is asked.

use crate::event::{self, Read};

const LEA: u16 = 28;
const MEMORY: std::ops::RangeInclusive<u8> = 18..=35;

/// A part of an operand: how many events the given Rust logs for it, and whether a base is added to the last of them.
struct Part {
    events: usize,
    based: bool,
}

/// The log of a record that names a segment, by the log of the same record without one.
pub fn applied(record: &[u8], operand_access: u8, file: &[u8], log: Vec<u8>) -> Vec<u8> {
    let number = match record.get(40) {
        Some(1) => 0,
        Some(2) => 1,
        _ => return log,
    };
    let base = base(file, number);
    let parts = parts(record, operand_access);
    let mut events = events(&log);
    let explicit = events.split_off(events.len() - parts.iter().map(|part| part.events).sum::<usize>());
    let mut left = explicit.into_iter();
    for part in parts {
        let own = left.by_ref().take(part.events);
        if part.based {
            events.push(vec![1, 13, number]);
            let mut own: Vec<_> = own.collect();
            let access = own.pop().expect("a part that touches memory has an access");
            events.extend(own);
            events.push(moved(&access, base));
        } else {
            events.extend(own);
        }
    }
    events.concat()
}

/// An access, moved by a base: at an unknown address where the base or its own is unknown.
fn moved(access: &[u8], base: Option<u64>) -> Vec<u8> {
    let (kind, size) = (access[0], access[access.len() - 1]);
    let at = match kind {
        3 | 4 => Some(u64::from_le_bytes(access[1..9].try_into().unwrap())),
        _ => None,
    };
    let write = kind % 2 == 0;
    match at.zip(base) {
        Some((at, base)) => {
            let mut event = vec![3 + u8::from(write)];
            event.extend(at.wrapping_add(base).to_le_bytes());
            event.push(size);
            event
        }
        None => vec![5 + u8::from(write), size],
    }
}

/// The base of fs (0) or gs (1), where a file has it and knows it.
fn base(file: &[u8], number: u8) -> Option<u64> {
    let known = u32::from_le_bytes(file[1..5].try_into().unwrap());
    if file[0] != 0x21 || known >> (17 + number) & 1 == 0 {
        return None;
    }
    let at = 141 + 8 * number as usize;
    Some(u64::from_le_bytes(file[at..at + 8].try_into().unwrap()))
}

/// The parts of a record's operands in their order, by document 01's tables.
fn parts(record: &[u8], operand_access: u8) -> Vec<Part> {
    let lea = u16::from_le_bytes([record[1], record[2]]) == LEA;
    let mask = usize::from(record[35] != 0);
    let mut parts = Vec::new();
    for i in 0..record[3] as usize {
        let spec = record[4 + i];
        for bit in 0..2 {
            if operand_access >> (2 * i + bit) & 1 == 0 {
                continue;
            }
            let stops = lea && bit == 0;
            let registers = match spec {
                1..=4 => 1,
                5..=10 => 1 + mask,
                18 | 20..=24 | 26 | 28 => 1,
                19 | 25 | 27 | 29 => 1 + mask,
                30 | 32 => 2,
                31 | 33 => 2 + mask,
                _ => 0,
            };
            let touches = MEMORY.contains(&spec) && !stops;
            parts.push(Part { events: registers + usize::from(touches), based: touches && spec != 20 && spec != 22 });
        }
    }
    parts
}

/// The events of a log, each as its bytes.
fn events(log: &[u8]) -> Vec<Vec<u8>> {
    let (mut at, mut events) = (0, Vec::new());
    while let Read::Event(length) = event::read(log, at) {
        events.push(log[at..at + length].to_vec());
        at += length;
    }
    events
}
