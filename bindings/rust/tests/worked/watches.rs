//! The calls on a watch: ten words, and what a pair or an event did to the variable.
use crate::common::calls::machhurel_verdict;
use crate::common::calls::machhurel_watch_new;
use crate::common::calls::machhurel_watch_step;
use crate::rows::report;
use crate::samples::knowing;
use crate::samples::one;
use crate::samples::operands;
use crate::samples::unknown;
use crate::samples::with;
use crate::samples::DEREF;
use crate::samples::NUMBER_1;
use crate::samples::REG_RRR;
use machhurel::{FILE_BYTES, RECORD_BYTES};

/// The word for no number.
const NEVER: u64 = u64::MAX;

/// A new watch over words that are all 5.
fn row(name: &str, length: u64, answer: u64, words: [u64; 10]) {
    let mut watch = [5u64; 10];
    let found = machhurel_watch_new(&mut watch, 0x1000, length);
    report(name, found == answer && watch == words);
}

#[test]
fn made() {
    let fresh = [0x1000, 8, 0, 0, 0, 0, 0, 0, NEVER, NEVER];
    row("watch of 8 bytes", 8, 0, fresh);
    let shortest = [0x1000, 1, 0, 0, 0, 0, 0, 0, NEVER, NEVER];
    row("watch of 1 byte", 1, 0, shortest);
    row("watch of no byte", 0, 2, [5u64; 10]);
    row("watch of 9 bytes", 9, 2, [5u64; 10]);
    row("watch of 264 bytes", 264, 2, [5u64; 10]);
}

/// 8 bytes stored at rbx.
fn storing() -> [u8; RECORD_BYTES] {
    with(operands(2, DEREF, REG_RRR, 0x06), NUMBER_1, 3)
}

fn at(address: u64) -> [u8; FILE_BYTES] {
    knowing(unknown(), 3, address)
}

/// A step from these words on: its answer, and the words after it.
fn step(
    name: &str,
    mut watch: [u64; 10],
    record: [u8; RECORD_BYTES],
    file: [u8; FILE_BYTES],
    answer: u64,
    after: [u64; 10],
) {
    let found = machhurel_watch_step(&mut watch, &record, &file);
    report(name, found == answer && watch == after);
}

#[test]
fn stepped() {
    let fresh = [0x1000, 8, 0, 0, 0, 0, 0, 0, NEVER, NEVER];
    let part = [0x1000, 8, 1, 0, 0, 1, 0, 0, 0, NEVER];
    step(
        "step, part",
        fresh,
        storing(),
        at(0xFFC),
        0x1_0000_0000,
        part,
    );
    let whole = [0x1000, 8, 2, 0, 0, 1, 1, 0, 0, 1];
    step(
        "step, whole",
        part,
        storing(),
        at(0x1000),
        0x100_0000_0000,
        whole,
    );
    let none = [0x1000, 8, 3, 0, 1, 1, 1, 0, 0, 1];
    step("step, none", whole, storing(), at(0x1008), 0x100_0000, none);
    let blind = [0x1000, 8, 4, 1, 1, 1, 1, 0, 0, 1];
    step("step, unknown", none, storing(), unknown(), 0x1_0000, blind);
    let complex = [0x1000, 8, 5, 1, 1, 1, 1, 1, 0, 1];
    step(
        "step, refused 4",
        blind,
        one(24, 0x20, DEREF),
        at(0x1000),
        0x0018_0000_0000_0400,
        complex,
    );
    let later = [0x1000, 8, 6, 1, 1, 1, 2, 1, 0, 5];
    step(
        "step, whole again",
        complex,
        storing(),
        at(0x1000),
        0x100_0000_0000,
        later,
    );
}

/// Past the limit, and a length that no variable has: 2, before the look, and the words stay.
#[test]
fn untaken() {
    let last = [0x1000, 8, 999999, 0, 0, 0, 0, 0, NEVER, NEVER];
    let full = [0x1000, 8, 1000000, 0, 0, 1, 0, 0, 999999, NEVER];
    step(
        "step, the last",
        last,
        storing(),
        at(0xFFC),
        0x1_0000_0000,
        full,
    );
    step("step past the limit", full, storing(), at(0xFFC), 2, full);
    step(
        "step past the limit, refused",
        full,
        [0u8; RECORD_BYTES],
        at(0xFFC),
        2,
        full,
    );
    let long = [0x1000, 9, 0, 0, 0, 0, 0, 0, 7, NEVER];
    step("step of 9 bytes", long, storing(), at(0xFFC), 2, long);
    let most = [0x1000, 8, 3, 0, 0, NEVER, 0, NEVER, 7, NEVER];
    let turned = [0x1000, 8, 4, 0, 0, 0, 0, NEVER, 7, NEVER];
    step(
        "step over any words",
        most,
        storing(),
        at(0xFFC),
        0x1_0000_0000,
        turned,
    );
}

/// The log of a store of n bytes at an address.
fn stored(n: u8, a: u64) -> [u8; 10] {
    let mut log = [4u8; 10];
    log[1..1 + 8].copy_from_slice(&a.to_le_bytes());
    log[9] = n;
    log
}

fn verdict(name: &str, address: u64, length: u64, n: u8, a: u64, answer: u64) {
    let log = stored(n, a);
    report(name, machhurel_verdict(address, length, &log, 0) == answer);
}

/// The verdict in bits 8-15 (2 none, 3 part, 4 whole), the bytes of the variable in 16-23, the 10 bytes of the event in 32-63.
#[test]
fn traps() {
    verdict("verdict, before", 0x1000, 8, 8, 0xFFC, 0xA_000F_0300);
    verdict(
        "verdict, 64 to the end",
        0x1000,
        8,
        64,
        0xFC8,
        0xA_00FF_0400,
    );
    verdict(
        "verdict, 64 short by 1",
        0x1000,
        8,
        64,
        0xFC7,
        0xA_007F_0300,
    );
    verdict("verdict, just behind", 0x1000, 8, 8, 0x1008, 0xA_0000_0200);
    verdict("verdict, just before", 0x1000, 8, 8, 0xFF8, 0xA_0000_0200);
    verdict("verdict, the end", 0x1000, 8, 4, 0x1004, 0xA_00F0_0300);
    verdict("verdict, one byte", 0x1000, 1, 1, 0x1000, 0xA_0001_0400);
}

/// Round the end of the address space.
#[test]
fn wrapped() {
    let edge = 0xFFFF_FFFF_FFFF_FFFC;
    verdict("verdict, 4 at 0", edge, 8, 4, 0, 0xA_00F0_0300);
    verdict("verdict, over the edge", edge, 8, 8, edge, 0xA_00FF_0400);
    verdict("verdict, 4 at 4", edge, 8, 4, 4, 0xA_0000_0200);
    let far = 0xFFFF_FFFF_FFFF_FFC4;
    verdict("verdict, 64 from below", 0, 4, 64, far, 0xA_000F_0400);
    verdict("verdict, 60 from below", 0, 4, 60, far, 0xA_0000_0200);
}

fn other(name: &str, length: u64, log: &[u8], at: usize, answer: u64) {
    report(name, machhurel_verdict(0x1000, length, log, at) == answer);
}

/// What is no store, and what does not read.
#[test]
fn read() {
    other("verdict, unknown address", 8, b"\x06\x08", 0, 0x2_0000_0100);
    other("verdict, unknown read", 8, b"\x05\x08", 0, 0x2_0000_0000);
    let load = b"\x03\x00\x10\0\0\0\0\0\0\x08";
    other("verdict, read", 8, load, 0, 0xA_0000_0000);
    other("verdict, register", 8, b"\x02\x00\x03", 0, 0x3_0000_0000);
    other("verdict, no such length", 9, load, 0, 2);
    other("verdict, no such length, finished", 0, load, 10, 2);
    other("verdict, finished", 8, load, 10, 255);
    other("verdict, unknown kind", 8, b"\x07\x08", 0, 1);
    other("verdict, size 65", 8, b"\x06\x41", 0, 2);
}
