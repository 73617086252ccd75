//! The visit call: 0-7 number, 8-23 the opcode after 4, 32-63 the bytes written. P1 to P11 are document 01's bench records.
use crate::rows::holds;
use crate::rows::report;
use crate::rows::BUFFER;
use crate::samples::*;
use machhurel::{FILE_BYTES, RECORD_BYTES};

fn row_in(
    name: &str,
    x: [u8; RECORD_BYTES],
    file: [u8; FILE_BYTES],
    room: usize,
    start: usize,
    answer: u64,
    bytes: &[u8],
) {
    let mut log = [0xEEu8; BUFFER];
    let given = crate::common::calls::machhurel_visit(&x, &file, &mut log[..room], start);
    report(name, given == answer && holds(&log, start, bytes));
}

/// Room for every log, and bytes before and behind it.
fn row(name: &str, x: [u8; RECORD_BYTES], file: [u8; FILE_BYTES], answer: u64, bytes: &[u8]) {
    row_in(name, x, file, 181, 2, answer, bytes);
}

#[test]
fn registers() {
    let x = with(operands(2, REG_RRR, REG_MMM, 0x06), BANK_0, D);
    let p1 = with(with(x, BANK_1, D), NUMBER_1, 3);
    let log = b"\x02\x00\x00\x01\x01\x03";
    row("P1", p1, unknown(), 0x06_0000_0000, log);
    let p4 = with(with(one(1, 0x18, REG_MMM), BANK_1, D), NUMBER_1, 3);
    let log = b"\x01\x01\x00\x02\x00\x00\x02\x00\x02\x02\x0B\x00\x01\x01\x03";
    row("P4", p4, unknown(), 0x0F_0000_0000, log);
}

fn p2() -> [u8; RECORD_BYTES] {
    let x = with(operands(2, MEM_DISP, REG_RRR, 0x07), BEHAVIOR, 0x08);
    with(with(x, NUMBER_1, 3), DISP, 8)
}

/// rbx is 0x1000.
fn p2_file() -> [u8; FILE_BYTES] {
    knowing(unknown(), 3, 0x1000)
}

pub const P2_LOG: [u8; 32] =
    *b"\x02\x0B\x00\x01\x00\x03\x03\x08\x10\x00\x00\x00\x00\x00\x00\x08\x01\x00\x03\x04\x08\x10\x00\x00\x00\x00\x00\x00\x08\x01\x00\x00";

/// The same where rbx is not known.
pub const P3_LOG: [u8; 16] = *b"\x02\x0B\x00\x01\x00\x03\x05\x08\x01\x00\x03\x06\x08\x01\x00\x00";

#[test]
fn memory() {
    row("P2", p2(), p2_file(), 0x20_0000_0000, &P2_LOG);
    row("P3", p2(), unknown(), 0x10_0000_0000, &P3_LOG);
}

#[test]
fn addresses() {
    let p5 = minus_8(operands(1, MEM_DISP, 0, 0x01));
    let log = b"\x01\x00\x00\x03\xFC\xFF\xFF\xFF\xFF\xFF\xFF\xFF\x08";
    row("P5", p5, knowing(unknown(), 0, 4), 0x0D_0000_0000, log);
    let short = with(p5, PREFIXES, 0x08);
    let log = b"\x01\x00\x00\x03\xFC\xFF\xFF\xFF\x00\x00\x00\x00\x08";
    row(
        "P5, address size",
        short,
        knowing(unknown(), 0, 4),
        0x0D_0000_0000,
        log,
    );
    let p6 = minus_8(operands(1, DISP_U32, 0, 0x01));
    let log = b"\x03\xF8\xFF\xFF\xFF\x00\x00\x00\x00\x08";
    row("P6", p6, unknown(), 0x0A_0000_0000, log);
    let p7 = with(operands(1, MEM_INDEX_SCALE, 0, 0x01), SCALE, 2);
    let file = knowing(unknown(), 0, 0x8000_0000_0000_0001);
    let log = b"\x01\x00\x00\x03\x02\x00\x00\x00\x00\x00\x00\x00\x08";
    row("P7", p7, file, 0x0D_0000_0000, log);
}

#[test]
fn lists() {
    let rsp = knowing(unknown(), 4, 0);
    let log = b"\x01\x00\x04\x02\x00\x04\x01\x00\x04\x04\xF8\xFF\xFF\xFF\xFF\xFF\xFF\xFF\x08";
    row("P8", listed(26), rsp, 0x13_0000_0000, log);
    let short = with(listed(26), PREFIXES, 0x08);
    row("P8, address size", short, rsp, 0x13_0000_0000, log);
    let file = knowing(knowing(unknown(), 3, 0x2000), 0, 0x1234);
    let log = b"\x01\x00\x03\x01\x04\x00\x03\x34\x20\x00\x00\x00\x00\x00\x00\x01";
    row("P9", with(listed(28), SIZE, 1), file, 0x10_0000_0000, log);
}

#[test]
fn complex() {
    let p10 = one(24, 0x20, REG_MMM);
    row(
        "P10, RegMMM",
        p10,
        unknown(),
        0x03_0000_0000,
        b"\x01\x00\x00",
    );
    let p10 = one(24, 0x20, MEM_DISP);
    row("P10, Disp", p10, unknown(), 0x1804, b"");
    let p11 = with(one(28, 0x00, MEM_DISP), SIZE, 0);
    row("P11", p11, unknown(), 6, b"");
}

fn p2_in(name: &str, room: usize, start: usize, answer: u64, bytes: &[u8]) {
    row_in(name, p2(), p2_file(), room, start, answer, bytes);
}

#[test]
fn room() {
    p2_in("P2, room 32", 32, 0, 0x20_0000_0000, &P2_LOG);
    p2_in("P2, room 31", 31, 0, 0x20_0000_0007, b"");
    p2_in("P2, room 32 behind 18", 50, 18, 0x20_0000_0000, &P2_LOG);
    p2_in("P2, room 31 behind 19", 50, 19, 0x20_0000_0007, b"");
    p2_in("P2, start past the end", 50, 51, 0x20_0000_0007, b"");
    p2_in("P2, largest start", 50, usize::MAX, 0x20_0000_0007, b"");
    row_in("no event at the end", plain(), unknown(), 50, 50, 0, b"");
}

#[test]
fn sizes() {
    let x = operands(1, DISP_U32, 0, 0x01);
    let log = b"\x03\x00\x00\x00\x00\x00\x00\x00\x00\x40";
    row("size 64", with(x, SIZE, 64), unknown(), 0x0A_0000_0000, log);
    row("size 65", with(x, SIZE, 65), unknown(), 2, b"");
}

/// A start past the end of an empty buffer: each number where later ones would be given too.
fn refuses(name: &str, x: [u8; RECORD_BYTES], file: [u8; FILE_BYTES], answer: u64) {
    row_in(name, x, file, 0, 1, answer, b"");
}

#[test]
fn refused() {
    let file = [0u8; FILE_BYTES];
    refuses("refused 1", with(one(PLAIN, 0x20, 36), 0, 0x11), file, 1);
    refuses("refused 2", one(PLAIN, 0x20, 36), file, 2);
    refuses("refused 3", one(PLAIN, 0x20, 0), file, 3);
    refuses("refused 4", one(PLAIN, 0x20, 0), unknown(), 0x2804);
    let x = with(operands(2, DEREF, 0, 0x05), SIZE, 0);
    refuses("refused 5", x, unknown(), 5);
    let y = with(operands(2, DEREF, 0, 0x01), SIZE, 0);
    refuses("refused 6", y, unknown(), 6);
    refuses(
        "refused 7",
        one(PLAIN, 0x00, DEREF),
        unknown(),
        0x05_0000_0007,
    );
}
