//! The listing call: 0-7 number, 8-23 the opcode after 4, 32-63 the bytes written.
use crate::rows::holds;
use crate::rows::report;
use crate::rows::BUFFER;
use crate::samples::*;
use machhurel::RECORD_BYTES;

fn row_in(name: &str, x: [u8; RECORD_BYTES], room: usize, start: usize, answer: u64, bytes: &[u8]) {
    let mut out = [0xEEu8; BUFFER];
    let given = crate::common::calls::machhurel_listing(&x, &mut out[..room], start);
    report(name, given == answer && holds(&out, start, bytes));
}

fn row(name: &str, x: [u8; RECORD_BYTES], answer: u64, bytes: &[u8]) {
    row_in(name, x, 60, 3, answer, bytes);
}

#[test]
fn explicit() {
    let x = with(operands(2, MEM_DISP, REG_RRR, 0x07), BEHAVIOR, 0x08);
    let listing = b"\x41\x02\x46\x00\x18\x03\x46\x01\x01\x01";
    row("flags before operands", x, 0x0A_0000_0000, listing);
    let y = operands(2, REG_RRR, 0, 0x00);
    let listing = b"\x46\x00\x01\x00\x46\x01\x00\x00";
    row("access none, and Nothing", y, 0x08_0000_0000, listing);
    let z = with(operands(1, MEM_DISP, 0, 0x01), SIZE, 0);
    row("listing of size 0", z, 0x04_0000_0000, b"\x46\x00\x18\x01");
    row("nothing to list", plain(), 0, b"");
}

#[test]
fn implicit() {
    let x = with(one(1, 0x1C, REG_MMM), BANK_1, D);
    let listing = b"\x41\x03\x42\x01\x00\x01\x42\x00\x00\x02\x42\x00\x02\x02\x46\x00\x02\x01";
    row("MUL of D", x, 0x12_0000_0000, listing);
    row("list 15", listed(15), 0x04_0000_0000, b"\x43\x01\x07\x02");
    let listing = b"\x43\x00\x07\x01\x43\x00\x07\x02";
    row("list 24, Deref_rdi", listed(24), 0x08_0000_0000, listing);
    let listing = b"\x42\x00\x04\x01\x42\x00\x04\x02\x44\x00\x04\xF8\xFF\xFF\xFF\x02";
    row("list 26", listed(26), 0x10_0000_0000, listing);
    let listing = b"\x45\x00\x03\x04\x00\x01\x01";
    row("list 28", listed(28), 0x07_0000_0000, listing);
}

/// Flags, list 26 and four operands: no listing is longer.
fn longest() -> [u8; RECORD_BYTES] {
    let x = with(operands(4, REG_RRR, REG_MMM, 0xE4), SPEC_3, DISP_U32);
    with(with(x, BEHAVIOR, 0x0C), LIST, 26)
}

#[test]
fn room() {
    let listing =
        b"\x41\x03\x42\x00\x04\x01\x42\x00\x04\x02\x44\x00\x04\xF8\xFF\xFF\xFF\x02\x46\x00\x01\x00\x46\x01\x02\x01\x46\x02\x00\x02\x46\x03\x23\x03";
    row_in("34 in 34", longest(), 39, 5, 0x22_0000_0000, listing);
    row_in("34 in 33", longest(), 38, 5, 0x22_0000_0007, b"");
    row_in("34 past the end", longest(), 4, 5, 0x22_0000_0007, b"");
    row_in("none at the end", plain(), 5, 5, 0, b"");
    row_in("none past the end", plain(), 5, 6, 7, b"");
    let most = usize::MAX;
    row_in("none at the largest start", plain(), 0, most, 7, b"");
}

#[test]
fn refused() {
    row("listing of kind 0x20", with(plain(), 0, 0x20), 1, b"");
    row("listing of spec 36", one(PLAIN, 0x20, 36), 2, b"");
    row("complex BT of Disp", one(24, 0x20, MEM_DISP), 0x1804, b"");
    let listing = b"\x46\x00\x02\x01";
    row(
        "BT of RegMMM",
        one(24, 0x20, REG_MMM),
        0x04_0000_0000,
        listing,
    );
    let x = with(one(0xFF, 0x20, 0), OPCODE + 1, 0xFF);
    row_in("complex before room", x, 0, 1, 0xFF_FF04, b"");
}
