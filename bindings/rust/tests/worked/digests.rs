//! The digest call: 0-7 number, 8-15 behavior, 16-23 operand access, 32-47 list. Fix-ups need bit 4 of the behavior.
use crate::rows::report;
use crate::samples::*;
use machhurel::RECORD_BYTES;

fn row(name: &str, x: [u8; RECORD_BYTES], answer: u64) {
    report(name, crate::common::calls::machhurel_digest(&x) == answer);
}

fn prefixed(name: &str, opcode: u8, prefixes: u8, answer: u64) {
    let x = with(plain(), PREFIXES, prefixes);
    row(name, with(with(x, OPCODE, opcode), BEHAVIOR, 0x10), answer);
}

fn sized(name: &str, opcode: u8, spec: u8, bank: u8, size: u8, answer: u64) {
    let x = with(with(one(opcode, 0x10, spec), SIZE, size), BANK_0, D);
    row(name, with(x, BANK_1, bank), answer);
}

fn counted(name: &str, opcode: u8, count: u8, access: u8, answer: u64) {
    let x = with(operands(count, 0, 0, access), OPCODE, opcode);
    row(name, with(x, BEHAVIOR, 0x10), answer);
}

#[test]
fn loops() {
    prefixed("LOOP, REX W", 23, 0x02, 0x15_0001_1000);
    prefixed("LOOP, REX W, operand size", 23, 0x06, 0x15_0001_1000);
    prefixed("LOOPZ, operand size", 22, 0x04, 0x15_0001_1000);
    prefixed("LOOPNZ, address size", 21, 0x09, 0x17_0001_1000);
}

#[test]
fn prefixes() {
    prefixed("MULX, VEX W", 15, 0x01, 0x0E_0001_1000);
    prefixed("MULX, others", 15, 0x0E, 0x0D_0001_1000);
    prefixed("VMASKMOVDQU, address size", 16, 0x08, 0x0F_0001_1000);
    prefixed("VMASKMOVDQU, others", 16, 0x07, 0x10_0001_1000);
    prefixed("PCMPESTRI, others", 17, 0x0E, 0x11_0001_1000);
    prefixed("VPCMPESTRI, VEX W", 18, 0x01, 0x12_0001_1000);
    prefixed("PCMPESTRM, others", 19, 0x0E, 0x13_0001_1000);
    prefixed("VPCMPESTRM, VEX W", 20, 0x01, 0x14_0001_1000);
}

/// The width of regs[1] where spec 0 is RegMMM, else the size. Bank 0 of regs[0] is D.
#[test]
fn widths() {
    sized("MUL of B", 1, REG_MMM, B, 8, 0x01_0001_1000);
    sized("MUL of 2 bytes", 1, DEREF, B, 2, 0x02_0001_1000);
    sized("IMUL of EIP", 2, REG_MMM, EIP, 8, 0x03_0001_1000);
    sized("DIV of no size", 3, DEREF, B, 0, 0x08_0001_1000);
    sized("IDIV of RegRRR", 4, REG_RRR, W, 1, 0x05_0001_1000);
    sized("CMPXCHG of W", 6, REG_MMM, W, 1, 0x0A_0001_1000);
    sized("CMPXCHG of X", 6, REG_MMM, X, 1, 0x0C_0001_1000);
}

#[test]
fn counts() {
    counted("IMUL with 2", 2, 2, 0x06, 0x0007_1000);
    counted("IMUL with 3", 2, 3, 0x00, 0x0016_1000);
    counted("IMUL with 4", 2, 4, 0xE4, 0x00E4_1000);
    counted("IMUL with 0", 2, 0, 0xE4, 0x00E4_1000);
    counted("VMOVLPS with 2", 7, 2, 0x00, 0x0003_1000);
    counted("VMOVHPD with 3", 10, 3, 0xFF, 0x00DE_1000);
}

#[test]
fn more_counts() {
    counted("EXTRQ with 2", 11, 2, 0xFF, 0x00FF_1000);
    counted("EXTRQ with 3", 11, 3, 0xFF, 0x00DF_1000);
    counted("INSERTQ with 2", 12, 2, 0xFF, 0x00FF_1000);
    counted("INSERTQ with 3", 12, 3, 0xFF, 0x005F_1000);
    counted("NOP with 1", 5, 1, 0xFF, 0x00FC_1000);
    counted("NOP with 2", 5, 2, 0xFF, 0x00FF_1000);
    counted("RETURN with 0", 13, 0, 0xFE, 0x00FE_1000);
    counted("RETF with 1", 14, 1, 0xFE, 0x00FD_1000);
}

#[test]
fn unchanged() {
    let x = with(one(23, 0xEF, 0), LIST, 28);
    row("LOOP without bit 4", x, 0x1C_0001_EF00);
    row("BT, bits 6 and 7", one(24, 0xD0, 0), 0x0001_D000);
    let y = with(one(23, 0x10, 0), OPCODE + 1, 1);
    row("LOOP and 256", y, 0x0001_1000);
}

#[test]
fn refused() {
    row("digest of kind 0x11", with(plain(), 0, 0x11), 1);
    row("digest of count 5", with(plain(), COUNT, 5), 2);
    row("digest of spec 36", with(plain(), SPEC_3, 36), 2);
    let x = with(with(plain(), BANK_3, B), NUMBER_3, 8);
    row("digest of B 8", x, 2);
    row("digest of size 65", with(plain(), SIZE, 65), 2);
    row("digest of prefix bit 4", with(plain(), PREFIXES, 0x10), 2);
    row("digest of mask 8", with(plain(), MASK, 8), 2);
    row("digest of list 29", with(one(23, 0x10, 0), LIST, 29), 2);
    row("digest of list 256", with(plain(), LIST + 1, 1), 2);
}

/// Zeros behind the kind are a record where there are 40 bytes of it.
#[test]
fn lengths() {
    let mut x = [0u8; 41];
    x[0] = 0x10;
    let short = crate::common::calls::machhurel_digest(&x[..39]);
    report("digest of 39 bytes", short == 1);
    let right = crate::common::calls::machhurel_digest(&x[..40]);
    report("digest of 40 bytes", right == 0);
    let long = crate::common::calls::machhurel_digest(&x);
    report("digest of 41 bytes", long == 1);
    let none = crate::common::calls::machhurel_digest(b"");
    report("digest of no byte", none == 1);
}
