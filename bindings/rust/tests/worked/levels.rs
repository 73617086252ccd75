//! The privilege call: 0-7 number, 8-15 level. The exceptions call: 0-7 number, 32-63 exception bits.
use crate::rows::report;
use crate::samples::*;
use machhurel::RECORD_BYTES;

/// Exception bits 13 and 14, from bit 32 on.
const GP: u64 = 0x2000_0000_0000;

const PF: u64 = 0x4000_0000_0000;

fn level(name: &str, x: [u8; RECORD_BYTES], answer: u64) {
    report(
        name,
        crate::common::calls::machhurel_privilege(&x) == answer,
    );
}

fn raises(name: &str, x: [u8; RECORD_BYTES], answer: u64) {
    report(
        name,
        crate::common::calls::machhurel_exceptions(&x) == answer,
    );
}

#[test]
fn levels() {
    level("privilege any", one(PLAIN, 0xFC, REG_RRR), 0);
    level("privilege CPL 0", one(PLAIN, 0x01, REG_RRR), 0x100);
    level("privilege special", one(PLAIN, 0x02, REG_RRR), 0x200);
    level("privilege reserved", one(PLAIN, 0x03, REG_RRR), 0x300);
    level("privilege of spec 36", one(PLAIN, 0x03, 36), 2);
    raises("exceptions, any", one(PLAIN, 0x0C, REG_RRR), 0);
    raises("exceptions, CPL 0", one(PLAIN, 0x01, REG_RRR), GP);
    raises("exceptions, special", one(PLAIN, 0x02, REG_RRR), GP);
    raises("exceptions of spec 36", one(PLAIN, 0x23, 36), 2);
}

#[test]
fn memory() {
    raises("memory, access none", operands(1, DEREF, 0, 0x00), PF);
    raises("memory, LEA", one(28, 0x00, MEM_DISP), PF);
    let x = operands(4, REG_RRR, REG_RRR, 0x00);
    raises("memory as the fourth", with(x, SPEC_3, DISP_U32), PF);
    raises("memory past count", operands(1, 0, DEREF, 0x01), 0);
    raises("no memory, spec 17", one(PLAIN, 0x00, 17), 0);
}

#[test]
fn lists() {
    raises("memory of list 24, Deref_rdi", listed(24), PF);
    raises("no memory, list 23", listed(23), 0);
    raises("memory by fix-up", one(16, 0x10, 0), PF);
}

#[test]
fn complex() {
    raises("complex", one(PLAIN, 0x20, REG_MMM), PF);
    raises("complex, reserved", one(PLAIN, 0x23, REG_MMM), GP + PF);
    raises("complex BT of RegMMM", one(24, 0x20, REG_MMM), 0);
    raises("complex BTC of RegRRR", one(27, 0x20, REG_RRR), PF);
    raises("complex LEA of RegMMM", one(28, 0x20, REG_MMM), PF);
}
