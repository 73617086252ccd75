//! The calls on a set of registers. The judge: 0-7 number, 8 accepted, 16-23 the lowest bit that the first lacking record lacks, 32-63
//! that record's number. The proposer: 0-7 number, 32-63 the set.
use crate::common::calls::{machhurel_fetch_judge, machhurel_fetch_propose};
use crate::rows::report;
use crate::samples::*;

const ACCEPTED: u64 = 0x100;
const LEA: u8 = 28;
const DEREF_RDI: u8 = 20;
const MEM_BASE_INDEX_SCALE: u8 = 30;
const BANK_2: usize = 12;
const NUMBER_2: usize = 13;
const XLAT: u8 = 28;

fn lacking(record: u64, bit: u64) -> u64 {
    (record << 32) | (bit << 16)
}

/// The least set of a record is proposed and accepted; without its lowest bit that one is lacking.
fn row(name: &str, record: impl AsRef<[u8]>, set: u32) {
    let record = record.as_ref();
    let judge = |set| machhurel_fetch_judge(record, record.len(), set);
    let proposed = machhurel_fetch_propose(record, record.len());
    report(name, proposed == u64::from(set) << 32);
    report(name, judge(set) == ACCEPTED);
    report(name, judge(set | 1 << 19) == 0);
    if set != 0 {
        let low = u64::from(set.trailing_zeros());
        report(name, judge(set & (set - 1)) == lacking(0, low));
    }
}

/// A base, then an index with a scale.
fn indexed(record: [u8; 40], base: u8, bank: u8, index: u8, scale: u8) -> [u8; 40] {
    let indexed = with(with(record, BANK_2, bank), NUMBER_2, index);
    with(with(indexed, NUMBER_1, base), SCALE, scale)
}

#[test]
fn one_record() {
    let deref = with(operands(1, DEREF, 0, 0x01), NUMBER_1, 3);
    row("[rbx]", deref, 0x8);
    let lea = with(operands(2, REG_RRR, MEM_DISP, 0x06), OPCODE, LEA);
    row("LEA's read", with(lea, NUMBER_1, 3), 0);
    let both = operands(1, MEM_BASE_INDEX_SCALE, 0, 0x01);
    row("scale 0", indexed(both, 3, 0, 6, 0), 0x48);
    row("a vector index", indexed(both, 3, X, 6, 1), 0x8);
    let index = operands(1, MEM_INDEX_SCALE, 0, 0x01);
    row("index ah", indexed(index, 0, B, 4, 1), 0x1);
    row(
        "eip",
        with(operands(1, MEM_DISP, 0, 0x01), BANK_1, EIP),
        0x10000,
    );
    row("rdi by its spec", operands(1, DEREF_RDI, 0, 0x02), 0x80);
    row("XLAT", with(listed(XLAT), SIZE, 1), 0x9);
    row("push", listed(26), 0x10);
    let string = with(with(listed(25), 4, DEREF_RDI), 5, DEREF_RDI + 1);
    row("list 25 alone", string, 0);
    row("no memory", plain(), 0);
}

/// The same record in kind 0x11, with its segment.
fn segmented(record: [u8; 40], segment: u8) -> Vec<u8> {
    [with(record, 0, 0x11).as_slice(), &[segment]].concat()
}

/// The same record in kind 0x12, without its digest.
fn everyday(record: [u8; 40], opcode: u8) -> Vec<u8> {
    with(with(record, 0, 0x12), OPCODE, opcode)[..36].to_vec()
}

#[test]
fn segments() {
    let deref = with(operands(1, DEREF, 0, 0x01), NUMBER_1, 3);
    row("fs:[rbx]", segmented(deref, 1), 0x20008);
    row("gs:[rbx]", segmented(deref, 2), 0x40008);
    row("no segment", segmented(deref, 0), 0x8);
    let rdi = operands(1, DEREF_RDI, 0, 0x02);
    row("gs with spec 20", segmented(rdi, 2), 0x80);
    let rsi = operands(1, DEREF_RDI + 1, 0, 0x01);
    row("gs with spec 21", segmented(rsi, 2), 0x40040);
    let lea = with(operands(2, REG_RRR, MEM_DISP, 0x06), OPCODE, LEA);
    row("LEA's read in fs", segmented(lea, 1), 0);
    row("push in gs", segmented(listed(26), 2), 0x10);
    row("segment 3", segmented(deref, 3), 0);
}

#[test]
fn records_without_a_digest() {
    let deref = with(operands(1, DEREF, 0, 0), NUMBER_1, 3);
    row("NOT [rbx]", everyday(deref, 115), 0x8);
    row("push [rbx]", everyday(deref, 117), 0x18);
    row("refused 9", everyday(deref, 119), 0);
}

#[test]
fn refused_records_count_nothing() {
    let deref = with(operands(1, DEREF, 0, 0x01), NUMBER_1, 3);
    row("1", with(deref, 0, 0x20), 0);
    row("2", with(deref, PREFIXES, 16), 0);
    row("4", with(deref, BEHAVIOR, 0x20), 0);
    row("5", with(with(deref, COUNT, 2), 37, 0x05), 0);
    row("6", with(deref, SIZE, 0), 0);
}

#[test]
fn lists() {
    let rbx = with(operands(1, DEREF, 0, 0x01), NUMBER_1, 3);
    let rax_rsi = indexed(operands(1, MEM_BASE_INDEX_SCALE, 0, 0x01), 0, 0, 6, 1);
    let complex = with(rbx, BEHAVIOR, 0x20);
    let list = [complex, rbx, rax_rsi, rbx].concat();
    let judge = |set| machhurel_fetch_judge(&list, 40, set);
    let proposed = machhurel_fetch_propose(&list, 40);
    report("the union", proposed == 0x49 << 32);
    report("enough", judge(0x7FFFF) == ACCEPTED);
    report("rbx is lacking", judge(0x41) == lacking(1, 3));
    report("rax is lacking", judge(0x8) == lacking(2, 0));
    report("rsi is lacking", judge(0x9) == lacking(2, 6));
    report("bit 19", judge(0x80049) == 0);
    let empty = machhurel_fetch_judge(&[], 40, 0);
    report("no record", empty == ACCEPTED);
    report(
        "no record, bit 31",
        machhurel_fetch_judge(&[], 40, 1 << 31) == 0,
    );
}

#[test]
fn refused_lists() {
    let list = [0u8; 40 * 1001];
    for (name, n, each, number) in [
        ("each 39", 39, 39, 1),
        ("each 0", 0, 0, 1),
        ("each 36", 0, 36, 0),
        ("each 41", 0, 41, 0),
        ("each 42", 0, 42, 1),
        ("no multiple", 41, 40, 1),
        ("1000 records", 40_000, 40, 0),
        ("1001 records", 40_040, 40, 2),
        ("1001 records and a byte less", 40_039, 40, 1),
    ] {
        let proposed = machhurel_fetch_propose(&list[..n], each);
        report(name, proposed == number);
        let judged = machhurel_fetch_judge(&list[..n], each, 1 << 19);
        report(name, judged == number);
    }
}
