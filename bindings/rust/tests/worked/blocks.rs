//! A block of records: its answer, and all bytes of both buffers.
use crate::common::calls::machhurel_block;
use crate::rows::report;
use crate::samples::knowing;
use crate::samples::one;
use crate::samples::operands;
use crate::samples::plain;
use crate::samples::unknown;
use crate::samples::with;
use crate::samples::BEHAVIOR;
use crate::samples::COUNT;
use crate::samples::DISP;
use crate::samples::MEM_DISP;
use crate::samples::NUMBER_1;
use crate::samples::OPCODE;
use crate::samples::REG_RRR;

/// One register read: 3 bytes of log.
fn short() -> [u8; 40] {
    operands(1, REG_RRR, 0, 0x01)
}

/// P2, an addition to 8 bytes at rbx + 8: 32 bytes of log where rbx is known.
fn adding() -> [u8; 40] {
    let bytes = with(operands(2, MEM_DISP, REG_RRR, 0x07), BEHAVIOR, 0x08);
    with(with(bytes, NUMBER_1, 3), DISP, 8)
}

fn known() -> [u8; 141] {
    knowing(unknown(), 3, 0x1000)
}

/// Over 10 bytes of log from a start on; buffers are bytes 0xEE.
fn row(name: &str, records: &[[u8; 40]], start: usize, answer: u64, log: [u8; 10], answers: &[u8]) {
    let (mut lent, mut told) = ([0xEE; 10], vec![0xEE; answers.len()]);
    let found = machhurel_block(&records.concat(), 40, &known(), &mut lent, start, &mut told);
    report(name, found == answer && lent == log && told == answers);
}

#[test]
fn records_and_room() {
    const O: u8 = 0xEE;
    row(
        "the first 7 ends it",
        &[short(), adding(), short()],
        0,
        0x3_0000_0100,
        [1, 0, 0, O, O, O, O, O, O, O],
        &[0, 3, 0, 0, 7, 32, 0, 0, O, O, O, O],
    );
    let complex = with(with(one(0x34, 0x20, MEM_DISP), OPCODE + 1, 0x12), COUNT, 0);
    row(
        "refused ones go on, without a gap",
        &[short(), complex, with(short(), COUNT, 5), short()],
        1,
        0x6_0000_0400,
        [O, 1, 0, 0, 1, 0, 0, O, O, O],
        &[0, 3, 0, 0, 4, 0, 0x34, 0x12, 2, 0, 0, 0, 0, 3, 0, 0],
    );
    row(
        "another kind is that record's own 1",
        &[with(short(), 0, 0x20), short()],
        7,
        0x3_0000_0200,
        [O, O, O, O, O, O, O, 1, 0, 0],
        &[1, 0, 0, 0, 0, 3, 0, 0, O],
    );
    row(
        "past the end, an empty log",
        &[with(short(), COUNT, 5), plain(), short()],
        11,
        0x100,
        [O; 10],
        &[2, 0, 0, 0, 7, 0, 0, 0, O, O, O, O],
    );
    row("no records", &[], 99, 0, [O; 10], &[]);
    row(
        "too little room for the answers",
        &[short(), short()],
        0,
        7,
        [O; 10],
        &[O; 7],
    );
}
