//! Records to start from: document 01's bench records, and some that do more.

use super::draft::*;
use super::files::{self, File};

pub struct Base {
    pub record: Draft,
    pub file: File,
}

/// P1 to P10 (P11 is a size of 0, and P10's refused twin another spec).
pub fn bench() -> Vec<Base> {
    let base = |record, file| Base { record, file };
    let p5 = Draft::of(&[DISP]).reg(1, Q, 3).disp(0xFFFF_FFF8);
    vec![
        base(Draft::of(&[REG_RRR, REG_MMM]).access(0x06).reg(0, D, 0).reg(1, D, 3), files::knowing(0)),
        p2(),
        base(p2().record, files::knowing(files::ALL_KNOWN & !(1 << 3))),
        base(Draft::of(&[REG_MMM]).opcode(MUL).behavior(0x18).reg(1, D, 3), files::knowing(0)),
        base(p5, files::holding(&[(3, 4)])),
        base(p5.spec(0, DISP_U32), files::knowing(0)),
        base(Draft::of(&[MEM_INDEX_SCALE]).scale(2).reg(2, Q, 1), files::holding(&[(1, 0x8000_0000_0000_0001)])),
        base(Draft::of(&[]).list(26), files::holding(&[])),
        base(Draft::of(&[]).list(28).size(1), files::holding(&[(3, 0x2000), (0, 0x1234)])),
        base(Draft::of(&[REG_MMM]).opcode(BT).behavior(COMPLEX), files::knowing(0)),
        base(Draft::of(&[DISP]).opcode(LEA), files::holding(&[])),
    ]
}

/// A read-write memory operand, then a register that is read; flags are written.
pub fn p2() -> Base {
    let record = Draft::of(&[DISP, REG_RRR]).access(0x07).behavior(0x08).reg(1, Q, 3).reg(0, Q, 0).disp(8);
    Base { record, file: files::holding(&[(3, 0x1000)]) }
}

/// The longest log that a record without a segment can have: 177 bytes, 38 events; with one it is the longest of all.
pub fn longest() -> Base {
    let record = Draft::of(&[MEM_BASE_INDEX_SCALE_DISP_MASK; 4])
        .access(0xFF)
        .behavior(0x0C)
        .list(26)
        .mask(7)
        .reg(1, Q, 5)
        .reg(2, Q, 14)
        .size(64)
        .scale(8)
        .disp(0x1234_5678);
    Base { record, file: files::knowing(files::ALL_KNOWN) }
}

/// One of each shape of operand, all accessed.
pub fn mixed() -> Base {
    let record = Draft::of(&[MEM_BASE_INDEX_SCALE_DISP, REG_RRR_MASKMERGE, REG4, REG_MMM])
        .access(0xFF)
        .behavior(0x0E)
        .list(7)
        .mask(3)
        .reg(0, D, 9)
        .reg(1, D, 6)
        .reg(2, B, 5)
        .reg(3, D, 1)
        .imm(0xFFFF_FF07)
        .size(4)
        .scale(4)
        .disp(0xFFFF_FFFF_8000_0001);
    Base { record, file: files::knowing(files::ALL_KNOWN) }
}

/// String slots, as list 25 wants them.
pub fn string() -> Base {
    let record = Draft::of(&[DEREF_RDI, DEREF_ESI]).access(0x06).list(25).size(2).reg(1, D, 7);
    Base { record, file: files::knowing(files::EVERY_SECOND) }
}

/// Each opcode with a rule, nontrivial, with operands that show it.
pub fn ruled() -> impl Iterator<Item = Base> {
    (1..=LEA).map(|opcode| Base {
        record: Draft::of(&[REG_MMM, REG_RRR, DEREF])
            .opcode(opcode)
            .behavior(NONTRIVIAL | 0x08)
            .access(0x16)
            .reg(0, Q, 2)
            .reg(1, D, 3)
            .size(4),
        file: files::knowing(files::ALL_KNOWN),
    })
}

pub fn all() -> Vec<Base> {
    let mut bases = bench();
    bases.extend([longest(), mixed(), string()]);
    bases.extend(ruled());
    bases
}
