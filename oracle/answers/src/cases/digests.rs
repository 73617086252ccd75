//! Families over digests: opcodes, fix-ups, behavior bytes.

use super::draft::*;
use super::{files, Take};

/// All 65,536 opcodes, with and without the complex and the nontrivial bit, with spec 0 RegMMM and
/// without.
pub fn every_opcode(take: &mut Take) {
    let file = files::knowing(files::ALL_KNOWN);
    for opcode in 0..=65535 {
        for behavior in [0, COMPLEX, NONTRIVIAL, COMPLEX | NONTRIVIAL] {
            for spec in [REG_MMM, DISP] {
                let draft = Draft::of(&[spec, REG_RRR]).opcode(opcode).behavior(behavior);
                take(&draft.0, &file);
            }
        }
    }
}

/// Every opcode with a rule (and some without), every count, prefix and width, nontrivial or not.
pub fn every_fixup(take: &mut Take) {
    let file = files::knowing(files::ALL_KNOWN);
    for opcode in 0..=PLAIN {
        for count in 0..=4 {
            for prefixes in 0..16 {
                for (behavior, access) in [(NONTRIVIAL, 0x00), (NONTRIVIAL | 0xC8, 0xFF), (0x04, 0xE4)] {
                    let draft = Draft::of(&[])
                        .opcode(opcode)
                        .count(count)
                        .prefixes(prefixes)
                        .behavior(behavior)
                        .access(access)
                        .list(11)
                        .spec(1, REG_RRR)
                        .spec(2, DEREF)
                        .spec(3, REG_VEX);
                    for bank in 0..BANKS {
                        take(&draft.spec(0, REG_MMM).reg(1, bank, 0).0, &file);
                    }
                    for size in [0, 1, 2, 3, 4, 8, 16] {
                        take(&draft.spec(0, DEREF).size(size).0, &file);
                    }
                    take(&draft.spec(0, NOTHING).0, &file);
                    take(&draft.spec(0, 8).size(2).0, &file);
                }
            }
        }
    }
}

/// Every behavior byte with every operand_access byte, on opcodes with and without a rule.
pub fn every_behavior(take: &mut Take) {
    let file = files::knowing(files::EVERY_SECOND);
    for opcode in [PLAIN, MUL, BT, LEA] {
        for behavior in 0..=255 {
            for access in 0..=255 {
                let draft = Draft::of(&[REG_MMM, DEREF, REG_RRR, DISP]).opcode(opcode).behavior(behavior);
                take(&draft.access(access).reg(1, Q, 1).0, &file);
            }
        }
    }
}
