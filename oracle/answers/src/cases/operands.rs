//! Families over operands: specs, lists, registers, sizes.

use super::draft::*;
use super::{files, Take};

/// Sets of four registers for `regs[0..=3]`.
const REGISTERS: [[(u8, u8); 4]; 4] = [
    [(Q, 0), (Q, 3), (Q, 6), (Q, 15)],
    [(D, 1), (D, 5), (D, 8), (D, 15)],
    [(B, 5), (B, 2), (B, 7), (LOW_BYTE, 6)],
    [(X, 31), (RIP, 0), (X, 9), (W, 12)],
];

fn with_registers(draft: Draft, registers: &[(u8, u8); 4]) -> Draft {
    registers.iter().enumerate().fold(draft, |draft, (slot, &(bank, number))| draft.reg(slot, bank, number))
}

/// Every spec in every slot with every access, masks 0, 1 and 7, with and without a size and LEA,
/// under files that know all, some and none.
pub fn every_spec(take: &mut Take) {
    let files = [files::ALL_KNOWN, files::EVERY_SECOND, files::NONE_KNOWN].map(files::knowing);
    for slot in 0..4usize {
        for spec in 0..SPECS {
            for access in 0..4u8 {
                for registers in &REGISTERS {
                    for mask in [0, 1, 7] {
                        for (opcode, size) in [(PLAIN, 8), (PLAIN, 0), (LEA, 16), (LEA, 0)] {
                            let draft = Draft::of(&[])
                                .count(slot as u8 + 1)
                                .spec(slot, spec)
                                .access(access << (2 * slot))
                                .mask(mask)
                                .opcode(opcode)
                                .size(size)
                                .scale(4)
                                .imm(5)
                                .disp(0x1_8000_0010);
                            let draft = with_registers(draft, registers);
                            files.iter().for_each(|file| take(&draft.0, file));
                        }
                    }
                }
            }
        }
    }
}

/// Every list with every pair of specs in slots 0 and 1, below count and past it, with and without
/// a size.
pub fn every_list(take: &mut Take) {
    let all = files::knowing(files::ALL_KNOWN);
    let some = files::knowing(files::EVERY_SECOND);
    for list in 0..LISTS {
        for first in 0..SPECS {
            for second in 0..SPECS {
                let draft = Draft::of(&[first, second]).list(list).mask(2).imm(1).scale(3).access(0x0F).behavior(0x0C);
                let draft = with_registers(draft, &REGISTERS[1]);
                take(&draft.0, &all);
                take(&draft.size(0).0, &all);
                take(&draft.count(0).0, &some);
                take(&draft.count(1).access(0x02).size(0).0, &some);
            }
        }
    }
}

/// Every bank up to some past the table, every number, in every slot of `regs`.
pub fn every_register(take: &mut Take) {
    let file = files::knowing(files::ALL_KNOWN);
    let banks: Vec<u8> = (0..=BANKS + 3).chain([0x80, 0xFF]).collect();
    let drafts = [
        Draft::of(&[REG_RRR, REG_MMM, REG_VEX]).access(0x3F),
        Draft::of(&[MEM_BASE_INDEX_SCALE_DISP]).access(0x03).scale(1),
        Draft::of(&[5, 8, 10, REG_VEX]).access(0xEB).mask(4),
        Draft::of(&[REG_MMM]).opcode(MUL).behavior(NONTRIVIAL),
    ];
    for draft in drafts {
        for slot in 0..4 {
            for &bank in &banks {
                for number in 0..=255 {
                    take(&draft.reg(slot, bank, number).0, &file);
                }
            }
        }
    }
}

/// Reg4 with every low byte of `imm`, other bytes set too, in every bank; accessed or not.
pub fn every_reg4(take: &mut Take) {
    let file = files::knowing(files::NONE_KNOWN);
    for bank in 0..BANKS {
        for low in 0..=255u64 {
            for access in 0..4 {
                let draft = Draft::of(&[REG4]).reg(3, bank, 0).access(access);
                take(&draft.imm(low).0, &file);
                take(&draft.imm(low | 0xFFFF_FFFF_FFFF_FF00).0, &file);
                take(&draft.imm(low).count(0).0, &file);
            }
        }
    }
}

/// Every size up to some past the largest, with every memory spec and every list.
pub fn every_size(take: &mut Take) {
    let file = files::knowing(files::ALL_KNOWN);
    for size in (0..=70).chain([127, 128, 255]) {
        for spec in DEREF..SPECS {
            for access in 0..4 {
                for opcode in [PLAIN, LEA] {
                    let draft = Draft::of(&[spec]).access(access).opcode(opcode).size(size).scale(1).mask(1);
                    take(&draft.0, &file);
                    take(&draft.count(0).0, &file);
                }
            }
        }
        for list in 0..LISTS {
            take(&Draft::of(&[]).spec(0, DEREF).spec(1, DEREF_RDI).list(list).size(size).0, &file);
        }
        for opcode in 0..=PLAIN {
            for spec in [REG_RRR, REG_MMM, DEREF] {
                let draft = Draft::of(&[spec]).opcode(opcode).behavior(NONTRIVIAL).size(size);
                take(&draft.0, &file);
                take(&draft.reg(1, X, 3).0, &file);
            }
        }
    }
}
