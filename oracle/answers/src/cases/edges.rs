//! A short family that has an example of every rule and both sides of every limit. All of it goes
//! into the fixed list of answers.

use super::draft::*;
use super::{bases, files, Take};

pub fn every_edge(take: &mut Take) {
    for base in bases::all() {
        take(&base.record.0, &base.file);
    }
    specs(take);
    lists(take);
    rules(take);
    registers(take);
    fields(take);
    addresses(take);
    known_bits(take);
    causes(take);
}

/// Every spec, read, written and both; masked and not; under LEA.
fn specs(take: &mut Take) {
    let file = files::knowing(files::ALL_KNOWN);
    for spec in 0..SPECS {
        let slot = spec as usize % 4;
        for access in 0..4u8 {
            let draft = Draft::of(&[])
                .count(slot as u8 + 1)
                .spec(slot, spec)
                .access(access << (2 * slot))
                .reg(0, D, 9)
                .reg(1, D, 3)
                .reg(2, Q, 6)
                .reg(3, D, 12)
                .scale(4)
                .imm(0x0E)
                .disp(0x1_FFFF_FFF0);
            take(&draft.mask(spec % 2 * 7).0, &file);
            take(&draft.mask(5).opcode(LEA).0, &file);
            take(&draft.mask(1 - spec % 2).size(0).0, &file);
        }
    }
}

/// Every list: with a size and without, complex, with string slots of every kind.
fn lists(take: &mut Take) {
    let file = files::knowing(files::ALL_KNOWN);
    for list in 0..LISTS {
        let draft = Draft::of(&[]).spec(0, DEREF_RDI).spec(1, DEREF).reg(1, D, 8).list(list).behavior(0x0C);
        take(&draft.0, &file);
        take(&draft.size(0).0, &file);
        take(&draft.behavior(COMPLEX).opcode(700 + list).0, &file);
        take(&draft.size(3).0, &files::knowing(0));
    }
    for spec in 0..SPECS {
        take(&Draft::of(&[]).spec(0, spec).reg(1, D, 8).list(24).0, &file);
        take(&Draft::of(&[]).spec(0, DEREF_ESI).spec(1, spec).list(25).0, &file);
    }
}

/// Every opcode with a rule: every count, the prefixes, the widths, and without the bit.
fn rules(take: &mut Take) {
    let file = files::knowing(files::ALL_KNOWN);
    for opcode in 0..=LEA + 1 {
        let draft = Draft::of(&[DEREF, REG_RRR, REG_VEX, REG_RRR])
            .opcode(opcode)
            .behavior(NONTRIVIAL | 0xC0)
            .access(0x4A)
            .list(11);
        for count in 0..=4 {
            take(&draft.count(count).0, &file);
        }
        for bit in 0..4 {
            take(&draft.prefixes(1 << bit).0, &file);
        }
        take(&draft.prefixes(0x0F).0, &file);
        take(&draft.behavior(0).0, &file);
        take(&draft.behavior(COMPLEX).0, &file);
        take(&draft.behavior(COMPLEX | 0x03).spec(0, REG_MMM).0, &file);
        if matches!(opcode, 1..=4 | 6) {
            for bank in 0..BANKS {
                take(&draft.count(1).spec(0, REG_MMM).reg(1, bank, 0).0, &file);
            }
            for size in [0, 1, 2, 3, 4, 16] {
                take(&draft.count(1).size(size).0, &file);
            }
        }
    }
}

/// The last register of every bank and the one after it: in every slot of `regs`, and as Reg4.
fn registers(take: &mut Take) {
    let file = files::knowing(files::ALL_KNOWN);
    for (bank, last) in [15, 15, 15, 15, 7, 31, 31, 31, 7, 0, 0, 0, 31].into_iter().enumerate() {
        for slot in 0..4 {
            for number in [last, last + 1] {
                let draft = Draft::of(&[REG_RRR, MEM_BASE_INDEX_SCALE_DISP, REG_VEX]).access(0x27);
                take(&draft.reg(slot, bank as u8, number).0, &file);
            }
        }
        for low in [last, last + 1, 255] {
            let draft = Draft::of(&[REG4]).access(0x03).reg(3, bank as u8, 0);
            take(&draft.imm(0xFF00 | low as u64).0, &file);
            take(&draft.imm(low as u64).access(0).0, &file);
        }
    }
    for slot in 0..4 {
        take(&Draft::of(&[]).reg(slot, BANKS, 0).0, &file);
        take(&Draft::of(&[]).reg(slot, 255, 0).0, &file);
    }
}

/// Both sides of the limit of every other field; each prefix bit; lengths.
fn fields(take: &mut Take) {
    let file = files::knowing(files::ALL_KNOWN);
    let draft = Draft::of(&[DISP, REG_RRR]).access(0x06);
    for count in [4, 5, 255] {
        take(&draft.access(0).count(count).0, &file);
    }
    for slot in 0..4 {
        for spec in [35, 36, 255] {
            take(&draft.spec(slot, spec).0, &file);
        }
    }
    for size in [0, 1, 63, 64, 65, 255] {
        take(&draft.size(size).0, &file);
    }
    for bit in 0..8 {
        take(&draft.prefixes(1 << bit).0, &file);
        take(&draft.behavior(1 << bit).0, &file);
    }
    for mask in [7, 8, 255] {
        take(&draft.mask(mask).0, &file);
    }
    for list in [28, 29, 256, 65535] {
        take(&draft.list(list).0, &file);
        take(&draft.list(list).opcode(MUL).behavior(NONTRIVIAL).0, &file);
    }
    for length in [0, 1, 39] {
        take(&draft.0[..length], &file);
    }
    take(&[draft.0.as_slice(), &[0]].concat(), &file);
    for (length, kind) in [(0, 0x20), (1, 0x20), (140, 0x20), (141, 0x10), (141, 0x21)] {
        let mut other = file;
        other[0] = kind;
        take(&draft.0, &other[..length]);
    }
    take(&draft.0, &[file.as_slice(), &[0]].concat());
}

/// Sums that wrap; displacements of every sign and width; part registers; scales.
fn addresses(take: &mut Take) {
    let file = files::holding(&[(3, 0xFFFF_FFFF_FFFF_FFFF), (6, 0x8000_0000_0000_0001), (16, 0x7_FFFF_FFFF)]);
    let draft = Draft::of(&[MEM_BASE_INDEX_SCALE_DISP]).access(0x02).reg(1, Q, 3).reg(2, Q, 6).scale(2);
    for scale in [0, 1, 2, 3, 8, 128, 255] {
        take(&draft.scale(scale).0, &file);
    }
    for disp in [1, 0x7FFF_FFFF, 0x8000_0000, 0xFFFF_FFFF, 0x1_0000_0000, u64::MAX] {
        for spec in [DISP, 28, MEM_BASE_INDEX_SCALE_DISP, DISP_U64, DISP_U32] {
            take(&draft.spec(0, spec).disp(disp).0, &file);
        }
    }
    let file = files::knowing(files::ALL_KNOWN);
    for (bank, number) in [(Q, 15), (D, 15), (W, 15), (LOW_BYTE, 7), (B, 3), (B, 4), (B, 7), (RIP, 0), (EIP, 0)] {
        take(&draft.reg(1, bank, number).0, &file);
        take(&draft.reg(2, bank, number).0, &file);
    }
}

/// Each register alone known, alone unknown; each bit above them.
fn known_bits(take: &mut Take) {
    for bit in 0..32 {
        let (bank, number) = if bit < 16 { (Q, bit) } else { (RIP, 0) };
        let draft = Draft::of(&[MEM_BASE_INDEX_SCALE_DISP]).reg(1, bank, number).reg(2, bank, number).scale(0);
        take(&draft.0, &files::knowing(1 << bit));
        take(&draft.0, &files::knowing(files::ALL_KNOWN ^ 1 << bit));
    }
    for list in [15, 16, 26, 27, 28] {
        take(&Draft::of(&[]).list(list).0, &files::knowing(files::EVERY_SECOND));
    }
}

/// Two causes at once, neighbours in the table of refusals.
fn causes(take: &mut Take) {
    let (good, bad) = (files::knowing(files::ALL_KNOWN), files::knowing(1 << 17));
    let draft = Draft::of(&[DEREF, NOTHING]).access(0x01);
    let mut one_and_two = draft.size(65);
    one_and_two.0[0] = 0x11;
    take(&one_and_two.0, &good);
    take(&draft.size(65).0, &bad);
    take(&draft.behavior(COMPLEX).0, &bad);
    take(&draft.access(0x04).behavior(COMPLEX).0, &good);
    take(&draft.access(0x05).size(0).0, &good);
    take(&draft.access(0x05).size(0).spec(1, REG4).reg(3, B, 0).imm(8).0, &good);
    take(&draft.size(0).list(24).spec(0, DISP).0, &good);
}
