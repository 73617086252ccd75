//! Families over addresses: sums, and which registers a file knows.

use super::draft::*;
use super::{files, Take};

const EDGES: [u64; 7] =
    [0, 1, 0x7FFF_FFFF, 0x8000_0000_0000_0001, 0x0123_4567_89AB_CDEF, 0xFFFF_FFFF_0000_0000, u64::MAX];
const DISPLACEMENTS: [u64; 9] =
    [0, 1, 0x7FFF_FFFF, 0x8000_0000, 0xFFFF_FFFF, 0x1_0000_0000, 0x1_8000_0001, 0xFFFF_FFFF_8000_0000, u64::MAX];

/// The prefix byte without and with the address-size bit.
const ADDRESS_SIZES: [u8; 2] = [0x00, 0x08];

/// Every memory spec over edge values of base, index, scale and displacement, of either address size; then every scale.
pub fn every_sum(take: &mut Take) {
    for base in EDGES {
        for index in EDGES {
            let file = files::holding(&[(5, base), (9, index), (6, index), (7, base), (16, base)]);
            for spec in DEREF..SPECS {
                let draft = Draft::of(&[spec]).access(0x03).reg(1, Q, 5).reg(2, Q, 9);
                for scale in [0, 1, 2, 3, 8, 127, 128, 255] {
                    for disp in DISPLACEMENTS {
                        for prefixes in ADDRESS_SIZES {
                            take(&draft.scale(scale).disp(disp).prefixes(prefixes).0, &file);
                        }
                    }
                }
            }
            for scale in 0..=255 {
                let draft = Draft::of(&[MEM_BASE_INDEX_SCALE_DISP]).reg(1, Q, 5).reg(2, Q, 9);
                take(&draft.scale(scale).disp(0x8000_0010).0, &file);
            }
        }
    }
}

/// Known-bit patterns that matter: none, all, each alone, each missing, each bit above 16; under
/// every register of every bank that a file gives, as base and as index, and every list, under LEA too and of either address size.
pub fn every_known_bit(take: &mut Take) {
    let mut patterns = vec![files::NONE_KNOWN, files::ALL_KNOWN, files::EVERY_SECOND, u32::MAX];
    for bit in 0..32 {
        patterns.push(1 << bit);
        patterns.push(files::ALL_KNOWN ^ 1 << bit);
    }
    for known in patterns {
        let file = files::knowing(known);
        for (bank, registers) in
            [(Q, 16), (D, 16), (W, 16), (LOW_BYTE, 16), (B, 8), (X, 8), (8, 8), (RIP, 1), (EIP, 1), (11, 1), (12, 17)]
        {
            for number in 0..registers {
                let draft = Draft::of(&[MEM_BASE_INDEX_SCALE_DISP]).scale(1);
                take(&draft.reg(1, bank, number).reg(2, Q, 1).0, &file);
                take(&draft.reg(1, Q, 2).reg(2, bank, number).0, &file);
                take(&draft.reg(1, bank, number).reg(2, bank, number).scale(0).0, &file);
            }
        }
        for list in 0..LISTS {
            for prefixes in ADDRESS_SIZES {
                take(&Draft::of(&[DEREF, 22]).access(0x0F).list(list).prefixes(prefixes).0, &file);
                take(&Draft::of(&[DEREF, 22]).access(0x0F).list(list).prefixes(prefixes).opcode(LEA).0, &file);
            }
        }
        for spec in DEREF..SPECS {
            take(&Draft::of(&[spec]).access(0x02).reg(1, Q, 1).reg(2, Q, 2).0, &file);
        }
    }
}
