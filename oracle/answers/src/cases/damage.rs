//! Families over damaged bytes and lengths, and over the order of refusals.

use super::draft::*;
use super::{bases, files, Take};

/// Every value of every record byte, around every base.
pub fn every_byte(take: &mut Take) {
    for base in bases::all() {
        for at in 0..40 {
            for value in 0..=255 {
                let mut record = base.record.0;
                record[at] = value;
                take(&record, &base.file);
            }
        }
    }
}

/// Record lengths 0 to 80: cut, and followed by zeros or by the same record again.
pub fn every_record_length(take: &mut Take) {
    for base in bases::all() {
        let mut padded = [0; 80];
        padded[..40].copy_from_slice(&base.record.0);
        let twice = [base.record.0, base.record.0].concat();
        for length in 0..=80 {
            take(&padded[..length], &base.file);
            take(&twice[..length], &base.file);
            let mut other_kind = padded;
            other_kind[0] = 0x20;
            take(&other_kind[..length], &base.file);
        }
    }
}

/// Records whose answer does not need a file, or that are refused before or after 3.
fn around_refusal_3() -> [Draft; 7] {
    let good = Draft::of(&[DISP]).reg(1, Q, 3);
    [good, good.count(0), good.behavior(COMPLEX), good.spec(0, NOTHING), good.size(0), good.size(65), Draft([0; 40])]
}

/// File lengths, kinds and known bits damaged.
pub fn every_damaged_file(take: &mut Take) {
    let file = files::knowing(files::ALL_KNOWN);
    let long = [file.as_slice(), &file, &[0; 30]].concat();
    for draft in around_refusal_3() {
        for length in 0..=long.len() {
            take(&draft.0, &long[..length]);
        }
        for kind in 0..=255 {
            let mut other = file;
            other[0] = kind;
            take(&draft.0, &other);
            take(&draft.0, &other[..140]);
        }
        for bit in 0..32 {
            take(&draft.0, &files::knowing(1 << bit));
            take(&draft.0, &files::knowing(files::ALL_KNOWN | 1 << bit));
        }
    }
}

/// Every value of every file byte, under a record that uses many registers.
pub fn every_file_byte(take: &mut Take) {
    for base in [bases::longest(), bases::mixed(), bases::string()] {
        for at in 0..141 {
            for value in 0..=255 {
                let mut file = base.file;
                file[at] = value;
                take(&base.record.0, &file);
            }
        }
    }
}

/// Every set of causes at once, each cause in several forms: the number must be the first in the
/// table. (Cause 7 comes with the rooms that every case is tried with.)
pub fn every_refusal_order(take: &mut Take) {
    type Cause = fn(Draft) -> Draft;
    let none: Cause = |draft| draft;
    let ones: [Cause; 2] = [none, |draft| Draft([&[0x11], &draft.0[1..]].concat().try_into().unwrap())];
    let twos: [Cause; 8] = [
        none,
        |draft| draft.count(5),
        |draft| draft.spec(3, 36),
        |draft| draft.reg(3, 9, 1),
        |draft| draft.size(65),
        |draft| draft.prefixes(0x10),
        |draft| draft.mask(8),
        |draft| draft.list(29),
    ];
    let fours: [Cause; 3] = [none, |draft| draft.behavior(COMPLEX), |draft| draft.behavior(COMPLEX).opcode(BT)];
    let fives: [Cause; 4] = [
        none,
        |draft| draft.spec(1, NOTHING),
        |draft| draft.spec(1, REG4).reg(3, B, 0).imm(8),
        |draft| draft.list(24).spec(0, DISP),
    ];
    let sixes: [Cause; 3] = [none, |draft| draft.size(0), |draft| draft.size(0).list(26)];
    let good = files::knowing(files::ALL_KNOWN);
    let bad = files::knowing(1 << 17);
    for one in ones {
        for two in twos {
            for four in fours {
                for five in fives {
                    for six in sixes {
                        // 2 comes last, so that no later cause takes it away.
                        let draft = Draft::of(&[DEREF_RDI, REG_RRR]).access(0x05);
                        let draft = one(two(six(five(four(draft)))));
                        take(&draft.0, &good);
                        take(&draft.0, &bad);
                        take(&draft.0, &bad[..100]);
                        take(&draft.0[..39], &good);
                    }
                }
            }
        }
    }
}
