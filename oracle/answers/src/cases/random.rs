//! Random structured records, files and logs, and damaged copies.

use super::draft::*;
use super::files;

/// xorshift64*.
pub struct Random(u64);

impl Random {
    pub fn new(seed: u64) -> Random {
        // Mixed once, so that seeds near each other part; zero is the one state that never moves.
        let mixed = seed.wrapping_add(0x9E37_79B9_7F4A_7C15).wrapping_mul(0xBF58_476D_1CE4_E5B9);
        Random(if mixed == 0 { 1 } else { mixed })
    }

    pub fn bits(&mut self) -> u64 {
        self.0 ^= self.0 >> 12;
        self.0 ^= self.0 << 25;
        self.0 ^= self.0 >> 27;
        self.0.wrapping_mul(0x2545_F491_4F6C_DD1D)
    }

    /// A number below `bound`.
    pub fn below(&mut self, bound: u64) -> u64 {
        ((self.bits() >> 32) * bound) >> 32
    }

    fn byte(&mut self) -> u8 {
        self.below(256) as u8
    }

    /// True once in `n` times.
    pub fn once_in(&mut self, n: u64) -> bool {
        self.below(n) == 0
    }

    pub fn pick<T: Copy>(&mut self, from: &[T]) -> T {
        from[self.below(from.len() as u64) as usize]
    }

    /// Small, near an edge, or anything.
    fn number(&mut self) -> u64 {
        match self.below(4) {
            0 => self.below(256),
            1 => self.pick(&[0, u64::MAX, 1 << 63, 1 << 32, 1 << 31]).wrapping_add(self.below(9)).wrapping_sub(4),
            2 => self.bits() >> self.below(64),
            _ => self.bits(),
        }
    }

    /// A register of the table, most often one that a file gives.
    fn register(&mut self) -> (u8, u8) {
        const REGISTERS: [u64; 13] = [16, 16, 16, 16, 8, 32, 32, 32, 8, 1, 1, 1, 32];
        let bank =
            if self.once_in(4) { self.below(13) as u8 } else { self.pick(&[Q, Q, Q, D, D, W, LOW_BYTE, B, RIP, EIP]) };
        (bank, self.below(REGISTERS[bank as usize]) as u8)
    }
}

/// A record that refusals 1 and 2 spare.
pub fn well_formed(random: &mut Random) -> Draft {
    let mut draft = Draft::of(&[]);
    let opcode = if random.once_in(4) { random.bits() as u16 } else { random.below(PLAIN as u64 + 1) as u16 };
    for slot in 0..4 {
        let lowest = if random.once_in(16) { NOTHING } else { REG_RRR };
        let (bank, number) = random.register();
        draft = draft.spec(slot, lowest + random.below((SPECS - lowest) as u64) as u8).reg(slot, bank, number);
    }
    let list = if random.once_in(2) { 0 } else { random.below(LISTS as u64) as u16 };
    if matches!(list, 24 | 25) && !random.once_in(4) {
        draft = draft.spec(0, random.pick(&[18, 20, 21, 22, 23])).spec(1, random.pick(&[18, 20, 21, 22, 23]));
    }
    let size = match random.below(16) {
        0 => 0,
        1..=4 => 1 + random.below(64) as u8,
        _ => random.pick(&[1, 2, 4, 8, 16, 32, 64]),
    };
    let scale = if random.once_in(3) { random.byte() } else { random.pick(&[1, 2, 4, 8]) };
    let low_imm = if random.once_in(4) { random.byte() } else { random.below(8) as u8 };
    let complex = if random.once_in(12) { COMPLEX } else { 0 };
    draft
        .opcode(opcode)
        .count(random.below(5) as u8)
        .size(size)
        .scale(scale)
        .disp(random.number())
        .imm(random.bits() << 8 | low_imm as u64)
        .prefixes(random.below(16) as u8)
        .mask(random.below(8) as u8)
        .behavior(random.byte() & !COMPLEX | complex)
        .access(random.byte())
        .list(list)
}

/// A record; one in eight is damaged.
pub fn record(random: &mut Random) -> Vec<u8> {
    let draft = well_formed(random);
    let bytes = draft.0.to_vec();
    if random.once_in(8) {
        damaged(random, bytes)
    } else {
        bytes
    }
}

/// A register file; one in sixteen is damaged.
pub fn file(random: &mut Random) -> Vec<u8> {
    let known = match random.below(4) {
        0 => files::ALL_KNOWN,
        1 => files::ALL_KNOWN & !(1 << random.below(17)),
        _ => random.bits() as u32 & files::ALL_KNOWN,
    };
    let values = std::array::from_fn(|_| random.number());
    let bytes = files::file(known, &values).to_vec();
    if random.once_in(16) {
        damaged(random, bytes)
    } else {
        bytes
    }
}

/// Some events one after another; half of the logs are damaged.
pub fn log(random: &mut Random) -> Vec<u8> {
    let mut bytes = Vec::new();
    for _ in 0..random.below(6) {
        let kind = 1 + random.below(6) as u8;
        bytes.push(kind);
        match kind {
            1 | 2 => {
                let (bank, number) = random.register();
                bytes.extend([bank, number]);
            }
            3 | 4 => {
                bytes.extend(random.number().to_le_bytes());
                bytes.push(1 + random.below(64) as u8);
            }
            _ => bytes.push(1 + random.below(64) as u8),
        }
    }
    if random.once_in(2) {
        damaged(random, bytes)
    } else {
        bytes
    }
}

/// Some bytes changed, a few bits turned, or another length.
pub fn damaged(random: &mut Random, mut bytes: Vec<u8>) -> Vec<u8> {
    match random.below(8) {
        0 => {
            let length = random.below(bytes.len() as u64 + 1) as usize;
            bytes.truncate(length);
        }
        1 => {
            let more = random.below(9);
            (0..more).for_each(|_| bytes.push(random.byte()));
        }
        _ if bytes.is_empty() => bytes.push(random.byte()),
        _ => {
            for _ in 0..=random.below(3) {
                let at = random.below(bytes.len() as u64) as usize;
                bytes[at] = match random.below(3) {
                    0 => random.byte(),
                    1 => bytes[at] ^ 1 << random.below(8),
                    _ => bytes[at].wrapping_add(random.pick(&[1, 255])),
                };
            }
        }
    }
    bytes
}
