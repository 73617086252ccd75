//! A register file's bytes, and what it knows of a register that the given Rust has.

use given::long_mode::{RegSpec, RegisterBank};

/// The kinds of files, the length of each, and how many values it has.
pub const KINDS: [(u8, usize, u32); 2] = [(0x20, 141, 17), (0x21, 157, 19)];
const RIP: u8 = 16;

pub struct RegisterFile {
    known: u32,
    values: [u64; 17],
}

impl RegisterFile {
    /// For bytes that `refusals::of_file` does not refuse.
    pub fn from_bytes(bytes: &[u8]) -> RegisterFile {
        let value = |index: usize| {
            let at = 5 + 8 * index;
            u64::from_le_bytes(bytes[at..at + 8].try_into().unwrap())
        };
        RegisterFile { known: u32::from_le_bytes(bytes[1..5].try_into().unwrap()), values: std::array::from_fn(value) }
    }

    /// The value of a register, where the file gives it.
    pub fn value(&self, reg: RegSpec) -> Option<u64> {
        match reg.bank {
            RegisterBank::Q => self.whole(reg.num),
            RegisterBank::D => self.whole(reg.num).map(|v| v & 0xFFFF_FFFF),
            RegisterBank::W => self.whole(reg.num).map(|v| v & 0xFFFF),
            RegisterBank::rB => self.whole(reg.num).map(|v| v & 0xFF),
            RegisterBank::B if reg.num < 4 => self.whole(reg.num).map(|v| v & 0xFF),
            RegisterBank::B => self.whole(reg.num - 4).map(|v| v >> 8 & 0xFF),
            RegisterBank::RIP => self.whole(RIP),
            RegisterBank::EIP => self.whole(RIP).map(|v| v & 0xFFFF_FFFF),
            _ => None,
        }
    }

    fn whole(&self, index: u8) -> Option<u64> {
        (self.known >> index & 1 == 1).then(|| self.values[index as usize])
    }
}
