//! Registers and their names.
use crate::digits::Decimal;
use core::fmt;

/// A register, by its bank and its number there.
#[derive(Clone, Copy, Debug, PartialEq, Eq, Hash)]
pub struct Register {
    /// 0 Q, 1 D, 2 W, 3 rB, 4 B, 5 X, 6 Y, 7 Z, 8 K, 9 RIP, 10 EIP, 11 RFLAGS, 12 other; in a log also 13, the bases of fs and gs.
    pub bank: u8,
    /// The number in the bank.
    pub number: u8,
}

/// How the registers of a bank are called.
enum Names {
    /// Each has a name of its own.
    Own(&'static [&'static str]),
    /// A stem and its number, for this many.
    Stem(&'static str, u8),
}
use Names::{Own, Stem};

const QUADS: [&str; 16] = [
    "rax", "rcx", "rdx", "rbx", "rsp", "rbp", "rsi", "rdi", "r8", "r9", "r10", "r11", "r12", "r13",
    "r14", "r15",
];
const DOUBLES: [&str; 16] = [
    "eax", "ecx", "edx", "ebx", "esp", "ebp", "esi", "edi", "r8d", "r9d", "r10d", "r11d", "r12d",
    "r13d", "r14d", "r15d",
];
const WORDS: [&str; 16] = [
    "ax", "cx", "dx", "bx", "sp", "bp", "si", "di", "r8w", "r9w", "r10w", "r11w", "r12w", "r13w",
    "r14w", "r15w",
];
const LOWS: [&str; 16] = [
    "al", "cl", "dl", "bl", "spl", "bpl", "sil", "dil", "r8b", "r9b", "r10b", "r11b", "r12b",
    "r13b", "r14b", "r15b",
];
const BYTES: [&str; 8] = ["al", "cl", "dl", "bl", "ah", "ch", "dh", "bh"];

/// Each bank by its number: its name, and those of its registers. A later bank is one more row.
const BANKS: [(&str, Names); 14] = [
    ("Q", Own(&QUADS)),
    ("D", Own(&DOUBLES)),
    ("W", Own(&WORDS)),
    ("rB", Own(&LOWS)),
    ("B", Own(&BYTES)),
    ("X", Stem("xmm", 32)),
    ("Y", Stem("ymm", 32)),
    ("Z", Stem("zmm", 32)),
    ("K", Stem("k", 8)),
    ("RIP", Own(&["rip"])),
    ("EIP", Own(&["eip"])),
    ("RFLAGS", Own(&["rflags"])),
    ("other", Stem("other ", 32)),
    ("base", Own(&["fs base", "gs base"])),
];

/// How many banks there are; they are numbered from 0.
pub const BANK_COUNT: usize = BANKS.len();

/// The name of a bank, where there is one of this number.
pub fn bank_name(bank: u8) -> Option<&'static str> {
    BANKS.get(usize::from(bank)).map(|(name, _)| *name)
}

impl Register {
    /// A register of 64 bits, by its number: 0 to 7 rax, rcx, rdx, rbx, rsp, rbp, rsi, rdi, then r8 to r15.
    pub const fn quad(number: u8) -> Register {
        Register { bank: 0, number }
    }

    /// A register of 32 bits, numbered as those of 64.
    pub const fn double(number: u8) -> Register {
        Register { bank: 1, number }
    }

    /// Whether the bank and the number stand in the table, and an event may name it. A record may name it too, but for the bases of
    /// fs and gs.
    pub fn exists(self) -> bool {
        match BANKS.get(usize::from(self.bank)) {
            Some((_, Own(names))) => usize::from(self.number) < names.len(),
            Some((_, Stem(_, count))) => self.number < *count,
            None => false,
        }
    }

    /// Writes the register's name; the bank and the number where there is no such register.
    pub fn say<W: fmt::Write>(&self, out: &mut W) -> fmt::Result {
        match BANKS.get(usize::from(self.bank)) {
            Some((_, Own(names))) if usize::from(self.number) < names.len() => {
                out.write_str(names[usize::from(self.number)])
            }
            Some((_, Stem(stem, count))) if self.number < *count => {
                out.write_str(stem)?;
                out.write_str(Decimal::of(u64::from(self.number)).as_str())
            }
            _ => write!(out, "bank {} number {}", self.bank, self.number),
        }
    }
}

impl fmt::Display for Register {
    fn fmt(&self, f: &mut fmt::Formatter<'_>) -> fmt::Result {
        self.say(f)
    }
}
