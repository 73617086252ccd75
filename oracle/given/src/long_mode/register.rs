//! Registers, from document 01's table of banks.

/// A bank; its number is its place in the table.
#[allow(non_camel_case_types)]
#[derive(Copy, Clone, Debug, PartialEq, Eq)]
#[repr(u8)]
pub enum RegisterBank {
    Q,
    D,
    W,
    rB,
    B,
    X,
    Y,
    Z,
    K,
    RIP,
    EIP,
    RFLAGS,
    Other,
}

use RegisterBank::*;

const BANKS: [RegisterBank; 13] = [Q, D, W, rB, B, X, Y, Z, K, RIP, EIP, RFLAGS, Other];

impl RegisterBank {
    /// The bank of a number in the table.
    pub fn from_number(number: u8) -> RegisterBank {
        BANKS[number as usize]
    }
}

#[derive(Copy, Clone, Debug, PartialEq, Eq)]
pub struct RegSpec {
    pub num: u8,
    pub bank: RegisterBank,
}

impl RegSpec {
    pub const fn new(bank: RegisterBank, num: u8) -> RegSpec {
        RegSpec { num, bank }
    }

    /// Width in bytes.
    pub fn width(&self) -> u8 {
        match self.bank {
            B | rB => 1,
            W => 2,
            D | EIP => 4,
            X => 16,
            Y => 32,
            Z => 64,
            Q | K | RIP | RFLAGS | Other => 8,
        }
    }

    pub const fn rdi() -> RegSpec {
        RegSpec::new(Q, 7)
    }

    pub const fn rsi() -> RegSpec {
        RegSpec::new(Q, 6)
    }

    pub const fn edi() -> RegSpec {
        RegSpec::new(D, 7)
    }

    pub const fn esi() -> RegSpec {
        RegSpec::new(D, 6)
    }

    pub const fn al() -> RegSpec {
        RegSpec::new(B, 0)
    }

    pub const fn rflags() -> RegSpec {
        RegSpec::new(RFLAGS, 0)
    }

    pub const fn mask(num: u8) -> RegSpec {
        RegSpec::new(K, num)
    }
}
