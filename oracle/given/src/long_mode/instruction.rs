//! An instruction as the given text sees it: the fields of document 01's record.

use super::{Opcode, Operand, OperandSpec, RegSpec};

#[derive(Copy, Clone)]
pub struct Instruction {
    pub opcode: Opcode,
    pub operand_count: u8,
    pub operands: [OperandSpec; 4],
    pub regs: [RegSpec; 4],
    pub mem_size: u8,
    pub scale: u8,
    pub disp: u64,
    pub imm: u64,
    pub prefixes: Prefixes,
}

impl Instruction {
    pub fn opcode(&self) -> Opcode {
        self.opcode
    }

    pub fn operand_count(&self) -> u8 {
        self.operand_count
    }

    pub fn operand(&self, index: u8) -> Operand {
        Operand::Explicit { index, spec: self.operands[index as usize] }
    }

    /// "In the oracle too, `mem_size` 1 to 64 is that many bytes." 0 is no size.
    pub fn mem_size(&self) -> Option<MemorySize> {
        (self.mem_size != 0).then_some(MemorySize(self.mem_size))
    }
}

#[derive(Copy, Clone)]
pub struct MemorySize(u8);

impl MemorySize {
    pub fn bytes_size(&self) -> Option<u8> {
        Some(self.0)
    }
}

/// Prefix bits (0 VEX W, 1 REX W, 2 operand size, 3 address size) and the mask register.
#[derive(Copy, Clone)]
pub struct Prefixes {
    pub bits: u8,
    pub mask: u8,
}

/// VEX, REX and EVEX are views of the same record bytes.
#[derive(Copy, Clone)]
pub struct WideBit(bool);

#[derive(Copy, Clone)]
pub struct MaskRegister(u8);

impl Prefixes {
    pub fn vex_unchecked(&self) -> WideBit {
        WideBit(self.bits & 1 != 0)
    }

    pub fn rex_unchecked(&self) -> WideBit {
        WideBit(self.bits & 2 != 0)
    }

    pub fn operand_size(&self) -> bool {
        self.bits & 4 != 0
    }

    pub fn address_size(&self) -> bool {
        self.bits & 8 != 0
    }

    pub fn evex_unchecked(&self) -> MaskRegister {
        MaskRegister(self.mask)
    }
}

impl WideBit {
    pub fn w(&self) -> bool {
        self.0
    }
}

impl MaskRegister {
    pub fn mask_reg(&self) -> u8 {
        self.0
    }
}
