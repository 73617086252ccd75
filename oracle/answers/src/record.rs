//! A record's bytes as the given Rust's instruction, with its base digest. The given Rust knows no segment.

use crate::everyday;
use given::long_mode::behavior::{set_base, InstBehavior};
use given::long_mode::{Instruction, Opcode, OperandSpec, Prefixes, RegSpec, RegisterBank};

/// The kinds of records, and the length of each.
pub const KINDS: [(u8, usize); 3] = [(0x10, 40), (0x11, 41), (everyday::KIND, everyday::LENGTH)];

const NONTRIVIAL: u8 = 0x10;
const ADDRESS_SIZE: u8 = 0x08;
const IMUL: u16 = 2;
const LOOPNZ: u16 = 21;
const LOOP: u16 = 23;

pub struct Record {
    instruction: Instruction,
    behavior: u8,
    operand_access: u8,
    extra: u16,
}

impl Record {
    /// For bytes that `refusals::of_record` does not refuse, with their digest filled in.
    pub fn from_bytes(bytes: &[u8]) -> Record {
        let number = |at: usize| u16::from_le_bytes([bytes[at], bytes[at + 1]]);
        let long = |at: usize| u64::from_le_bytes(bytes[at..at + 8].try_into().unwrap());
        let reg = |at: usize| RegSpec::new(RegisterBank::from_number(bytes[at]), bytes[at + 1]);
        let spec = |at: usize| OperandSpec::from_number(bytes[at]);
        Record {
            instruction: Instruction {
                opcode: Opcode::from_number(number(1)),
                operand_count: bytes[3],
                operands: [spec(4), spec(5), spec(6), spec(7)],
                regs: [reg(8), reg(10), reg(12), reg(14)],
                mem_size: bytes[16],
                scale: bytes[17],
                disp: long(18),
                imm: long(26),
                prefixes: Prefixes { bits: bytes[34], mask: bytes[35] },
            },
            behavior: bytes[36],
            operand_access: bytes[37],
            extra: number(38),
        }
    }

    /// The given Rust's behavior of this instruction: the record's base digest after fix-ups, as document 02 corrects them.
    pub fn behavior(&self) -> InstBehavior<'_> {
        match self.corrected() {
            // The digest stands as it is: without the nontrivial bit the given Rust changes nothing.
            Some((behavior, operand_access, list)) => set_base(behavior & !NONTRIVIAL, operand_access, list),
            None => set_base(self.behavior, self.operand_access, self.extra),
        }
        self.instruction.behavior()
    }

    /// `behavior`, `operand_access` and list after fix-ups.
    pub fn digest(&self) -> (u8, u8, u16) {
        self.corrected().unwrap_or_else(|| self.behavior().digest())
    }

    /// T-02, applied to the given Rust's accesses: how many of them lie where it says. Without the address-size bit all do; with it
    /// only that of the implicit list, which comes first. Every further one is an explicit operand's, and is cut.
    pub fn uncut_accesses(&self) -> usize {
        if self.instruction.prefixes.bits & ADDRESS_SIZE == 0 {
            return usize::MAX;
        }
        match self.digest().2 {
            15 | 16 | 26..=28 => 1,
            _ => 0,
        }
    }

    /// T-06, applied to the given Rust's digest after fix-ups: LOOP's list goes by the address size alone, and IMUL with
    /// three operands only writes operand 0. No other digest is touched.
    fn corrected(&self) -> Option<(u8, u8, u16)> {
        if self.behavior & NONTRIVIAL == 0 {
            return None;
        }
        set_base(self.behavior, self.operand_access, self.extra);
        let (behavior, operand_access, list) = self.instruction.behavior().digest();
        match (self.instruction.opcode as u32 as u16, self.instruction.operand_count) {
            (LOOPNZ..=LOOP, _) if self.instruction.prefixes.bits & ADDRESS_SIZE != 0 => {
                Some((behavior, operand_access, 23))
            }
            (LOOPNZ..=LOOP, _) => Some((behavior, operand_access, 21)),
            (IMUL, 3) => Some((behavior, operand_access & !3 | 2, list)),
            _ => None,
        }
    }
}
