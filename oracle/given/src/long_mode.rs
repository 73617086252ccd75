//! The module around the given `long_mode/behavior.rs`: the types that its text takes from its
//! parent and that are not in the text. All are filled in from document 01's tables.

mod instruction;
mod operand;
mod register;

pub use instruction::{Instruction, Prefixes};
pub use operand::{Operand, OperandSpec};
pub use register::{RegSpec, RegisterBank};

// `pub mod behavior`: the given src/long_mode/behavior.rs, then one line that includes appended.rs.
include!(concat!(env!("OUT_DIR"), "/long_mode_behavior_module.rs"));

// `pub enum Opcode`, made by build.rs.
include!(concat!(env!("OUT_DIR"), "/opcode.rs"));

// Written out, since deriving it for so many variants costs the compiler seconds.
impl PartialEq for Opcode {
    fn eq(&self, other: &Opcode) -> bool {
        *self as u32 == *other as u32
    }
}

impl Opcode {
    pub fn from_number(number: u16) -> Opcode {
        // Safety: the enum is `repr(u32)` and has a variant for every 16-bit number.
        unsafe { std::mem::transmute::<u32, Opcode>(number as u32) }
    }
}
