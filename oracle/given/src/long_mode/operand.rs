//! Operand specs, from document 01's table, and the operands that a listing gives.

use super::RegSpec;

/// The table's rows, once: the specs, and the list that finds one by its number.
macro_rules! specs {
    ($($name:ident),* $(,)?) => {
        /// How an operand is given; its number is its place in the table.
        #[allow(non_camel_case_types)]
        #[derive(Copy, Clone, Debug, PartialEq, Eq)]
        #[repr(u8)]
        pub enum OperandSpec {
            $($name),*
        }

        const SPECS: [OperandSpec; 36] = [$(OperandSpec::$name),*];
    };
}

specs! {
    Nothing,
    RegRRR,
    RegMMM,
    RegVex,
    Reg4,
    RegRRR_maskmerge,
    RegRRR_maskmerge_sae,
    RegRRR_maskmerge_sae_noround,
    RegMMM_maskmerge,
    RegMMM_maskmerge_sae_noround,
    RegVex_maskmerge,
    ImmI8,
    ImmU8,
    ImmI16,
    ImmU16,
    ImmI32,
    ImmI64,
    ImmInDispField,
    Deref,
    Deref_mask,
    Deref_rdi,
    Deref_rsi,
    Deref_edi,
    Deref_esi,
    Disp,
    Disp_mask,
    MemIndexScale,
    MemIndexScale_mask,
    MemIndexScaleDisp,
    MemIndexScaleDisp_mask,
    MemBaseIndexScale,
    MemBaseIndexScale_mask,
    MemBaseIndexScaleDisp,
    MemBaseIndexScaleDisp_mask,
    DispU64,
    DispU32,
}

use OperandSpec::*;

impl OperandSpec {
    /// The spec of a number in the table.
    pub fn from_number(number: u8) -> OperandSpec {
        SPECS[number as usize]
    }

    /// "Memory is 18-35."
    pub fn is_memory(self) -> bool {
        self as u8 >= Deref as u8
    }

    pub fn is_masked(self) -> bool {
        matches!(
            self,
            RegRRR_maskmerge
                | RegRRR_maskmerge_sae
                | RegRRR_maskmerge_sae_noround
                | RegMMM_maskmerge
                | RegMMM_maskmerge_sae_noround
                | RegVex_maskmerge
                | Deref_mask
                | Disp_mask
                | MemIndexScale_mask
                | MemIndexScaleDisp_mask
                | MemBaseIndexScale_mask
                | MemBaseIndexScaleDisp_mask
        )
    }
}

/// What the given listing walks over. Its text makes the first four itself (flags and implicit
/// operands); `Explicit` is what our `Instruction::operand` gives for an explicit one.
#[derive(Copy, Clone, Debug, PartialEq)]
pub enum Operand {
    Register { reg: RegSpec },
    MemDeref { base: RegSpec },
    Disp { base: RegSpec, disp: i32 },
    MemBaseIndexScale { base: RegSpec, index: RegSpec, scale: u8 },
    Explicit { index: u8, spec: OperandSpec },
}

impl Operand {
    pub fn is_memory(&self) -> bool {
        match self {
            Operand::Register { .. } => false,
            Operand::MemDeref { .. } | Operand::Disp { .. } | Operand::MemBaseIndexScale { .. } => true,
            Operand::Explicit { spec, .. } => spec.is_memory(),
        }
    }
}
