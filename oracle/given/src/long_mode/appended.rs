// Included at the end of the copy of the given `long_mode/behavior.rs`: what its text names without
// a path and does not hold. The implicit lists and their numbers are document 01's; the base digest
// of an opcode is the record's, handed over by `set_base`.

use super::RegisterBank as Bank;
use std::cell::Cell;

const MUL_IDX_1OP_BYTE: u16 = 1;
const MUL_IDX_1OP_WORD: u16 = 2;
const MUL_IDX_1OP_DWORD: u16 = 3;
const MUL_IDX_1OP_QWORD: u16 = 4;
const DIV_IDX_1OP_BYTE: u16 = 5;
const DIV_IDX_1OP_WORD: u16 = 6;
const DIV_IDX_1OP_DWORD: u16 = 7;
const DIV_IDX_1OP_QWORD: u16 = 8;
const CMPXCHG_IDX_BYTE: u16 = 9;
const CMPXCHG_IDX_WORD: u16 = 10;
const CMPXCHG_IDX_DWORD: u16 = 11;
const CMPXCHG_IDX_QWORD: u16 = 12;
const MULX_32B_IDX: u16 = 13;
const MULX_64B_IDX: u16 = 14;
const EDI_MEMWRITE_IDX: u16 = 15;
const RDI_MEMWRITE_IDX: u16 = 16;
const PCMPESTRI_32B_IDX: u16 = 17;
const PCMPESTRI_64B_IDX: u16 = 18;
const PCMPESTRM_32B_IDX: u16 = 19;
const PCMPESTRM_64B_IDX: u16 = 20;
const RW_RCX_IDX: u16 = 21;
const RW_CX_IDX: u16 = 22;
const RW_ECX_IDX: u16 = 23;

const AL: RegSpec = RegSpec::al();
const AX: RegSpec = RegSpec::new(Bank::W, 0);
const EAX: RegSpec = RegSpec::new(Bank::D, 0);
const RAX: RegSpec = RegSpec::new(Bank::Q, 0);
const CX: RegSpec = RegSpec::new(Bank::W, 1);
const ECX: RegSpec = RegSpec::new(Bank::D, 1);
const RCX: RegSpec = RegSpec::new(Bank::Q, 1);
const DX: RegSpec = RegSpec::new(Bank::W, 2);
const EDX: RegSpec = RegSpec::new(Bank::D, 2);
const RDX: RegSpec = RegSpec::new(Bank::Q, 2);
const RBX: RegSpec = RegSpec::new(Bank::Q, 3);
const RSP: RegSpec = RegSpec::new(Bank::Q, 4);
const XMM0: RegSpec = RegSpec::new(Bank::X, 0);

const fn entry(spec: OperandSpec, reg: RegSpec, disp: i32, write: bool) -> ImplicitOperand {
    ImplicitOperand { spec, reg, disp, write }
}

/// A register read.
const fn r(reg: RegSpec) -> ImplicitOperand {
    entry(OperandSpec::RegRRR, reg, 0, false)
}

/// A register write.
const fn w(reg: RegSpec) -> ImplicitOperand {
    entry(OperandSpec::RegRRR, reg, 0, true)
}

/// A string slot: the text takes the slot's number from the displacement.
const fn slot(number: i32, write: bool) -> ImplicitOperand {
    entry(OperandSpec::Deref_rdi, RegSpec::rdi(), number, write)
}

static IMPLICIT_OPS_LIST: [&[ImplicitOperand]; 29] = [
    &[],
    // MUL
    &[r(AL), w(AX)],
    &[r(AX), w(AX), w(DX)],
    &[r(EAX), w(RAX), w(RDX)],
    &[r(RAX), w(RAX), w(RDX)],
    // DIV
    &[r(AX), w(AX)],
    &[r(AX), r(DX), w(AX), w(DX)],
    &[r(EAX), r(EDX), w(RAX), w(RDX)],
    &[r(RAX), r(RDX), w(RAX), w(RDX)],
    // CMPXCHG
    &[r(AL), w(AL)],
    &[r(AX), w(AX)],
    &[r(EAX), w(RAX)],
    &[r(RAX), w(RAX)],
    // MULX
    &[r(EDX)],
    &[r(RDX)],
    // VMASKMOVDQU
    &[entry(OperandSpec::Deref, RegSpec::edi(), 0, true)],
    &[entry(OperandSpec::Deref, RegSpec::rdi(), 0, true)],
    // PCMPESTRI
    &[r(EAX), r(EDX), w(RCX)],
    &[r(RAX), r(RDX), w(RCX)],
    // PCMPESTRM
    &[r(EAX), r(EDX), w(XMM0)],
    &[r(RAX), r(RDX), w(XMM0)],
    // LOOP
    &[r(RCX), w(RCX)],
    &[r(CX), w(CX)],
    &[r(ECX), w(RCX)],
    // String
    &[slot(0, false), slot(0, true)],
    &[slot(0, false), slot(0, true), slot(1, false), slot(1, true)],
    // Push, pop
    &[r(RSP), w(RSP), entry(OperandSpec::Disp, RSP, -8, true)],
    &[r(RSP), w(RSP), entry(OperandSpec::Deref, RSP, 0, false)],
    // XLAT: the text takes `MemIndexScale` here as the base register and al
    &[entry(OperandSpec::MemIndexScale, RBX, 0, false)],
];

thread_local! {
    static BASE: Cell<BehaviorDigest> = const { Cell::new(BehaviorDigest::empty()) };
}

/// Says what `opcode2behavior` answers from now on in this thread: the record's base digest.
pub fn set_base(behavior: u8, operand_access: u8, extra: u16) {
    BASE.set(BehaviorDigest { behavior, operand_access, extra });
}

fn opcode2behavior(_opcode: &Opcode) -> BehaviorDigest {
    BASE.get()
}

impl InstBehavior<'_> {
    /// The digest after fix-ups: `behavior`, `operand_access`, list.
    pub fn digest(&self) -> (u8, u8, u16) {
        (self.behavior.behavior, self.behavior.operand_access, self.behavior.extra)
    }
}

/// The text's own setter and its own reading of two bits, which it keeps to itself.
pub fn operand_access_with(operand: u8, access: Access) -> u8 {
    BehaviorDigest::empty().set_operand(operand, access).operand_access
}

pub fn access_from_bits(bits: u8) -> Option<Access> {
    Access::from_bits(bits)
}
