//! Records: a builder that makes none that is refused by mistake.
use crate::access::Access;
use crate::calls::{visit, PrivilegeLevel};
use crate::file::RegisterFile;
use crate::refusal::Refusal;
use crate::register::Register;
use crate::spec::Spec;
use crate::{EVERYDAY_RECORD_BYTES, LOG_BYTES, RECORD_BYTES, SEGMENT_RECORD_BYTES};
use core::ops::Deref;

/// A segment whose base is added to the addresses of a record.
#[derive(Clone, Copy, Debug, PartialEq, Eq, Hash)]
#[allow(missing_docs)]
pub enum Segment {
    Fs,
    Gs,
}

const PLAIN: u8 = 0x10;
const SEGMENTED: u8 = 0x11;
const EVERYDAY: u8 = 0x12;

/// A record that [`RecordBuilder::build`] has let through: of kind 0x11 where it names a segment, of kind 0x12 where it leaves the digest
/// to its opcode, else of kind 0x10.
#[derive(Clone, Copy, Debug, PartialEq, Eq, Hash)]
pub struct Record([u8; SEGMENT_RECORD_BYTES]);

/// The bytes of a record, by its kind.
fn bytes_of(record: &[u8; SEGMENT_RECORD_BYTES]) -> &[u8] {
    let length = match record[0] {
        SEGMENTED => SEGMENT_RECORD_BYTES,
        EVERYDAY => EVERYDAY_RECORD_BYTES,
        _ => RECORD_BYTES,
    };
    &record[..length]
}

impl Record {
    /// A record that does nothing yet, of this opcode.
    pub fn builder(opcode: u16) -> RecordBuilder {
        let mut bytes = [0; SEGMENT_RECORD_BYTES];
        bytes[0] = PLAIN;
        bytes[1..3].copy_from_slice(&opcode.to_le_bytes());
        RecordBuilder { bytes }
    }
}

impl Deref for Record {
    type Target = [u8];

    fn deref(&self) -> &[u8] {
        bytes_of(&self.0)
    }
}

/// The bytes join as a trace: `[record, record].concat()`.
impl core::borrow::Borrow<[u8]> for Record {
    fn borrow(&self) -> &[u8] {
        bytes_of(&self.0)
    }
}

/// The fields of a record, set one by one. What is not set is 0.
///
/// ```
/// use machhurel::{Access, Record, Refusal, Register, Spec};
/// // mov [rbx + 8], rax
/// let store = Record::builder(40)
///     .operand(Spec::Disp, Access::Write)
///     .operand(Spec::RegRRR, Access::Read)
///     .rrr(Register::quad(0))
///     .base(Register::quad(3))
///     .displacement(8);
/// assert_eq!(store.build(), Err(Refusal::Size));
/// assert!(store.memory_size(8).build().is_ok());
/// ```
#[derive(Clone, Copy, Debug, PartialEq, Eq, Hash)]
#[must_use]
pub struct RecordBuilder {
    bytes: [u8; SEGMENT_RECORD_BYTES],
}

const COUNT: usize = 3;
const SPECS: usize = 4;
const REGS: usize = 8;
const MEMORY_SIZE: usize = 16;
const SCALE: usize = 17;
const DISPLACEMENT: usize = 18;
const IMMEDIATE: usize = 26;
const PREFIXES: usize = 34;
const MASK: usize = 35;
const BEHAVIOR: usize = 36;
const OPERAND_ACCESS: usize = 37;
const LIST: usize = 38;
const SEGMENT: usize = RECORD_BYTES;
const COMPLEX: u8 = 0x20;

impl RecordBuilder {
    fn set(mut self, at: usize, byte: u8) -> Self {
        self.bytes[at] = byte;
        self
    }

    fn set_bits(mut self, at: usize, mask: u8, bits: u8) -> Self {
        self.bytes[at] = self.bytes[at] & !mask | bits;
        self
    }

    fn set_number(mut self, at: usize, number: u64) -> Self {
        self.bytes[at..at + 8].copy_from_slice(&number.to_le_bytes());
        self
    }

    fn set_register(self, slot: usize, register: Register) -> Self {
        self.set(REGS + 2 * slot, register.bank)
            .set(REGS + 2 * slot + 1, register.number)
    }

    /// The next operand. A fifth makes a record that is refused 2.
    pub fn operand(self, spec: Spec, access: Access) -> Self {
        let k = self.bytes[COUNT];
        let counted = self.set(COUNT, k.saturating_add(1));
        if k > 3 {
            return counted;
        }
        let shift = 2 * k;
        counted.set(SPECS + usize::from(k), spec.number()).set_bits(
            OPERAND_ACCESS,
            3 << shift,
            access.number() << shift,
        )
    }

    /// The register of RegRRR, `regs[0]`.
    pub fn rrr(self, register: Register) -> Self {
        self.set_register(0, register)
    }

    /// The register of RegMMM, `regs[1]`: the same field as the base.
    pub fn mmm(self, register: Register) -> Self {
        self.set_register(1, register)
    }

    /// The base of a memory operand, `regs[1]`.
    pub fn base(self, register: Register) -> Self {
        self.set_register(1, register)
    }

    /// The index of a memory operand, `regs[2]`.
    pub fn index(self, register: Register) -> Self {
        self.set_register(2, register)
    }

    /// The register of RegVex and the bank of Reg4, `regs[3]`.
    pub fn vex(self, register: Register) -> Self {
        self.set_register(3, register)
    }

    /// How many bytes a memory operand has, 1 to 64.
    pub fn memory_size(self, bytes: u8) -> Self {
        self.set(MEMORY_SIZE, bytes)
    }

    /// What the index is multiplied with.
    pub fn scale(self, scale: u8) -> Self {
        self.set(SCALE, scale)
    }

    /// The displacement.
    pub fn displacement(self, displacement: i64) -> Self {
        self.set_number(DISPLACEMENT, displacement as u64)
    }

    /// The immediate; its low byte is the number of Reg4.
    pub fn immediate(self, immediate: u64) -> Self {
        self.set_number(IMMEDIATE, immediate)
    }

    /// The prefix bit VEX W.
    pub fn vex_w(self) -> Self {
        self.set_bits(PREFIXES, 1, 1)
    }

    /// The prefix bit REX W.
    pub fn rex_w(self) -> Self {
        self.set_bits(PREFIXES, 2, 2)
    }

    /// The operand-size prefix, 0x66.
    pub fn operand_size_prefix(self) -> Self {
        self.set_bits(PREFIXES, 4, 4)
    }

    /// The address-size prefix, 0x67.
    pub fn address_size_prefix(self) -> Self {
        self.set_bits(PREFIXES, 8, 8)
    }

    /// The segment of a memory operand: its base is read first and added last.
    pub fn segment(self, segment: Segment) -> Self {
        let number = match segment {
            Segment::Fs => 1,
            Segment::Gs => 2,
        };
        self.set(0, SEGMENTED).set(SEGMENT, number)
    }

    /// The digest is that of the opcode: accesses, flags, privilege and list that are set count for nothing. An opcode that has none is
    /// refused 9. This kind has no segment: of the two the one that is set last decides.
    ///
    /// ```
    /// use machhurel::{Access, Record, Refusal, Register, Spec};
    /// // add rax, rbx
    /// let add = |opcode| {
    ///     Record::builder(opcode)
    ///         .operand(Spec::RegRRR, Access::None)
    ///         .operand(Spec::RegMMM, Access::None)
    ///         .rrr(Register::quad(0))
    ///         .mmm(Register::quad(3))
    ///         .everyday()
    /// };
    /// assert_eq!(machhurel::digest(&add(103).build()?)?.operand_access, 0x07);
    /// assert_eq!(add(119).build(), Err(Refusal::Opcode));
    /// # Ok::<(), Refusal>(())
    /// ```
    pub fn everyday(self) -> Self {
        self.set(0, EVERYDAY)
    }

    /// The mask register, 0 for none.
    pub fn mask(self, number: u8) -> Self {
        self.set(MASK, number)
    }

    /// The privilege level that the instruction needs.
    pub fn privilege(self, level: PrivilegeLevel) -> Self {
        self.set_bits(BEHAVIOR, 3, level as u8)
    }

    /// How the flags are accessed.
    pub fn flags(self, access: Access) -> Self {
        self.set_bits(BEHAVIOR, 0x0C, access.number() << 2)
    }

    /// The digest is to be fixed up by the opcode's rule.
    pub fn nontrivial(self) -> Self {
        self.set_bits(BEHAVIOR, 0x10, 0x10)
    }

    /// The instruction's accesses are no plain list: a visit may refuse 4, and the record is built all the same.
    pub fn complex(self) -> Self {
        self.set_bits(BEHAVIOR, COMPLEX, COMPLEX)
    }

    /// The number of the implicit list, 0 to 28.
    pub fn list(mut self, number: u16) -> Self {
        self.bytes[LIST..SEGMENT].copy_from_slice(&number.to_le_bytes());
        self
    }

    /// The record, or why every visit of it would be refused. The library itself decides. That a record said to be complex is refused 4
    /// is no mistake.
    pub fn build(self) -> Result<Record, Refusal> {
        let bytes = bytes_of(&self.bytes);
        let answer = visit(bytes, &RegisterFile::new(), &mut [0; LOG_BYTES], 0);
        match answer {
            Ok(_) | Err(Refusal::Complex { .. }) => {
                // what the kind has no byte for is no part of the record
                let mut record = [0; SEGMENT_RECORD_BYTES];
                record[..bytes.len()].copy_from_slice(bytes);
                Ok(Record(record))
            }
            Err(refusal) => Err(refusal),
        }
    }
}
