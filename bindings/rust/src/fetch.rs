//! Which registers to fetch for a list of records.
use crate::ffi;
use crate::file::Known;
use crate::refusal::Refusal;

/// A set has so many bits.
pub const SET_BITS: u8 = Known::ALL.len() as u8;

/// A set of registers, by their known bits.
#[derive(Clone, Copy, Debug, Default, PartialEq, Eq, Hash)]
pub struct RegisterSet(pub u32);

impl RegisterSet {
    /// Whether a register is in the set.
    pub const fn has(self, register: Known) -> bool {
        self.0 >> register as u8 & 1 == 1
    }

    /// The registers of both sets: what is proposed for two lists together.
    #[must_use]
    pub const fn union(self, other: RegisterSet) -> RegisterSet {
        RegisterSet(self.0 | other.0)
    }

    /// The registers of the set, the lowest bit first.
    pub fn registers(self) -> impl Iterator<Item = Known> {
        Known::ALL
            .into_iter()
            .filter(move |register| self.has(*register))
    }
}

/// What the judge says of a set.
#[derive(Clone, Copy, Debug, PartialEq, Eq, Hash)]
pub enum Judgement {
    /// No address of the list's records becomes unknown by knowing the registers of the set alone.
    Accepted,
    /// Not accepted: a bit is set that stands for no register.
    NoSuchBit,
    /// Not accepted: a register that enters an address is not in the set.
    Lacking {
        /// The first record that lacks one, by its number in the list, from 0.
        record: usize,
        /// The lowest that it lacks.
        register: Known,
    },
}

/// Judges a set of registers for a list of records, `each` bytes long. Refuses 1 where `each` is no record's length or the
/// bytes are no multiple of it, and 2 for more than [`BLOCK_RECORDS`](crate::BLOCK_RECORDS) records. Records that a visit refuses, given a good
/// file and room, count nothing.
///
/// ```
/// use machhurel::*;
/// // mov [rbx + 8], rax
/// let record = Record::builder(40)
///     .operand(Spec::Disp, Access::Write)
///     .operand(Spec::RegRRR, Access::Read)
///     .base(Register::quad(3))
///     .memory_size(8)
///     .displacement(8)
///     .build()?;
///
/// let set = fetch_propose(&record, RECORD_BYTES)?;
/// assert_eq!(set, RegisterSet(0x8));
/// assert_eq!(set.registers().next().map(|register| register.to_string()), Some("rbx".to_string()));
///
/// assert_eq!(fetch_judge(&record, RECORD_BYTES, set)?, Judgement::Accepted);
/// let lacking = Judgement::Lacking { record: 0, register: Known::Rbx };
/// assert_eq!(fetch_judge(&record, RECORD_BYTES, RegisterSet(0x1))?, lacking);
/// assert_eq!(fetch_judge(&record, RECORD_BYTES, RegisterSet(1 << 19))?, Judgement::NoSuchBit);
/// assert_eq!(fetch_judge(&record, 39, set), Err(Refusal::Form));
/// # Ok::<(), Refusal>(())
/// ```
pub fn fetch_judge(records: &[u8], each: usize, set: RegisterSet) -> Result<Judgement, Refusal> {
    // SAFETY: the pointer and the length are those of a slice.
    let answer =
        unsafe { ffi::machhurel_fetch_judge(records.as_ptr(), records.len(), each, set.0) };
    if let Some(refusal) = Refusal::of(answer) {
        return Err(refusal);
    }
    Ok(if (answer >> 8) & 1 == 1 {
        Judgement::Accepted
    } else if set.0 >> SET_BITS != 0 {
        Judgement::NoSuchBit
    } else {
        Judgement::Lacking {
            record: (answer >> 32) as usize,
            // a record needs no other bit
            register: Known::ALL[usize::from((answer >> 16) as u8)],
        }
    })
}

/// The least set of registers that [`fetch_judge`] accepts for a list of records. Refuses 1 and 2 as it does.
pub fn fetch_propose(records: &[u8], each: usize) -> Result<RegisterSet, Refusal> {
    // SAFETY: the pointer and the length are those of a slice.
    let answer = unsafe { ffi::machhurel_fetch_propose(records.as_ptr(), records.len(), each) };
    match Refusal::of(answer) {
        Some(refusal) => Err(refusal),
        None => Ok(RegisterSet((answer >> 32) as u32)),
    }
}
