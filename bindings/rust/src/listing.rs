//! The items of a listing.
use crate::access::Access;
use crate::refusal::Refusal;
use crate::register::Register;
use crate::spec::Spec;
use core::fmt;

/// What an instruction's listing names: the flags, an implicit operand, or an explicit one.
#[derive(Clone, Copy, Debug, PartialEq, Eq, Hash)]
pub enum Operand {
    /// 0x41: the flags.
    Flags,
    /// 0x42: a register that the instruction does not name.
    Register(Register),
    /// 0x43: memory at a register.
    Deref(Register),
    /// 0x44: memory at a register and a displacement.
    Disp(Register, i32),
    /// 0x45: memory at a base, and an index times a scale.
    BaseIndex(Register, Register, u8),
    /// 0x46: an operand of the record, by its index.
    Explicit(u8, Spec),
}

/// One item of a listing.
#[derive(Clone, Copy, Debug, PartialEq, Eq, Hash)]
pub struct Listed {
    /// What is named.
    pub operand: Operand,
    /// How it is accessed.
    pub access: Access,
}

impl fmt::Display for Listed {
    fn fmt(&self, f: &mut fmt::Formatter<'_>) -> fmt::Result {
        match self.operand {
            Operand::Flags => f.write_str("flags")?,
            Operand::Register(register) => write!(f, "{register}")?,
            Operand::Deref(base) => write!(f, "[{base}]")?,
            Operand::Disp(base, disp) => write!(f, "[{base} {disp:+}]")?,
            Operand::BaseIndex(base, index, scale) => write!(f, "[{base} + {index} * {scale}]")?,
            Operand::Explicit(index, spec) => write!(f, "operand {index} ({spec})")?,
        }
        write!(f, ": {}", self.access)
    }
}

/// The kinds of items, and how many bytes each has, its kind and its access among them.
const KINDS: [(u8, usize); 6] = [
    (0x41, 2),
    (0x42, 4),
    (0x43, 4),
    (0x44, 8),
    (0x45, 7),
    (0x46, 4),
];

/// Walks the items of a listing from its start. It ends after the last item, or after the first bytes that are none.
///
/// ```
/// use machhurel::{Access, Listed, Listing, Operand};
/// let mut items = Listing::new(&[0x41, 2]);
/// assert_eq!(items.next(), Some(Ok(Listed { operand: Operand::Flags, access: Access::Write })));
/// assert_eq!(items.next(), None);
/// ```
#[derive(Clone, Debug)]
pub struct Listing<'a> {
    left: &'a [u8],
}

impl<'a> Listing<'a> {
    /// The items of these bytes.
    pub fn new(bytes: &'a [u8]) -> Self {
        Listing { left: bytes }
    }
}

/// The first item of these bytes, cut off them.
fn front(bytes: &[u8]) -> Option<&[u8]> {
    let (_, length) = KINDS.iter().find(|(kind, _)| bytes.first() == Some(kind))?;
    bytes.get(..*length)
}

fn listed(item: &[u8]) -> Option<Listed> {
    let byte = |k: usize| item.get(k).copied();
    let register = |k: usize| {
        Some(Register {
            bank: byte(k)?,
            number: byte(k + 1)?,
        })
    };
    let operand = match byte(0)? {
        0x41 => Operand::Flags,
        0x42 => Operand::Register(register(1)?),
        0x43 => Operand::Deref(register(1)?),
        0x44 => Operand::Disp(
            register(1)?,
            i32::from_le_bytes(item.get(3..7)?.try_into().ok()?),
        ),
        0x45 => Operand::BaseIndex(register(1)?, register(3)?, byte(5)?),
        _ => Operand::Explicit(byte(1)?, Spec::of(byte(2)?)?),
    };
    Some(Listed {
        operand,
        access: Access::of(*item.last()?),
    })
}

impl Iterator for Listing<'_> {
    type Item = Result<Listed, Refusal>;

    fn next(&mut self) -> Option<Self::Item> {
        if self.left.is_empty() {
            return None;
        }
        let item = front(self.left).unwrap_or(&[]);
        let found = listed(item).ok_or(Refusal::Form);
        self.left = match found {
            Ok(_) => self.left.get(item.len()..).unwrap_or(&[]),
            Err(_) => &[],
        };
        Some(found)
    }
}

impl core::iter::FusedIterator for Listing<'_> {}
