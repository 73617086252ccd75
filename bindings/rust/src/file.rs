//! Register files: a builder, and a look inside.
use crate::calls::visit;
use crate::item::length_of;
use crate::refusal::Refusal;
use crate::register::Register;
use crate::{BASED_FILE_BYTES, FILE_BYTES, RECORD_BYTES};
use core::fmt;
use core::ops::Deref;

/// A register that a file can know.
#[derive(Clone, Copy, Debug, PartialEq, Eq, Hash)]
#[allow(missing_docs)]
pub enum Known {
    Rax,
    Rcx,
    Rdx,
    Rbx,
    Rsp,
    Rbp,
    Rsi,
    Rdi,
    R8,
    R9,
    R10,
    R11,
    R12,
    R13,
    R14,
    R15,
    /// That of the next instruction.
    Rip,
    /// The base of fs: a file that knows it is of kind 0x21.
    FsBase,
    /// The base of gs: a file that knows it is of kind 0x21.
    GsBase,
}

impl Known {
    /// Every one, by its known bit.
    pub const ALL: [Known; 19] = [
        Known::Rax,
        Known::Rcx,
        Known::Rdx,
        Known::Rbx,
        Known::Rsp,
        Known::Rbp,
        Known::Rsi,
        Known::Rdi,
        Known::R8,
        Known::R9,
        Known::R10,
        Known::R11,
        Known::R12,
        Known::R13,
        Known::R14,
        Known::R15,
        Known::Rip,
        Known::FsBase,
        Known::GsBase,
    ];

    /// The same register as a log names it.
    pub const fn register(self) -> Register {
        let (bank, number) = match self {
            Known::Rip => (9, 0),
            Known::FsBase => (13, 0),
            Known::GsBase => (13, 1),
            general => (0, general as u8),
        };
        Register { bank, number }
    }

    /// The place of the register's value in a file.
    fn value_at(self) -> core::ops::Range<usize> {
        let begin = 5 + 8 * self as usize;
        begin..begin + 8
    }

    /// The byte and the bit that say that the register is known.
    fn bit(self) -> (usize, u8) {
        (1 + self as usize / 8, 1 << (self as usize % 8))
    }

    /// The base of a segment.
    fn is_base(self) -> bool {
        matches!(self, Known::FsBase | Known::GsBase)
    }
}

impl fmt::Display for Known {
    fn fmt(&self, f: &mut fmt::Formatter<'_>) -> fmt::Result {
        self.register().say(f)
    }
}

const PLAIN: u8 = 0x20;
const BASED: u8 = 0x21;

/// A register file: of kind 0x21 once it knows the base of a segment, else of kind 0x20. No file that this type holds is refused.
///
/// ```
/// use machhurel::{known, Known, RegisterFile};
/// let file = RegisterFile::new().with(Known::Rbx, 0x1000);
/// assert_eq!(known(&file, Known::Rbx), Some(0x1000));
/// assert_eq!(known(&file, Known::Rax), None);
/// assert_eq!(known(&file.with(Known::FsBase, 0x7000), Known::FsBase), Some(0x7000));
/// ```
#[derive(Clone, Copy, Debug, PartialEq, Eq, Hash)]
pub struct RegisterFile([u8; BASED_FILE_BYTES]);

impl RegisterFile {
    /// A file that knows nothing.
    pub const fn new() -> RegisterFile {
        let mut bytes = [0; BASED_FILE_BYTES];
        bytes[0] = PLAIN;
        RegisterFile(bytes)
    }

    /// This file, knowing a register's value.
    #[must_use]
    pub fn with(mut self, register: Known, value: u64) -> RegisterFile {
        let (byte, bit) = register.bit();
        self.0[byte] |= bit;
        self.0[register.value_at()].copy_from_slice(&value.to_le_bytes());
        if register.is_base() {
            self.0[0] = BASED;
        }
        self
    }

    fn bytes(&self) -> &[u8] {
        let length = if self.0[0] == BASED {
            BASED_FILE_BYTES
        } else {
            FILE_BYTES
        };
        &self.0[..length]
    }
}

impl Default for RegisterFile {
    fn default() -> Self {
        RegisterFile::new()
    }
}

impl Deref for RegisterFile {
    type Target = [u8];

    fn deref(&self) -> &[u8] {
        self.bytes()
    }
}

/// The bytes join as a trace: `[file, file].concat()`.
impl core::borrow::Borrow<[u8]> for RegisterFile {
    fn borrow(&self) -> &[u8] {
        self.bytes()
    }
}

/// What a register file knows of a register; nothing where the bytes are no register file.
pub fn known(file: &[u8], register: Known) -> Option<u64> {
    let (byte, bit) = register.bit();
    let kind = *file.first()?;
    if ![PLAIN, BASED].contains(&kind) || length_of(kind) != Some(file.len()) {
        return None;
    }
    if file.get(byte)? & bit == 0 {
        return None;
    }
    let value = file.get(register.value_at())?;
    Some(u64::from_le_bytes(value.try_into().ok()?))
}

/// A record that touches nothing.
const NOTHING: [u8; RECORD_BYTES] = {
    let mut bytes = [0; RECORD_BYTES];
    bytes[0] = 0x10;
    bytes
};

/// Refuses what is no well-formed register file, as any visit under it would.
///
/// ```
/// use machhurel::{check_file, Refusal, RegisterFile};
/// assert_eq!(check_file(&RegisterFile::new()), Ok(()));
/// assert_eq!(check_file(&[]), Err(Refusal::File));
/// ```
pub fn check_file(file: &[u8]) -> Result<(), Refusal> {
    visit(&NOTHING, file, &mut [], 0).map(|_| ())
}
