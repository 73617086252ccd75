//! Whether something is read or written.
use core::fmt;

/// Whether an operand or the flags are read, written, or both.
#[derive(Clone, Copy, Debug, PartialEq, Eq, Hash)]
pub enum Access {
    /// Neither.
    None,
    /// It is read.
    Read,
    /// It is written.
    Write,
    /// It is read, then written.
    Both,
}

impl Access {
    /// The access of a number, by its two low bits.
    pub const fn of(number: u8) -> Access {
        match number & 3 {
            0 => Access::None,
            1 => Access::Read,
            2 => Access::Write,
            _ => Access::Both,
        }
    }

    /// The access's number: bit 0 read, bit 1 write.
    pub const fn number(self) -> u8 {
        self as u8
    }
}

impl fmt::Display for Access {
    fn fmt(&self, f: &mut fmt::Formatter<'_>) -> fmt::Result {
        f.write_str(match self {
            Access::None => "none",
            Access::Read => "read",
            Access::Write => "write",
            Access::Both => "read and write",
        })
    }
}
