//! Why a call was refused.
use crate::opcode::opcode_name;
use core::fmt;

/// Why a call was refused. A refused call changes no byte of a buffer.
#[derive(Clone, Copy, Debug, PartialEq, Eq, Hash)]
pub enum Refusal {
    /// 1: an unknown kind, or not the kind's length; in a log, an unknown kind or an event cut short; of a list of records, no record's
    /// length or bytes that are no multiple of it.
    Form,
    /// 2: a field outside its table; in a log, a bad register or a size outside 1 to 64; of a watch, a length outside 1 to 8 or a pair
    /// past the limit; of a sheet, such a length or a log over 65,536 bytes; of a list, too many records.
    Field,
    /// 3: the register file's kind is unknown, its length is not the kind's, or it knows a register that the kind has not.
    File,
    /// 4: the instruction's accesses are not a plain list.
    Complex {
        /// The record's opcode number.
        opcode: u16,
    },
    /// 5: an operand that is accessed names no register or memory, or a string list names no string slot.
    Operand,
    /// 6: memory is accessed and the record's memory size is 0.
    Size,
    /// 7: the start lies past the buffer's end, or too little room is behind it.
    Room {
        /// How many bytes behind the start the same call needs: those of its log or listing.
        needed: usize,
    },
    /// 9: the record is of the kind that brings no digest, and its opcode has none. Tested after 2 and before 3.
    Opcode,
    /// 10: the sheet takes no more logs.
    Logs,
}

impl Refusal {
    /// The highest number of a refusal.
    pub const MOST: u8 = 10;

    /// The refusal's number, and its reason in words.
    const fn row(self) -> (u8, &'static str) {
        match self {
            Refusal::Form => (1, "wrong length or unknown kind"),
            Refusal::Field => (2, "a field is outside its table"),
            Refusal::File => (3, "no well-formed register file"),
            Refusal::Complex { .. } => (4, "complex: its accesses are no plain list"),
            Refusal::Operand => (5, "an accessed operand names no register or memory"),
            Refusal::Size => (6, "memory is accessed and its size is 0"),
            Refusal::Room { .. } => (7, "too little room behind the start"),
            Refusal::Opcode => (9, "kind 0x12 has no digest for this opcode"),
            Refusal::Logs => (10, "the sheet takes no more logs"),
        }
    }

    /// The refusal's number.
    pub const fn number(self) -> u8 {
        self.row().0
    }

    /// The reason, in words.
    pub const fn reason(self) -> &'static str {
        self.row().1
    }

    /// The refusal in an answer's bits, or none. The library answers no other number.
    pub(crate) fn of(answer: u64) -> Option<Refusal> {
        Some(match answer & 0xFF {
            0 => return None,
            1 => Refusal::Form,
            2 => Refusal::Field,
            3 => Refusal::File,
            4 => Refusal::Complex {
                opcode: (answer >> 8) as u16,
            },
            5 => Refusal::Operand,
            6 => Refusal::Size,
            9 => Refusal::Opcode,
            10 => Refusal::Logs,
            _ => Refusal::Room {
                needed: (answer >> 32) as usize,
            },
        })
    }

    /// The opcode that the answer carried.
    pub const fn opcode(self) -> Option<u16> {
        match self {
            Refusal::Complex { opcode } => Some(opcode),
            _ => None,
        }
    }

    /// The refusal of a record whose opcode is this: in words, with the opcode where it has a name or is the reason.
    ///
    /// ```
    /// let refusal = machhurel::Refusal::Size;
    /// assert_eq!(refusal.of_opcode(28).to_string(), "refused 6 (opcode 28, LEA): memory is accessed and its size is 0");
    /// assert_eq!(refusal.of_opcode(40).to_string(), "refused 6: memory is accessed and its size is 0");
    /// let refusal = machhurel::Refusal::Opcode;
    /// assert_eq!(refusal.of_opcode(40).to_string(), "refused 9 (opcode 40): kind 0x12 has no digest for this opcode");
    /// ```
    pub fn of_opcode(self, opcode: u16) -> RefusedRecord {
        RefusedRecord {
            refusal: self,
            opcode,
        }
    }
}

impl fmt::Display for Refusal {
    fn fmt(&self, f: &mut fmt::Formatter<'_>) -> fmt::Result {
        say(f, *self, self.opcode())
    }
}

/// A refusal beside the opcode of the record that was refused.
#[derive(Clone, Copy, Debug, PartialEq, Eq, Hash)]
pub struct RefusedRecord {
    /// Why it was refused.
    pub refusal: Refusal,
    /// The record's opcode number.
    pub opcode: u16,
}

impl fmt::Display for RefusedRecord {
    fn fmt(&self, f: &mut fmt::Formatter<'_>) -> fmt::Result {
        let told = opcode_name(self.opcode).is_some() || self.refusal == Refusal::Opcode;
        let opcode = if told { Some(self.opcode) } else { None };
        say(f, self.refusal, self.refusal.opcode().or(opcode))
    }
}

/// The words of every refusal: its number, what the answer says beside it, the reason.
fn say(f: &mut fmt::Formatter<'_>, refusal: Refusal, opcode: Option<u16>) -> fmt::Result {
    let (number, reason) = refusal.row();
    write!(f, "refused {number}")?;
    if let Refusal::Room { needed } = refusal {
        write!(f, " ({needed} bytes needed)")?;
    }
    if let Some(opcode) = opcode {
        write!(f, " (opcode {opcode}")?;
        if let Some(name) = opcode_name(opcode) {
            write!(f, ", {name}")?;
        }
        f.write_str(")")?;
    }
    write!(f, ": {reason}")
}

#[cfg(feature = "std")]
impl std::error::Error for Refusal {}
