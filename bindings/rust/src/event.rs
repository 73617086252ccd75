//! The events of a log.
use crate::digits::{Decimal, Hex};
use crate::ffi;
use crate::refusal::Refusal;
use crate::register::Register;
use core::fmt;

/// What an instruction did, one access at a time.
#[derive(Clone, Copy, Debug, PartialEq, Eq, Hash)]
pub enum Event {
    /// A register was read.
    RegisterRead(Register),
    /// A register was written.
    RegisterWrite(Register),
    /// Memory was read; the address is none where a register in it was unknown.
    MemoryRead {
        /// The address, where it is known.
        address: Option<u64>,
        /// How many bytes.
        size: u8,
    },
    /// Memory was written; the address is none where a register in it was unknown.
    MemoryWrite {
        /// The address, where it is known.
        address: Option<u64>,
        /// How many bytes.
        size: u8,
    },
}

impl Event {
    /// Whether something was written.
    pub const fn is_write(self) -> bool {
        matches!(self, Event::RegisterWrite(_) | Event::MemoryWrite { .. })
    }
}

impl Event {
    /// Writes the event in words: `read rbx`, `write [0x0000000000001008] 8 bytes`, `write [unknown] 8 bytes`.
    pub fn say<W: fmt::Write>(&self, out: &mut W) -> fmt::Result {
        out.write_str(if self.is_write() { "write " } else { "read " })?;
        match self {
            Event::RegisterRead(register) | Event::RegisterWrite(register) => register.say(out),
            Event::MemoryRead { address, size } | Event::MemoryWrite { address, size } => {
                say_place(out, *address)?;
                out.write_str(Decimal::of(u64::from(*size)).as_str())?;
                out.write_str(if *size == 1 { " byte" } else { " bytes" })
            }
        }
    }
}

impl fmt::Display for Event {
    fn fmt(&self, f: &mut fmt::Formatter<'_>) -> fmt::Result {
        self.say(f)
    }
}

fn say_place<W: fmt::Write>(out: &mut W, address: Option<u64>) -> fmt::Result {
    match address {
        None => out.write_str("[unknown] "),
        Some(address) => {
            out.write_str("[0x")?;
            out.write_str(Hex::of(address).as_str())?;
            out.write_str("] ")
        }
    }
}

/// Walks the events of a log from its start. It ends after the last event, or after the first refusal.
///
/// ```
/// use machhurel::{Event, Events, Refusal, Register};
/// let rbx = Register::quad(3);
/// let mut events = Events::new(&[1, 0, 3, 9]);
/// assert_eq!(events.next(), Some(Ok(Event::RegisterRead(rbx))));
/// assert_eq!(events.next(), Some(Err(Refusal::Form)));
/// assert_eq!(events.next(), None);
/// ```
#[derive(Clone, Debug)]
pub struct Events<'a> {
    log: &'a [u8],
    at: usize,
}

impl<'a> Events<'a> {
    /// The events of these bytes.
    pub fn new(log: &'a [u8]) -> Self {
        Events { log, at: 0 }
    }

    /// The place of the next event.
    pub fn at(&self) -> usize {
        self.at
    }
}

const FINISHED: u64 = 255;

/// The event that these bytes begin with.
fn event_of(bytes: &[u8]) -> Option<Event> {
    let byte = |k: usize| bytes.get(k).copied();
    let register = || {
        Some(Register {
            bank: byte(1)?,
            number: byte(2)?,
        })
    };
    let address = || Some(u64::from_le_bytes(bytes.get(1..9)?.try_into().ok()?));
    Some(match byte(0)? {
        1 => Event::RegisterRead(register()?),
        2 => Event::RegisterWrite(register()?),
        3 => Event::MemoryRead {
            address: Some(address()?),
            size: byte(9)?,
        },
        4 => Event::MemoryWrite {
            address: Some(address()?),
            size: byte(9)?,
        },
        5 => Event::MemoryRead {
            address: None,
            size: byte(1)?,
        },
        6 => Event::MemoryWrite {
            address: None,
            size: byte(1)?,
        },
        _ => return None,
    })
}

impl Iterator for Events<'_> {
    type Item = Result<Event, Refusal>;

    fn next(&mut self) -> Option<Self::Item> {
        // SAFETY: the pointer and the length are those of a slice.
        let answer = unsafe { ffi::machhurel_event(self.log.as_ptr(), self.log.len(), self.at) };
        if answer & 0xFF == FINISHED {
            return None;
        }
        let found = match Refusal::of(answer) {
            Some(refusal) => Err(refusal),
            // an event that the library reads and this crate does not know is refused, never passed over
            None => event_of(self.log.get(self.at..).unwrap_or(&[])).ok_or(Refusal::Form),
        };
        self.at = match found {
            Ok(_) => self.at.saturating_add((answer >> 32) as usize),
            Err(_) => self.log.len(),
        };
        Some(found)
    }
}

impl core::iter::FusedIterator for Events<'_> {}
