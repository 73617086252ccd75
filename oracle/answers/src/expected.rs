//! The expected outcome of every public call, in the bits of the C interface.

use crate::asked::{self, Visited};
use crate::event::{self, Read};
use crate::everyday;
use crate::input::{Call, Input};
use crate::record::Record;
use crate::refusals;
use crate::register_file::RegisterFile;
use crate::segment;

/// Document 01's "no listing over 34 bytes", and document 02's "Limits become 46 events and 201 bytes".
pub const LOG_BYTES: usize = 201;
pub const LOG_EVENTS: usize = 46;
pub const LISTING_BYTES: usize = 34;

/// What reading an event answers at or past the end.
pub const FINISHED: u8 = 255;

/// The numbers that a call can answer. "Digest and exceptions give 1, 2; listing 1, 2, 4, 7;
/// visiting all; reading an event 1, 2, or finished." Document 02 adds 9 for a record.
pub fn possible(call: Call) -> &'static [u8] {
    match call {
        Call::Visit => &[0, 1, 2, 3, 4, 5, 6, 7, 9],
        Call::Listing => &[0, 1, 2, 4, 7, 9],
        Call::Digest | Call::Privilege | Call::Exceptions => &[0, 1, 2, 9],
        Call::Event => &[0, 1, 2, FINISHED],
    }
}

#[derive(Clone, Debug, PartialEq, Eq)]
pub enum Refusal {
    /// One of 1, 2, 3, 5, 6, 9.
    Number(u8),
    /// 4, with the opcode.
    Complex(u16),
    /// The given Rust and document 01's table contradict each other, and how.
    Disagreement(String),
}

impl Refusal {
    /// A disagreement answers what no library answers, so it shows as a difference.
    fn answer(&self) -> u64 {
        match self {
            Refusal::Number(number) => *number as u64,
            Refusal::Complex(opcode) => 4 | (*opcode as u64) << 8,
            Refusal::Disagreement(_) => u64::MAX,
        }
    }
}

/// A whole log or listing, before anything is said of room; or the refusal.
pub type Bytes = Result<Vec<u8>, Refusal>;

/// An answer and the bytes written from the start on.
#[derive(Clone, Debug, PartialEq, Eq)]
pub struct Outcome {
    pub answer: u64,
    pub written: Vec<u8>,
}

pub fn outcome(input: &Input) -> Outcome {
    let plain = |answer| Outcome { answer, written: Vec::new() };
    match input.call {
        Call::Visit => placed(&log(input.subject, input.file), input),
        Call::Listing => placed(&listing(input.subject), input),
        Call::Digest => plain(digest(input.subject)),
        Call::Privilege => plain(privilege(input.subject)),
        Call::Exceptions => plain(exceptions(input.subject)),
        Call::Event => plain(event(input.subject, input.start)),
    }
}

fn placed(bytes: &Bytes, input: &Input) -> Outcome {
    let (answer, written) = delivered(bytes, input.room, input.start);
    Outcome { answer, written: written.to_vec() }
}

/// The answer, and the bytes that are written, when `bytes` meet so much room.
pub fn delivered(bytes: &Bytes, room: usize, start: usize) -> (u64, &[u8]) {
    match bytes {
        Err(refusal) => (refusal.answer(), &[]),
        Ok(bytes) => match room.checked_sub(start) {
            Some(left) if left >= bytes.len() => ((bytes.len() as u64) << 32, bytes),
            _ => (7 | (bytes.len() as u64) << 32, &[]),
        },
    }
}

pub fn log(record: &[u8], file: &[u8]) -> Bytes {
    let ready = ready(record)?;
    if refusals::of_file(file) {
        return Err(Refusal::Number(3));
    }
    let (_, operand_access, list) = ready.digest();
    let causes = refusals::causes(record, operand_access, list);
    let refused_5 = causes.no_operand || causes.reg4_outside;
    match asked::visit(&ready, &RegisterFile::from_bytes(file)) {
        Visited::Complex(opcode) => Err(Refusal::Complex(opcode)),
        // A panic must coincide with exactly 5 or 6, but for Reg4 outside its bank.
        Visited::Log(log) if !causes.no_operand && !causes.no_size => {
            if refused_5 {
                return Err(Refusal::Number(5));
            }
            within("log", segment::applied(record, operand_access, file, log), LOG_BYTES)
        }
        // It panics at the first cause on its way; the table has 5 before 6.
        Visited::PanickedOperand if causes.no_operand => Err(Refusal::Number(5)),
        Visited::PanickedSize if causes.no_size => Err(Refusal::Number(if refused_5 { 5 } else { 6 })),
        Visited::Log(_) => Err(Refusal::Disagreement(format!("it does not panic, where {causes:?}"))),
        Visited::PanickedOperand => Err(Refusal::Disagreement(format!("it panics at an operand, where {causes:?}"))),
        Visited::PanickedSize => Err(Refusal::Disagreement(format!("it panics at the size, where {causes:?}"))),
        Visited::Panicked(words) => Err(Refusal::Disagreement(format!("it panics with {words:?}, where {causes:?}"))),
    }
}

pub fn listing(record: &[u8]) -> Bytes {
    let bytes = asked::listing(&ready(record)?).map_err(Refusal::Complex)?;
    within("listing", bytes, LISTING_BYTES)
}

fn within(what: &str, bytes: Vec<u8>, limit: usize) -> Bytes {
    if bytes.len() > limit {
        return Err(Refusal::Disagreement(format!("its {what} has {} bytes", bytes.len())));
    }
    Ok(bytes)
}

/// Bits 0-7 number, 8-15 `behavior`, 16-23 `operand_access`, 32-47 list.
pub fn digest(record: &[u8]) -> u64 {
    of_record(record, |ready| {
        let (behavior, operand_access, list) = ready.digest();
        (behavior as u64) << 8 | (operand_access as u64) << 16 | (list as u64) << 32
    })
}

/// Bits 0-7 number, 8-15 level.
pub fn privilege(record: &[u8]) -> u64 {
    of_record(record, |ready| (asked::privilege(ready) as u64) << 8)
}

/// Bits 0-7 number, 32-63 exception bits.
pub fn exceptions(record: &[u8]) -> u64 {
    of_record(record, |ready| (asked::exceptions(ready) as u64) << 32)
}

/// Bits 0-7: 0 an event, 1 or 2 refused, 255 finished; 32-63 the event's length.
pub fn event(log: &[u8], at: usize) -> u64 {
    match event::read(log, at) {
        Read::Event(length) => (length as u64) << 32,
        Read::Refused(number) => number as u64,
        Read::Finished => FINISHED as u64,
    }
}

fn ready(record: &[u8]) -> Result<Record, Refusal> {
    if let Some(number) = refusals::of_record(record) {
        return Err(Refusal::Number(number));
    }
    let filled = everyday::filled_in(record).expect("a record without a digest is refused 9");
    Ok(Record::from_bytes(&filled))
}

fn of_record(record: &[u8], answer: impl FnOnce(&Record) -> u64) -> u64 {
    match ready(record) {
        Ok(ready) => answer(&ready),
        Err(refusal) => refusal.answer(),
    }
}
