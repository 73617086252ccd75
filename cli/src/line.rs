//! What a line of the output says.
use machhurel::{Event, Refusal, RefusedRecord};

/// Where a line belongs.
pub(crate) struct Place<'a> {
    /// The trace's name, shown harmlessly.
    pub(crate) trace: &'a str,
    /// The record's number; for a register file, that of the record after it.
    pub(crate) record: u64,
    /// The register file's rip, where it is known.
    pub(crate) rip: Option<u64>,
}

/// What a line says.
#[derive(Clone, Copy)]
pub(crate) enum What {
    Event(Event),
    /// The record touches nothing.
    Nothing,
    Refused(RefusedRecord),
    /// A register file is refused, and not used.
    BadFile(Refusal),
}

impl What {
    /// One word or two for what it is.
    pub(crate) fn kind(&self) -> &'static str {
        match self {
            What::Event(event) => kind_of(event),
            What::Nothing => "nothing",
            What::Refused(_) => "refused",
            What::BadFile(_) => "file refused",
        }
    }
}

pub(crate) fn kind_of(event: &Event) -> &'static str {
    match event {
        Event::RegisterRead(_) => "register read",
        Event::RegisterWrite(_) => "register write",
        Event::MemoryRead { .. } => "memory read",
        Event::MemoryWrite { .. } => "memory write",
    }
}
