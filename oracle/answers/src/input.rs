//! One public call with all that it is given.

/// The public calls, with their numbers in the list of answers.
#[derive(Copy, Clone, Debug, PartialEq, Eq)]
#[repr(u8)]
pub enum Call {
    Visit = 1,
    Listing = 2,
    Digest = 3,
    Privilege = 4,
    Exceptions = 5,
    Event = 6,
}

pub const CALLS: [Call; 6] = [Call::Visit, Call::Listing, Call::Digest, Call::Privilege, Call::Exceptions, Call::Event];

#[derive(Copy, Clone)]
pub struct Input<'a> {
    pub call: Call,
    /// The record; for `Event` the log.
    pub subject: &'a [u8],
    /// The register file; only `Visit` takes one.
    pub file: &'a [u8],
    /// The length of the lent buffer; only `Visit` and `Listing` take one.
    pub room: usize,
    /// The start in the lent buffer; for `Event` the place in the log.
    pub start: usize,
}

impl<'a> Input<'a> {
    pub fn visit(record: &'a [u8], file: &'a [u8], room: usize, start: usize) -> Input<'a> {
        Input { call: Call::Visit, subject: record, file, room, start }
    }

    pub fn listing(record: &'a [u8], room: usize, start: usize) -> Input<'a> {
        Input { call: Call::Listing, subject: record, file: &[], room, start }
    }

    /// A call that takes a record and nothing else.
    pub fn of_record(call: Call, record: &'a [u8]) -> Input<'a> {
        Input { call, subject: record, file: &[], room: 0, start: 0 }
    }

    pub fn event(log: &'a [u8], at: usize) -> Input<'a> {
        Input { call: Call::Event, subject: log, file: &[], room: 0, start: at }
    }
}
