//! What befell the variable, one access at a time: for a page, which tells the reads too.
use super::reasons::Why;
use machhurel::{known, visit, Event, Known, Refusal, Verdict, Watch, LOG_BYTES};

/// An access that touched the variable.
#[derive(Clone, Copy, Debug, PartialEq, Eq)]
pub(super) struct Touch {
    pub(super) record: u64,
    pub(super) opcode: u16,
    /// The register file's rip, where it is known.
    pub(super) rip: Option<u64>,
    pub(super) address: u64,
    pub(super) size: u8,
    /// Bit i for byte i of the variable.
    pub(super) bytes: u8,
}

/// What befell the variable, or may have.
#[derive(Clone, Copy, Debug, PartialEq, Eq)]
pub(super) enum Moment {
    Part(Touch),
    Whole(Touch),
    Read(Touch),
    /// A read at an unknown address.
    ReadSomewhere,
    /// A record that may have written it.
    Hidden(u64, Why),
}

/// A record and the register file before it.
pub(super) struct Pair<'a> {
    pub(super) number: u64,
    pub(super) opcode: u16,
    pub(super) record: &'a [u8],
    pub(super) file: &'a [u8],
}

impl Pair<'_> {
    /// What the pair did to the variable of a watch, in the order of its log.
    pub(super) fn moments(&self, watch: &Watch, moments: &mut Vec<Moment>) {
        let mut log = [0; LOG_BYTES];
        let visited = visit(self.record, self.file, &mut log, 0);
        let log = match visited.and_then(|n| log.get(..n).ok_or(Refusal::Room { needed: n })) {
            Ok(log) => log,
            Err(refusal) => {
                let why = Why::Refused(refusal.of_opcode(self.opcode));
                moments.push(Moment::Hidden(self.number, why));
                return;
            }
        };
        for (event, named) in watch.names(log).flatten() {
            moments.extend(match named.verdict {
                Verdict::PartTouched => self.touch(&event, named.touched).map(Moment::Part),
                Verdict::WholeTouched => self.touch(&event, named.touched).map(Moment::Whole),
                Verdict::AddressUnknown => Some(Moment::Hidden(self.number, Why::Unknown)),
                Verdict::NoneTouched => None,
                Verdict::NoWrite => self.read(&event, watch),
            });
        }
    }

    fn read(&self, event: &Event, watch: &Watch) -> Option<Moment> {
        match (event, watch.reached(event)) {
            (Event::MemoryRead { address: None, .. }, _) => Some(Moment::ReadSomewhere),
            (_, 0) => None,
            (_, bytes) => self.touch(event, bytes).map(Moment::Read),
        }
    }

    fn touch(&self, event: &Event, bytes: u8) -> Option<Touch> {
        match *event {
            Event::MemoryRead { address, size } | Event::MemoryWrite { address, size } => {
                Some(Touch {
                    record: self.number,
                    opcode: self.opcode,
                    rip: known(self.file, Known::Rip),
                    address: address?,
                    size,
                    bytes,
                })
            }
            Event::RegisterRead(_) | Event::RegisterWrite(_) => None,
        }
    }
}
