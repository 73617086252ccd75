//! Why an answer is not complete, in memory that does not grow with the trace.
use super::records::Records;
use machhurel::RefusedRecord;

/// So many reasons are told apart, and an unknown address always is.
const REASONS: usize = 32;

/// Why it is not known all that a record did.
#[derive(Clone, Copy, Debug, PartialEq, Eq)]
pub(super) enum Why {
    /// It stored at an unknown address.
    Unknown,
    /// It was refused.
    Refused(RefusedRecord),
}

/// The records that have a reason in common.
#[derive(Debug, PartialEq, Eq)]
pub(super) struct Reason {
    pub(super) why: Why,
    pub(super) records: Records,
}

/// What is only counted.
pub(super) struct Others {
    pub(super) words: &'static str,
    pub(super) count: u64,
    /// The first record of them, where there is one.
    pub(super) first: Option<u64>,
}

/// The reasons in the order in which they came.
pub(super) struct Reasons {
    pub(super) all: Vec<Reason>,
    /// Refused records beyond the reasons that are told apart.
    pub(super) others: Others,
}

impl Reasons {
    pub(super) fn new() -> Reasons {
        Reasons {
            all: Vec::new(),
            others: Others {
                words: "pairs refused with further opcodes, which `machhurel show` names",
                count: 0,
                first: None,
            },
        }
    }

    pub(super) fn add(&mut self, record: u64, why: Why) {
        if let Some(reason) = self.all.iter_mut().find(|reason| reason.why == why) {
            reason.records.add(record);
        } else if self.all.len() < REASONS || why == Why::Unknown {
            let mut records = Records::default();
            records.add(record);
            self.all.push(Reason { why, records });
        } else {
            self.others.first = self.others.first.or(Some(record));
            self.others.count = self.others.count.saturating_add(1);
        }
    }
}

#[cfg(test)]
mod tests {
    use super::*;
    use machhurel::Refusal;

    #[test]
    fn so_many_reasons_and_how_many_others() {
        let mut reasons = Reasons::new();
        for opcode in 0..100 {
            let why = Why::Refused(Refusal::Size.of_opcode(opcode));
            reasons.add(u64::from(opcode), why);
        }
        let others = |reasons: &Reasons| (reasons.others.count, reasons.others.first);
        assert_eq!(reasons.all.len(), REASONS);
        assert_eq!(others(&reasons), (68, Some(32)));
        // an unknown address is no refusal, and is never counted as one
        reasons.add(100, Why::Unknown);
        assert_eq!(reasons.all.len(), REASONS + 1);
        assert_eq!(others(&reasons), (68, Some(32)));
    }
}
