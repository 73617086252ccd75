//! What is counted.
use super::most::Most;
use crate::walk::Step;
use machhurel::{Event, Events, Refusal, BANK_COUNT};

/// How often something was read, and written.
#[derive(Clone, Copy, Default, Debug, PartialEq, Eq)]
pub(super) struct Both {
    pub(super) reads: u64,
    pub(super) writes: u64,
}

impl Both {
    fn add(&mut self, write: bool) {
        let count = if write {
            &mut self.writes
        } else {
            &mut self.reads
        };
        *count = count.saturating_add(1);
    }
}

/// The counts of a trace.
pub(super) struct Counts {
    pub(super) files: u64,
    pub(super) bad_files: u64,
    /// Records by the number of their refusal, with a reason; 0 for those that were not refused.
    pub(super) refused: [(u64, &'static str); Refusal::MOST as usize + 1],
    pub(super) registers: Both,
    pub(super) memory: Both,
    pub(super) unknown: Both,
    pub(super) banks: [Both; BANK_COUNT],
    /// By size; a size of 1 to 64 bytes.
    pub(super) sizes: [Both; 65],
    pub(super) most: Most,
}

impl Counts {
    pub(super) fn new() -> Counts {
        Counts {
            files: 0,
            bad_files: 0,
            refused: [(0, ""); Refusal::MOST as usize + 1],
            registers: Both::default(),
            memory: Both::default(),
            unknown: Both::default(),
            banks: [Both::default(); BANK_COUNT],
            sizes: [Both::default(); 65],
            most: Most::new(),
        }
    }

    pub(super) fn add(&mut self, step: &Step<'_>) {
        match step {
            Step::File => self.files = self.files.saturating_add(1),
            Step::BadFile(_) => self.bad_files = self.bad_files.saturating_add(1),
            Step::Record { log, .. } => match log {
                Err(refusal) => self.refuse(refusal.number(), refusal.reason()),
                Ok(log) => {
                    self.refuse(0, "");
                    for event in Events::new(log) {
                        match event {
                            Ok(event) => self.count(&event),
                            Err(refusal) => self.refuse(refusal.number(), refusal.reason()),
                        }
                    }
                }
            },
        }
    }

    fn refuse(&mut self, number: u8, reason: &'static str) {
        if let Some((count, words)) = self.refused.get_mut(usize::from(number)) {
            *count = count.saturating_add(1);
            *words = reason;
        }
    }

    fn count(&mut self, event: &Event) {
        let write = event.is_write();
        match event {
            Event::RegisterRead(register) | Event::RegisterWrite(register) => {
                self.registers.add(write);
                if let Some(bank) = self.banks.get_mut(usize::from(register.bank)) {
                    bank.add(write);
                }
            }
            Event::MemoryRead { address, size } | Event::MemoryWrite { address, size } => {
                if let Some(count) = self.sizes.get_mut(usize::from(*size)) {
                    count.add(write);
                }
                match address {
                    None => self.unknown.add(write),
                    Some(address) => {
                        self.memory.add(write);
                        if write {
                            self.most.add(*address);
                        }
                    }
                }
            }
        }
    }
}
