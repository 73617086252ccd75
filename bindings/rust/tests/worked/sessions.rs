//! A log session, call by call: its answer and its three words, and what a reading of the whole log from its start finds.
use crate::common::calls::machhurel_append;
use crate::common::calls::machhurel_event;
use crate::common::calls::machhurel_reset;
use crate::rows::report;
use crate::samples::knowing;
use crate::samples::one;
use crate::samples::operands;
use crate::samples::plain;
use crate::samples::unknown;
use crate::samples::with;
use crate::samples::BEHAVIOR;
use crate::samples::DISP;
use crate::samples::MEM_DISP;
use crate::samples::NUMBER_1;
use crate::samples::REG_RRR;
use machhurel::{FILE_BYTES, RECORD_BYTES};

/// The count of an answer: bytes written, or needed after 7.
const BYTES: u64 = 1 << 32;

/// An addition to 8 bytes at rbx + 8: six events, two of them of memory. 32 bytes where rbx is known, 16 where it is not.
fn adding() -> [u8; RECORD_BYTES] {
    let bytes = with(operands(2, MEM_DISP, REG_RRR, 0x07), BEHAVIOR, 0x08);
    with(with(bytes, NUMBER_1, 3), DISP, 8)
}

fn known() -> [u8; FILE_BYTES] {
    knowing(unknown(), 3, 0x1000)
}

/// The events of a log and those of kinds 5 and 6, read from its start by the event call.
fn read_whole(log: &[u8]) -> (u64, u64) {
    let (mut at, mut events, mut unknown) = (0, 0, 0);
    loop {
        let found = machhurel_event(log, at);
        if found & 0xFF != 0 {
            assert_eq!((found, at), (255, log.len()), "the log reads whole");
            return (events, unknown);
        }
        events += 1;
        unknown += u64::from(log[at] >= 5);
        at += (found >> 32) as usize;
    }
}

/// A session and its buffer.
struct Held {
    words: [u64; 3],
    log: [u8; 52],
}

impl Held {
    fn is_counted(&self, after: [u64; 3]) -> bool {
        let whole = read_whole(&self.log[..self.words[0] as usize]);
        self.words == after && (after[1], after[2]) == whole
    }

    fn append(&mut self, name: &str, record: &[u8], file: &[u8], answer: u64, after: [u64; 3]) {
        let found = machhurel_append(&mut self.words, record, file, &mut self.log);
        report(name, found == answer && self.is_counted(after));
    }

    fn reset(&mut self, name: &str) {
        let before = self.log;
        let found = machhurel_reset(&mut self.words);
        report(
            name,
            found == 0 && self.log == before && self.is_counted([0; 3]),
        );
    }
}

#[test]
fn a_session() {
    let mut held = Held {
        words: [9; 3],
        log: [0xEE; 52],
    };
    held.reset("any words");
    held.append("known", &adding(), &known(), 32 * BYTES, [32, 6, 0]);
    held.append("unknown", &adding(), &unknown(), 16 * BYTES, [48, 12, 2]);
    // refused for room, with the bytes that this append needs; a shorter log has room
    held.append("no room", &adding(), &known(), 7 + 32 * BYTES, [48, 12, 2]);
    let shorter = operands(1, REG_RRR, 0, 0x01);
    held.append("shorter", &shorter, &known(), 3 * BYTES, [51, 13, 2]);
    held.append("empty", &plain(), &known(), 0, [51, 13, 2]);
    // refused otherwise
    held.append("no record", &[], &known(), 1, [51, 13, 2]);
    held.append("no file", &adding(), &[], 3, [51, 13, 2]);
    let complex = one(24, 0x20, MEM_DISP);
    held.append("complex", &complex, &known(), 4 + 0x1800, [51, 13, 2]);
    held.append("full", &adding(), &unknown(), 7 + 16 * BYTES, [51, 13, 2]);
    // the room is used again
    held.reset("emptied");
    held.append("again", &adding(), &unknown(), 16 * BYTES, [16, 6, 2]);
    held.append("behind", &adding(), &known(), 32 * BYTES, [48, 12, 2]);
}
