//! One call of the library under test, held against what is expected of it.

use answers::input::{Call, Input};

use crate::lent::Lent;
use crate::library;

pub struct Judge {
    subject: Lent,
    file: Lent,
    buffer: Lent,
    turn: usize,
}

impl Judge {
    pub fn new() -> Judge {
        Judge { subject: Lent::new(), file: Lent::new(), buffer: Lent::new(), turn: 0 }
    }

    /// What is wrong with the library's outcome, if anything.
    pub fn fault(&mut self, input: &Input, answer: u64, written: &[u8]) -> Option<String> {
        self.turn = self.turn.wrapping_add(1);
        self.subject.hold(self.turn, input.subject);
        let takes_file = input.call == Call::Visit;
        if takes_file {
            self.file.hold(self.turn, input.file);
        }
        let lends = matches!(input.call, Call::Visit | Call::Listing);
        if lends {
            self.buffer.fill(self.turn, input.room);
        }
        let got = library::answer(input.call, &self.subject, &self.file, &mut self.buffer, input.start);
        if got != answer {
            return Some(format!("it answers 0x{got:016X}"));
        }
        let wrong_buffer = lends.then(|| self.buffer.wrong_byte(input.start, written)).flatten();
        let wrong_file = takes_file.then(|| self.file.wrong_byte(0, input.file)).flatten();
        let wrong_subject = self.subject.wrong_byte(0, input.subject);
        wrong_buffer
            .map(|how| format!("in the lent buffer {how}"))
            .or(wrong_subject.map(|how| format!("in the record or log {how}")))
            .or(wrong_file.map(|how| format!("in the register file {how}")))
    }
}
