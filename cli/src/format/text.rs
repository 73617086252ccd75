//! Lines for people: `12  0x401136  write [0x0000000000001008] 8 bytes`.
use super::{put, Format};
use crate::line::{Place, What};
use machhurel::digits::{Decimal, Hex};
use std::fmt;

/// Words behind bytes, without the detour of a formatter: most of a long trace's text is written here.
struct Words<'a>(&'a mut Vec<u8>);

impl fmt::Write for Words<'_> {
    fn write_str(&mut self, words: &str) -> fmt::Result {
        self.0.extend_from_slice(words.as_bytes());
        Ok(())
    }
}

pub(super) struct Text {
    /// Whether each line names its trace.
    pub(super) several: bool,
}

impl Format for Text {
    fn place(&self, out: &mut Vec<u8>, place: &Place<'_>) {
        if self.several {
            out.extend_from_slice(place.trace.as_bytes());
            out.extend_from_slice(b"  ");
        }
        out.extend_from_slice(Decimal::of(place.record).as_bytes());
        match place.rip {
            Some(rip) => {
                out.extend_from_slice(b"  0x");
                out.extend_from_slice(Hex::short(rip).as_bytes());
                out.extend_from_slice(b"  ");
            }
            None => out.extend_from_slice(b"  -  "),
        }
    }

    fn what(&self, out: &mut Vec<u8>, what: &What) {
        match what {
            What::Event(event) => {
                // bytes in memory take any words
                let _ = event.say(&mut Words(out));
                out.push(b'\n');
            }
            What::Nothing => put!(out, "touches nothing\n"),
            What::Refused(refused) => put!(out, "{refused}\n"),
            What::BadFile(refusal) => {
                put!(out, "register file {refusal}; not used\n")
            }
        }
    }
}
