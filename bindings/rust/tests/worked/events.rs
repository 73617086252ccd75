//! The event call: 0-7 number, 255 finished, 32-63 the event's length in bytes.
use crate::rows::report;
use crate::visits::P2_LOG;

fn row(name: &str, log: &[u8], at: usize, answer: u64) {
    report(
        name,
        crate::common::calls::machhurel_event(log, at) == answer,
    );
}

#[test]
fn whole() {
    row("event at 0", &P2_LOG, 0, 0x03_0000_0000);
    row("event at 3", &P2_LOG, 3, 0x03_0000_0000);
    row("event at 6", &P2_LOG, 6, 0x0A_0000_0000);
    row("event at 16", &P2_LOG, 16, 0x03_0000_0000);
    row("event at 19", &P2_LOG, 19, 0x0A_0000_0000);
    row("event at 29", &P2_LOG, 29, 0x03_0000_0000);
}

#[test]
fn ends() {
    row("event at the end", &P2_LOG, 32, 255);
    row("event past the end", &P2_LOG, 33, 255);
    row("event at the largest place", &P2_LOG, usize::MAX, 255);
    row("event in no log", b"", 0, 255);
}

/// Kind and length come before contents.
#[test]
fn kinds() {
    row("event of kind 0", b"\x00\x00\x00", 0, 1);
    row("event of kind 7", b"\x07\x00\x00", 0, 1);
    row("event cut short", b"\x01\x0D", 0, 1);
    row("event of memory cut short", b"\x03\0\0\0\0\0\0\0\0", 0, 1);
}

#[test]
fn contents() {
    row("event of bank 14", b"\x01\x0E\x00", 0, 2);
    row("event of fs", b"\x02\x0D\x00", 0, 0x03_0000_0000);
    row("event of gs", b"\x01\x0D\x01", 0, 0x03_0000_0000);
    row("event of bank 13 number 2", b"\x01\x0D\x02", 0, 2);
    row("event of Q 16", b"\x02\x00\x10", 0, 2);
    row("event of Q 15", b"\x02\x00\x0F", 0, 0x03_0000_0000);
    row("event of size 0", b"\x05\x00", 0, 2);
    row("event of size 64", b"\x06\x40", 0, 0x02_0000_0000);
    row("event of size 65", b"\x04\0\0\0\0\0\0\0\0\x41", 0, 2);
}
