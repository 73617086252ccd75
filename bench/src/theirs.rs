//! The given Rust: the record and the file parsed, and visited by a visitor that writes the same log into the same buffer. It looks at no
//! field for refusals 1 to 3, and does not cut addresses (T-02), which is to its advantage.

use answers::asked::{self, LogVisitor, Sink, Visited};
use answers::expected::LOG_BYTES;
use answers::record::Record;
use answers::register_file::RegisterFile;

/// The buffer that the library is lent too.
struct Buffer<'a> {
    bytes: &'a mut [u8; LOG_BYTES],
    at: usize,
}

impl Sink for Buffer<'_> {
    fn put<const N: usize>(&mut self, bytes: [u8; N]) {
        self.bytes[self.at..self.at + N].copy_from_slice(&bytes);
        self.at += N;
    }
}

/// The log's length; 0 where the instruction is complex.
pub fn visit(record: &[u8], file: &[u8], log: &mut [u8; LOG_BYTES]) -> usize {
    let record = Record::from_bytes(record);
    let file = RegisterFile::from_bytes(file);
    let mut visitor = LogVisitor { file: &file, log: Buffer { bytes: log, at: 0 }, uncut: usize::MAX };
    match record.behavior().visit_accesses(&mut visitor) {
        Ok(()) => visitor.log.at,
        Err(_) => 0,
    }
}

/// The log that document 02 makes of the given Rust's; empty where the instruction is complex.
pub fn corrected(record: &[u8], file: &[u8]) -> Vec<u8> {
    match asked::visit(&Record::from_bytes(record), &RegisterFile::from_bytes(file)) {
        Visited::Log(log) => log,
        _ => Vec::new(),
    }
}
