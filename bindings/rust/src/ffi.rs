//! The C interface itself, for callers that want the bits of an answer: include/machhurel.h says which bits hold what.
//!
//! Each pointer and length must be those of one slice, a pointer alone that of one number, and a watch ten words, a session three, a
//! sheet 99, a reader 48, that nobody else writes; that is all that a call asks.
#![allow(missing_docs)]

extern "C" {
    pub fn machhurel_visit(
        record: *const u8,
        record_len: usize,
        file: *const u8,
        file_len: usize,
        log: *mut u8,
        log_len: usize,
        start: usize,
    ) -> u64;
    pub fn machhurel_listing(
        record: *const u8,
        record_len: usize,
        out: *mut u8,
        out_len: usize,
        start: usize,
    ) -> u64;
    pub fn machhurel_digest(record: *const u8, record_len: usize) -> u64;
    pub fn machhurel_privilege(record: *const u8, record_len: usize) -> u64;
    pub fn machhurel_exceptions(record: *const u8, record_len: usize) -> u64;
    pub fn machhurel_event(log: *const u8, log_len: usize, at: usize) -> u64;
    pub fn machhurel_difference(
        first: *const u8,
        first_len: usize,
        second: *const u8,
        second_len: usize,
        at: *mut u64,
    ) -> u64;
    pub fn machhurel_block(
        records: *const u8,
        records_len: usize,
        each: usize,
        file: *const u8,
        file_len: usize,
        log: *mut u8,
        log_len: usize,
        start: usize,
        answers: *mut u8,
        answers_len: usize,
    ) -> u64;
    pub fn machhurel_append(
        session: *mut [u64; 3],
        record: *const u8,
        record_len: usize,
        file: *const u8,
        file_len: usize,
        log: *mut u8,
        log_len: usize,
    ) -> u64;
    pub fn machhurel_reset(session: *mut [u64; 3]) -> u64;
    pub fn machhurel_reader_new(reader: *mut [u64; 48]) -> u64;
    pub fn machhurel_reader_read(
        reader: *mut [u64; 48],
        chunk: *const u8,
        chunk_len: usize,
        log: *mut u8,
        log_len: usize,
        start: usize,
        taken: *mut u64,
    ) -> u64;
    pub fn machhurel_reader_close(reader: *mut [u64; 48]) -> u64;
    pub fn machhurel_watch_new(watch: *mut [u64; 10], address: u64, length: u64) -> u64;
    pub fn machhurel_watch_step(
        watch: *mut [u64; 10],
        record: *const u8,
        record_len: usize,
        file: *const u8,
        file_len: usize,
    ) -> u64;
    pub fn machhurel_sheet_new(sheet: *mut [u64; 99], address: u64, length: u64) -> u64;
    pub fn machhurel_sheet_add(sheet: *mut [u64; 99], log: *const u8, log_len: usize) -> u64;
    pub fn machhurel_verdict(
        address: u64,
        length: u64,
        log: *const u8,
        log_len: usize,
        at: usize,
    ) -> u64;
    pub fn machhurel_fetch_judge(
        records: *const u8,
        records_len: usize,
        each: usize,
        set: u32,
    ) -> u64;
    pub fn machhurel_fetch_propose(records: *const u8, records_len: usize, each: usize) -> u64;
}
