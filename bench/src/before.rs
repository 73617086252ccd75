//! The library of an earlier state, through its C interface: see build.rs.

use answers::expected::LOG_BYTES;

extern "C" {
    fn before_visit(
        record: *const u8,
        record_len: usize,
        file: *const u8,
        file_len: usize,
        log: *mut u8,
        log_len: usize,
        start: usize,
    ) -> u64;
}

/// The log's length; 0 where the record is refused.
pub fn visit(record: &[u8], file: &[u8], log: &mut [u8; LOG_BYTES]) -> usize {
    // SAFETY: each pointer and length are those of a slice.
    let answer = unsafe {
        before_visit(record.as_ptr(), record.len(), file.as_ptr(), file.len(), log.as_mut_ptr(), log.len(), 0)
    };
    (answer >> 32) as usize
}
