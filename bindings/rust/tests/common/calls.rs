//! The C interface with slices, so that a test sees every bit of an answer.
use machhurel::ffi;

pub fn machhurel_visit(record: &[u8], file: &[u8], log: &mut [u8], start: usize) -> u64 {
    // SAFETY: here and below each pointer and length are those of one slice, array or number.
    unsafe {
        ffi::machhurel_visit(
            record.as_ptr(),
            record.len(),
            file.as_ptr(),
            file.len(),
            log.as_mut_ptr(),
            log.len(),
            start,
        )
    }
}

pub fn machhurel_listing(record: &[u8], out: &mut [u8], start: usize) -> u64 {
    unsafe {
        ffi::machhurel_listing(
            record.as_ptr(),
            record.len(),
            out.as_mut_ptr(),
            out.len(),
            start,
        )
    }
}

pub fn machhurel_digest(record: &[u8]) -> u64 {
    unsafe { ffi::machhurel_digest(record.as_ptr(), record.len()) }
}

pub fn machhurel_privilege(record: &[u8]) -> u64 {
    unsafe { ffi::machhurel_privilege(record.as_ptr(), record.len()) }
}

pub fn machhurel_exceptions(record: &[u8]) -> u64 {
    unsafe { ffi::machhurel_exceptions(record.as_ptr(), record.len()) }
}

pub fn machhurel_event(log: &[u8], at: usize) -> u64 {
    unsafe { ffi::machhurel_event(log.as_ptr(), log.len(), at) }
}

pub fn machhurel_difference(first: &[u8], second: &[u8], at: &mut u64) -> u64 {
    unsafe {
        ffi::machhurel_difference(
            first.as_ptr(),
            first.len(),
            second.as_ptr(),
            second.len(),
            at,
        )
    }
}

pub fn machhurel_block(
    records: &[u8],
    each: usize,
    file: &[u8],
    log: &mut [u8],
    start: usize,
    answers: &mut [u8],
) -> u64 {
    unsafe {
        ffi::machhurel_block(
            records.as_ptr(),
            records.len(),
            each,
            file.as_ptr(),
            file.len(),
            log.as_mut_ptr(),
            log.len(),
            start,
            answers.as_mut_ptr(),
            answers.len(),
        )
    }
}

pub fn machhurel_append(session: &mut [u64; 3], record: &[u8], file: &[u8], log: &mut [u8]) -> u64 {
    unsafe {
        ffi::machhurel_append(
            session,
            record.as_ptr(),
            record.len(),
            file.as_ptr(),
            file.len(),
            log.as_mut_ptr(),
            log.len(),
        )
    }
}

pub fn machhurel_reset(session: &mut [u64; 3]) -> u64 {
    unsafe { ffi::machhurel_reset(session) }
}

pub fn machhurel_reader_new(reader: &mut [u64; 48]) -> u64 {
    unsafe { ffi::machhurel_reader_new(reader) }
}

pub fn machhurel_reader_read(
    reader: &mut [u64; 48],
    chunk: &[u8],
    log: &mut [u8],
    start: usize,
    taken: &mut u64,
) -> u64 {
    unsafe {
        ffi::machhurel_reader_read(
            reader,
            chunk.as_ptr(),
            chunk.len(),
            log.as_mut_ptr(),
            log.len(),
            start,
            taken,
        )
    }
}

pub fn machhurel_reader_close(reader: &mut [u64; 48]) -> u64 {
    unsafe { ffi::machhurel_reader_close(reader) }
}

pub fn machhurel_watch_new(watch: &mut [u64; 10], address: u64, length: u64) -> u64 {
    unsafe { ffi::machhurel_watch_new(watch, address, length) }
}

pub fn machhurel_watch_step(watch: &mut [u64; 10], record: &[u8], file: &[u8]) -> u64 {
    unsafe {
        ffi::machhurel_watch_step(
            watch,
            record.as_ptr(),
            record.len(),
            file.as_ptr(),
            file.len(),
        )
    }
}

pub fn machhurel_verdict(address: u64, length: u64, log: &[u8], at: usize) -> u64 {
    unsafe { ffi::machhurel_verdict(address, length, log.as_ptr(), log.len(), at) }
}

pub fn machhurel_sheet_new(sheet: &mut [u64; 99], address: u64, length: u64) -> u64 {
    unsafe { ffi::machhurel_sheet_new(sheet, address, length) }
}

pub fn machhurel_sheet_add(sheet: &mut [u64; 99], log: &[u8]) -> u64 {
    unsafe { ffi::machhurel_sheet_add(sheet, log.as_ptr(), log.len()) }
}

pub fn machhurel_fetch_judge(records: &[u8], each: usize, set: u32) -> u64 {
    unsafe { ffi::machhurel_fetch_judge(records.as_ptr(), records.len(), each, set) }
}

pub fn machhurel_fetch_propose(records: &[u8], each: usize) -> u64 {
    unsafe { ffi::machhurel_fetch_propose(records.as_ptr(), records.len(), each) }
}
