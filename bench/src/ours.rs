//! The library, through its C interface.
use answers::expected::LOG_BYTES;
use std::hint::black_box;

use machhurel::ffi::machhurel_visit;
use machhurel::{Session, Watch};

use crate::inputs::Input;

/// The log's length; 0 where the record is refused.
pub fn visit(record: &[u8], file: &[u8], log: &mut [u8; LOG_BYTES]) -> usize {
    // SAFETY: each pointer and length are those of a slice.
    let answer = unsafe {
        machhurel_visit(record.as_ptr(), record.len(), file.as_ptr(), file.len(), log.as_mut_ptr(), log.len(), 0)
    };
    (answer >> 32) as usize
}

/// One watch over all pairs: its write events at known addresses. The input has no more pairs than a watch takes.
pub fn watch(input: &Input) -> usize {
    let mut watch = Watch::new(0x1000, 8).expect("a length of 8");
    for (record, file) in input.pairs() {
        watch.step(black_box(record), black_box(file)).expect("a pair within the limit");
    }
    let tally = watch.tally();
    (tally.none + tally.part + tally.whole) as usize
}

/// One session over all pairs, in a buffer with room for every log: its events.
pub fn append(input: &Input) -> usize {
    let mut buffer = vec![0; LOG_BYTES * input.len()];
    let mut session = Session::new(&mut buffer);
    for (record, file) in input.pairs() {
        let _complex = session.append(black_box(record), black_box(file));
    }
    session.events() as usize
}
