//! A block of records in one call against as many single calls, all under one register file.
use std::hint::black_box;

use machhurel::ffi::machhurel_block;
use machhurel::{ANSWER_BYTES, BLOCK_RECORDS, LOG_BYTES, RECORD_BYTES};

use crate::inputs::Input;
use crate::{median, now, pass, SIDES};

/// Records behind one another, as a block has them, and the file of all.
pub struct Block {
    records: Vec<u8>,
    file: Vec<u8>,
    log: Vec<u8>,
    answers: Vec<u8>,
}

/// The input in blocks, each under the file of its first pair.
pub fn of(input: &Input) -> Vec<Block> {
    let pairs: Vec<_> = input.pairs().collect();
    let made = |pairs: &[(&[u8], &[u8])]| Block {
        records: pairs.iter().flat_map(|(record, _)| record.iter().copied()).collect(),
        file: pairs[0].1.to_vec(),
        log: vec![0; LOG_BYTES * pairs.len()],
        answers: vec![0; ANSWER_BYTES * pairs.len()],
    };
    pairs.chunks(BLOCK_RECORDS).map(made).collect()
}

impl Block {
    /// Each record with the file of all.
    fn pairs(&self) -> impl Iterator<Item = (&[u8], &[u8])> {
        self.records.chunks(RECORD_BYTES).map(|record| (record, &self.file[..]))
    }

    /// One call: the bytes of all logs.
    pub fn visit(&mut self) -> usize {
        let Block { records, file, log, answers } = self;
        // SAFETY: each pointer and length are those of a slice.
        let answer = unsafe {
            machhurel_block(
                black_box(records.as_ptr()),
                records.len(),
                RECORD_BYTES,
                black_box(file.as_ptr()),
                file.len(),
                log.as_mut_ptr(),
                log.len(),
                0,
                answers.as_mut_ptr(),
                answers.len(),
            )
        };
        black_box(&self.log);
        (answer >> 32) as usize
    }
}

/// Times of the sides' single calls and of the block's, in interleaved rounds; a round goes over all blocks.
pub fn compare(name: &str, input: &Input, rounds: usize) {
    let mut blocks = of(input);
    let mut times = vec![Vec::new(); SIDES.len() + 1];
    for _ in 0..rounds {
        let mut totals = Vec::new();
        for ((_, visit), times) in SIDES.iter().zip(&mut times) {
            let begun = now();
            totals.push(pass(blocks.iter().flat_map(Block::pairs), *visit));
            times.push(now() - begun);
        }
        let begun = now();
        totals.push(blocks.iter_mut().map(Block::visit).sum());
        times[SIDES.len()].push(now() - begun);
        assert!(totals.iter().all(|total| *total == totals[0]), "the logs are not equally long");
    }
    println!("{name}, blocks of {BLOCK_RECORDS} records under one file: {} records", input.len());
    let medians: Vec<f64> = times.into_iter().map(|times| median(times) / input.len() as f64 * 1e9).collect();
    for ((side, _), median) in SIDES.iter().zip(&medians) {
        println!("    {side}, single calls: {median:.1} ns a record, {:.2} of the given Rust", median / medians[0]);
    }
    let [first, .., single, block] = medians[..] else { return };
    println!(
        "    ours, a block: {block:.1} ns a record, {:.2} of the given Rust, {:.2} of our single calls",
        block / first,
        block / single
    );
}
