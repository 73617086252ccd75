//! Visits the same records by the given Rust and by the library, in interleaved rounds, and prints medians of the processor's time.
//!
//! `bench [--records N] [--rounds R] [--seed S]` compares, each side by single calls, and then single calls with blocks of records.
//!
//! `bench --count rust|before|ours|watch|append|block|none --input mixed|everyday|indexed` runs one side once, for a tool that
//! counts instructions: `watch` steps a watch over the pairs, `append` appends them to a session, `block` visits blocks of records
//! (and `blocks-made` only makes these), `none` makes the input and visits nothing. `before` is there where the bench was built
//! with MACHHUREL_BEFORE: see build.rs.

#[cfg(before)]
mod before;
mod blocks;
mod everyday;
mod forms;
mod indexed;
mod inputs;
mod ours;
mod theirs;

use std::hint::black_box;
use std::os::raw::c_long;

use answers::expected::LOG_BYTES;
use inputs::Input;

extern "C" {
    /// The processor's time that this process took, in millionths of a second: other work on the machine counts little.
    fn clock() -> c_long;
}

/// Seconds of the processor's time.
fn now() -> f64 {
    // SAFETY: it takes nothing and only answers.
    unsafe { clock() as f64 / 1e6 }
}

type Visit = fn(&[u8], &[u8], &mut [u8; LOG_BYTES]) -> usize;

/// Who visits, by name: the given Rust comes first.
const SIDES: &[(&str, Visit)] = &[
    ("rust", theirs::visit),
    #[cfg(before)]
    ("before", before::visit),
    ("ours", ours::visit),
];

const INPUTS: [(&str, fn(u64, usize) -> Input); 3] =
    [("mixed", inputs::mixed), ("everyday", everyday::input), ("indexed", indexed::input)];

/// One pass over records and their files: the bytes of all logs, added up.
fn pass<'a>(pairs: impl Iterator<Item = (&'a [u8], &'a [u8])>, visit: Visit) -> usize {
    let mut log = [0u8; LOG_BYTES];
    let mut total = 0;
    for (record, file) in pairs {
        total += visit(black_box(record), black_box(file), &mut log);
        black_box(&log);
    }
    total
}

fn median(mut times: Vec<f64>) -> f64 {
    times.sort_by(|a, b| a.partial_cmp(b).expect("times are numbers"));
    times[times.len() / 2]
}

/// Panics unless every side of the library writes for every record the log that document 02 makes of the given Rust's.
fn assert_same_logs(input: &Input) {
    for (number, (record, file)) in input.pairs().enumerate() {
        let expected = theirs::corrected(record, file);
        for (side, visit) in &SIDES[1..] {
            let mut log = [0u8; LOG_BYTES];
            let length = visit(record, file, &mut log);
            assert!(log[..length] == expected, "record {number}: {side} has another log");
        }
    }
}

fn compare(name: &str, input: &Input, rounds: usize) {
    assert_same_logs(input);
    let mut times = vec![Vec::new(); SIDES.len()];
    for _ in 0..rounds {
        for ((_, visit), times) in SIDES.iter().zip(&mut times) {
            let begun = now();
            black_box(pass(input.pairs(), *visit));
            times.push(now() - begun);
        }
    }
    let records = input.len();
    println!("{name}: {records} records, the logs are the same on every record");
    let medians: Vec<f64> = times.into_iter().map(|times| median(times) / records as f64 * 1e9).collect();
    for ((side, _), median) in SIDES.iter().zip(&medians) {
        println!("    {side}: {median:.1} ns a record, {:.2} of the given Rust", median / medians[0]);
    }
}

fn argument(name: &str) -> Option<String> {
    let mut words = std::env::args().skip_while(|word| word != name);
    words.next().and_then(|_| words.next())
}

fn main() {
    let number = |name: &str, usual: u64| argument(name).map_or(usual, |word| word.parse().expect("a number"));
    let records = number("--records", 1_000_000) as usize;
    let seed = number("--seed", 1);
    if let Some(side) = argument("--count") {
        let wanted = argument("--input").unwrap_or("mixed".to_string());
        let (_, made) = INPUTS.iter().find(|(name, _)| *name == wanted).expect("mixed, everyday or indexed");
        let input = made(seed, records);
        let total = match SIDES.iter().find(|(name, _)| *name == side) {
            Some((_, visit)) => pass(input.pairs(), *visit),
            None if side == "watch" => ours::watch(&input),
            None if side == "append" => ours::append(&input),
            None if side == "block" => blocks::of(&input).iter_mut().map(blocks::Block::visit).sum(),
            None if side == "blocks-made" => blocks::of(&input).len(),
            None => 0,
        };
        println!("{total}");
        return;
    }
    let rounds = number("--rounds", 11) as usize;
    println!("bench: seed {seed}, {rounds} interleaved rounds, medians");
    for (name, made) in INPUTS {
        let input = made(seed, records);
        compare(name, &input, rounds);
        blocks::compare(name, &input, rounds);
    }
}
