//! Compares the library under test with the oracle, in one process.
//!
//! `compare [--random N] [--seed S]`: the systematic families, then N random cases from the seed.
//! The last line is `compare: N cases, D differences`; the exit status is 0 exactly when D is 0 and
//! every refusal number occurred.

mod comparison;
mod counts;
mod judge;
mod lent;
mod library;
mod report;

use std::io::Write;
use std::process::ExitCode;
use std::time::Instant;

use answers::cases::random::{self, Random};
use answers::cases::{bases, kinds, logs, FAMILIES};
use comparison::Comparison;

struct Options {
    random: u64,
    seed: u64,
}

fn options() -> Result<Options, String> {
    let mut options = Options { random: 1_000_000, seed: 1 };
    let mut words = std::env::args().skip(1);
    while let Some(word) = words.next() {
        let place = match word.as_str() {
            "--random" => &mut options.random,
            "--seed" => &mut options.seed,
            _ => return Err(format!("unknown word {word}; usage: compare [--random N] [--seed S]")),
        };
        let number = words.next().ok_or(format!("{word} wants a number"))?;
        *place = number.parse().map_err(|_| format!("{word} wants a number, not {number}"))?;
    }
    Ok(options)
}

fn main() -> ExitCode {
    let options = match options() {
        Ok(options) => options,
        Err(words) => {
            eprintln!("{words}");
            return ExitCode::from(2);
        }
    };
    let mut comparison = Comparison::new();
    for family in &FAMILIES {
        timed(&mut comparison, family.name, |comparison| {
            let mut turn = 0;
            (family.each)(&mut |record, file| {
                comparison.pair(record, file);
                turn += 1;
                kinds::each(record, file, turn, &mut |record, file| comparison.pair(record, file));
            })
        });
    }
    timed(&mut comparison, "rooms and starts", every_room);
    timed(&mut comparison, "every event", |comparison| {
        logs::every_event(&mut |log, at| comparison.event(log, at));
    });
    let name = format!("{} random, seed {}", options.random, options.seed);
    timed(&mut comparison, &name, |comparison| random_cases(comparison, &options));

    let complete = comparison.counts.print();
    println!(
        "longest log {} bytes, {} events; longest listing {} bytes",
        comparison.longest_log, comparison.most_events, comparison.longest_listing
    );
    let (cases, differences) = (comparison.counts.cases(), comparison.counts.differences());
    println!("compare: {cases} cases, {differences} differences");
    if differences == 0 && complete {
        ExitCode::SUCCESS
    } else {
        ExitCode::FAILURE
    }
}

fn timed(comparison: &mut Comparison, name: &str, work: impl FnOnce(&mut Comparison)) {
    // The name first, so that it stands there if the library crashes.
    print!("{name:<50}");
    std::io::stdout().flush().expect("standard output takes the report");
    let (before, begun) = (comparison.counts.cases(), Instant::now());
    work(comparison);
    let cases = comparison.counts.cases() - before;
    println!("{cases:>12} cases{:>8.2} s", begun.elapsed().as_secs_f64());
}

/// Every base, and forms of it that are refused, with many rooms and starts.
fn every_room(comparison: &mut Comparison) {
    for base in bases::all() {
        let mut other_kind = base.record;
        other_kind.0[0] = 0;
        for record in [base.record, base.record.count(0), base.record.behavior(0x20), base.record.size(0), other_kind] {
            comparison.rooms(&record.0, &base.file);
            comparison.rooms(&record.0, &base.file[1..]);
        }
    }
}

fn random_cases(comparison: &mut Comparison, options: &Options) {
    let mut random = Random::new(options.seed);
    for turn in 0..options.random {
        let record = random::record(&mut random);
        let file = random::file(&mut random);
        comparison.pair(&record, &file);
        if turn % 4 == 1 {
            kinds::each(&record, &file, (turn / 4) as usize, &mut |record, file| comparison.pair(record, file));
        }
        if turn % 64 == 0 {
            comparison.rooms(&record, &file);
        }
        if turn % 4 == 0 {
            comparison.events(&random::log(&mut random));
        }
    }
}
