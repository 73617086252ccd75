//! `machhurel summary`: counts over a trace.
mod counts;
mod most;
mod rows;

use crate::arguments::{Arguments, Instead};
use crate::choice::FORMAT;
use crate::command::{written, Command};
use crate::format::Kind;
use crate::help;
use crate::output::Output;
use crate::source::Source;
use crate::status::Status;
use crate::walk::Walk;
use counts::Counts;

pub(crate) const COMMAND: Command = Command {
    name: "summary",
    operands: "[TRACE..]",
    purpose: "counts by refusal, kind of event, bank and size, and the addresses written most",
    details: "\
Counts over a trace: records by refusal; events by kind; registers read and written by bank; memory read and written by size;
and the ten addresses at which most writes began. Each count is exact. Where writes began at more addresses than memory is set
aside for, those of the addresses are given as at least and at most: no other address was written more often than the last
line's at most.
",
    choices: &[FORMAT],
    closing: help::common,
    run,
};

fn run(arguments: &Arguments, output: &mut Output) -> Result<Status, Instead> {
    let kind = Kind::of(arguments);
    output
        .bytes
        .extend_from_slice(rows::header(kind).as_bytes());
    let mut status = Status::Done;
    for source in Source::named(&arguments.operands) {
        match Walk::open(&source, false) {
            None => status = Status::Failed,
            Some(mut walk) => {
                let mut counts = Counts::new();
                while let Some(step) = walk.step() {
                    counts.add(&step);
                    walk.complain();
                }
                status = status.max(walk.status());
                rows::put(output, kind, &walk, &counts);
                let result = output.flush();
                if result.is_err() {
                    return Ok(written(result, status));
                }
            }
        }
    }
    Ok(status)
}
