//! `machhurel difference`: where two logs part.
use crate::arguments::{Arguments, Instead};
use crate::command::Command;
use crate::format::put;
use crate::output::{complain, reason, Output};
use crate::source::Source;
use crate::status::Status;
use machhurel::{difference, Difference, Events, Refusal};
use std::io::Read;

pub(crate) const COMMAND: Command = Command {
    name: "difference",
    operands: "A B",
    purpose: "where two logs part",
    details: "\
Compares two files that hold logs: the bytes of events, one after another, as a visit writes them. Says that they are equal, or
at which byte of B and with which event they part, and what each has there. Bytes and events are counted from 0. Both logs are
read whole before they are compared. - is standard input, for one of the two.

Exit status of difference: 0 the logs are equal; 3 they differ; 1 a log could not be read, is longer than 1 GB, or is refused,
or output could not be written; 2 wrong usage. A refused log is named on standard error, with the byte and the event.
",
    choices: &[],
    closing: String::new,
    run,
};

/// No longer log is taken: it is held in memory.
const LONGEST: u64 = 1 << 30;

/// A log and the name of the file that held it.
struct Named {
    name: String,
    log: Vec<u8>,
}

fn run(arguments: &Arguments, output: &mut Output) -> Result<Status, Instead> {
    let (a, b) = match arguments.operands.as_slice() {
        [a, b] if a == "-" && b == "-" => {
            let words = "standard input cannot be both logs".to_string();
            return Err(Instead::Wrong(words));
        }
        [a, b] => (Source::of(a), Source::of(b)),
        _ => return Err(Instead::Wrong("expected two logs: A B".to_string())),
    };
    Ok(match (read(&a), read(&b)) {
        (Some(a), Some(b)) => compare(&a, &b, output),
        _ => Status::Failed,
    })
}

/// The bytes of a log. Where they cannot be read, that is said.
fn read(source: &Source) -> Option<Named> {
    let name = source.name();
    let mut log = Vec::new();
    let opened = source.open();
    let result = opened.and_then(|opened| {
        let mut bytes = opened.bytes.take(LONGEST.saturating_add(1));
        bytes.read_to_end(&mut log)
    });
    match result {
        Err(error) => {
            complain(format_args!("{name}: cannot be read: {}", reason(&error)));
            None
        }
        Ok(n) if n as u64 > LONGEST => {
            complain(format_args!("{name}: longer than {LONGEST} bytes"));
            None
        }
        Ok(_) => Some(Named { name, log }),
    }
}

fn compare(a: &Named, b: &Named, output: &mut Output) -> Status {
    match difference(&a.log, &b.log) {
        Err(refusal) => {
            say_refused(a, b, refusal);
            Status::Failed
        }
        Ok(Difference::Equal) => {
            let (events, bytes) = (Events::new(&b.log).count(), b.log.len());
            put!(&mut output.bytes, "equal: {events} events, {bytes} bytes\n");
            Status::Done
        }
        Ok(Difference::From(part)) => {
            put_parting(a, b, b.log.len().saturating_sub(part.len()), output);
            Status::Found
        }
    }
}

/// Equal events are equally long: the place is the same in both logs.
fn put_parting(a: &Named, b: &Named, at: usize, output: &mut Output) {
    let event = Events::new(b.log.get(..at).unwrap_or(&[])).count();
    let out = &mut output.bytes;
    put!(out, "different: byte {at} of {}, event {event}\n", b.name);
    for of in [a, b] {
        put!(out, "  {}: ", of.name);
        match Events::new(of.log.get(at..).unwrap_or(&[])).next() {
            None => put!(out, "the log ends\n"),
            Some(Ok(event)) => put!(out, "{event}\n"),
            Some(Err(refusal)) => put!(out, "{refusal}\n"),
        }
    }
}

/// Each log that does not read whole, with the place of its first bad event.
fn say_refused(a: &Named, b: &Named, refusal: Refusal) {
    let mut said = false;
    for of in [a, b] {
        if let Some((at, event, refusal)) = first_bad(&of.log) {
            said = true;
            complain(format_args!(
                "{}: byte {at}, event {event}: {refusal}",
                of.name
            ));
        }
    }
    if !said {
        complain(format_args!("{}, {}: {refusal}", a.name, b.name));
    }
}

fn first_bad(log: &[u8]) -> Option<(usize, u64, Refusal)> {
    let mut events = Events::new(log);
    let mut number = 0_u64;
    loop {
        let at = events.at();
        match events.next()? {
            Ok(_) => number = number.saturating_add(1),
            Err(refusal) => return Some((at, number, refusal)),
        }
    }
}
