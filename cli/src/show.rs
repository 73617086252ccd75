//! `machhurel show`: every event of a trace, a line each.
use crate::arguments::{wrong, Arguments, Instead};
use crate::choice::{Choice, FORMAT};
use crate::command::{written, Command};
use crate::format::{Format, Kind};
use crate::help;
use crate::line::{Place, What};
use crate::number::{Bytes, Range};
use crate::output::{Output, Unwritten};
use crate::source::Source;
use crate::status::Status;
use crate::walk::{Step, Walk};
use machhurel::{Event, Events};

pub(crate) const COMMAND: Command = Command {
    name: "show",
    operands: "[TRACE..]",
    purpose: "every event, a line each",
    details: "\
Says what each record of a trace touched, in order, a line for each event. A line stands alone: the number of the record, the
rip that its register file knows (that of the next instruction; - where it knows none), and the event in words. With several
traces the trace's name comes first.

  12  0x401136  read rbx                            a register is read
  12  0x401136  write [0x0000000000001008] 8 bytes  memory is written, from this address on
  12  0x401136  write [unknown] 8 bytes             the same: a register in the address is not known
  13  -  touches nothing                            there is no access
  14  -  refused 4 (opcode 24, BT): ...             the record's accesses cannot be told, and why
",
    choices: &[WRITES, RECORDS, FORMAT],
    closing: help::common,
    run,
};

const WRITES: Choice = Choice {
    name: "--writes",
    value: "ADDRESS[+LENGTH]",
    values: &[],
    words: "only writes that touch these bytes, and what could hide one: writes at unknown addresses and refusals",
};

const RECORDS: Choice = Choice {
    name: "--records",
    value: "A..B",
    values: &[],
    words: "only the records from A on, up to B and without it; A.., ..B, or A alone",
};

/// What of a trace is asked for.
struct Asked {
    writes: Vec<Bytes>,
    records: Range,
}

impl Asked {
    fn of(arguments: &Arguments) -> Result<Asked, Instead> {
        let bytes = |typed: &str| {
            Bytes::parse(typed)
                .ok_or_else(|| wrong(&WRITES, typed, "an address and a length, as 0x1008+8"))
        };
        let range = |typed: &str| {
            Range::parse(typed).ok_or_else(|| wrong(&RECORDS, typed, "two numbers, as 100..200"))
        };
        Ok(Asked {
            writes: arguments
                .all(&WRITES)
                .map(bytes)
                .collect::<Result<_, _>>()?,
            records: arguments.last(&RECORDS).map_or(Ok(Range::ALL), range)?,
        })
    }

    fn has(&self, what: &What) -> bool {
        if self.writes.is_empty() {
            return true;
        }
        match what {
            What::Event(Event::MemoryWrite {
                address: Some(address),
                size,
            }) => self
                .writes
                .iter()
                .any(|bytes| bytes.touched(*address, *size)),
            What::Event(Event::MemoryWrite { address: None, .. }) => true,
            What::Event(_) | What::Nothing => false,
            What::Refused(_) | What::BadFile(_) => true,
        }
    }
}

fn run(arguments: &Arguments, output: &mut Output) -> Result<Status, Instead> {
    let asked = Asked::of(arguments)?;
    let sources = Source::named(&arguments.operands);
    let format = Kind::of(arguments).lines(sources.len() > 1);
    output.bytes.extend_from_slice(format.header().as_bytes());
    let mut status = Status::Done;
    for source in &sources {
        match Walk::open(source, true) {
            None => status = Status::Failed,
            Some(mut walk) => {
                let result = show(&mut walk, &asked, format.as_ref(), output);
                status = status.max(walk.status());
                if result.is_err() {
                    return Ok(written(result, status));
                }
            }
        }
    }
    Ok(status)
}

fn show(
    walk: &mut Walk,
    asked: &Asked,
    format: &dyn Format,
    output: &mut Output,
) -> Result<(), Unwritten> {
    let name = walk.name().to_string();
    let mut lines = Lines {
        asked,
        format,
        place: Vec::new(),
    };
    while walk.records() < asked.records.to {
        if walk.has_complaint() || !walk.is_ready() {
            output.flush()?;
            walk.complain();
        }
        let rip = walk.rip();
        let record = walk.records();
        let step = match walk.step() {
            None => break,
            Some(step) => step,
        };
        if !asked.records.has(record) || matches!(step, Step::File) {
            continue;
        }
        let trace = &name;
        lines.set_place(&Place { trace, record, rip });
        lines.put_step(output, &step);
        output.flush_much()?;
    }
    output.flush()
}

/// The lines of a step: they begin alike.
struct Lines<'a> {
    asked: &'a Asked,
    format: &'a dyn Format,
    place: Vec<u8>,
}

impl Lines<'_> {
    fn set_place(&mut self, place: &Place<'_>) {
        self.place.clear();
        self.format.place(&mut self.place, place);
    }

    fn put_step(&self, output: &mut Output, step: &Step<'_>) {
        match step {
            Step::File => {}
            Step::BadFile(refusal) => self.put(output, What::BadFile(*refusal)),
            Step::Record { opcode, log, .. } => match log {
                Err(refusal) => self.put(output, What::Refused(refusal.of_opcode(*opcode))),
                Ok([]) => self.put(output, What::Nothing),
                Ok(log) => {
                    for event in Events::new(log) {
                        self.put(
                            output,
                            match event {
                                Ok(event) => What::Event(event),
                                Err(refusal) => What::Refused(refusal.of_opcode(*opcode)),
                            },
                        );
                    }
                }
            },
        }
    }

    fn put(&self, output: &mut Output, what: What) {
        if self.asked.has(&what) {
            output.bytes.extend_from_slice(&self.place);
            self.format.what(&mut output.bytes, &what);
        }
    }
}
