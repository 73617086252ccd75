//! `machhurel fetch`: which registers the recorder must fetch.
use crate::arguments::{Arguments, Instead};
use crate::choice::FORMAT;
use crate::command::{written, Command};
use crate::format::{csv_quoted, json_quoted, put, Kind};
use crate::help;
use crate::output::Output;
use crate::source::Source;
use crate::status::Status;
use crate::walk::{Met, Walk};
use machhurel::{fetch_propose, visit, RegisterFile, RegisterSet, BLOCK_RECORDS, LOG_BYTES};

pub(crate) const COMMAND: Command = Command {
    name: "fetch",
    operands: "[TRACE..]",
    purpose: "the registers that the recorder must fetch for the records of a trace",
    details: "\
Says which registers enter the address of a memory access of a trace's records, by name and as a set of known bits. Under register
files that know these registers, and no others, every record gets the log that it would get under files that know them all; each
of them enters an address that is unknown without it. The register files of the trace are not looked at: a record counts before
the first file too. A record that a visit refuses whatever the file counts nothing; how many there were is said.
",
    choices: &[FORMAT],
    closing: help::common,
    run,
};

/// What a trace needs.
#[derive(Default)]
struct Needs {
    set: RegisterSet,
    refused: u64,
    /// Records of one length that the set does not hold yet.
    block: Vec<u8>,
    each: usize,
    held: usize,
}

impl Needs {
    fn add(&mut self, record: &[u8]) {
        if self.held == BLOCK_RECORDS || self.each != record.len() {
            self.unite();
            self.each = record.len();
        }
        self.block.extend_from_slice(record);
        self.held = self.held.saturating_add(1);
        let mut log = [0; LOG_BYTES];
        if visit(record, &RegisterFile::new(), &mut log, 0).is_err() {
            self.refused = self.refused.saturating_add(1);
        }
    }

    /// What is proposed for two lists together is the union of what is proposed for each.
    fn unite(&mut self) {
        // records of a length that the library has not: each is refused by itself, and counted so
        if let Ok(set) = fetch_propose(&self.block, self.each) {
            self.set = self.set.union(set);
        }
        self.block.clear();
        self.held = 0;
    }

    fn names(&self) -> Vec<String> {
        let registers = self.set.registers();
        registers.map(|register| register.to_string()).collect()
    }
}

fn run(arguments: &Arguments, output: &mut Output) -> Result<Status, Instead> {
    let kind = Kind::of(arguments);
    if kind == Kind::Csv {
        put!(&mut output.bytes, "trace,records,refused,set,registers\n");
    }
    let mut status = Status::Done;
    for source in Source::named(&arguments.operands) {
        match Walk::open(&source, false) {
            None => status = Status::Failed,
            Some(mut walk) => {
                let mut needs = Needs::default();
                while let Some(met) = walk.meet() {
                    if let Met::Record(_) = met {
                        needs.add(walk.record());
                    }
                    walk.complain();
                }
                needs.unite();
                status = status.max(walk.status());
                put_needs(output, kind, &walk, &needs);
                let result = output.flush();
                if result.is_err() {
                    return Ok(written(result, status));
                }
            }
        }
    }
    Ok(status)
}

fn put_needs(output: &mut Output, kind: Kind, walk: &Walk, needs: &Needs) {
    let (out, name, records) = (&mut output.bytes, walk.name(), walk.records());
    let (set, refused, names) = (needs.set.0, needs.refused, needs.names());
    match kind {
        Kind::Text => {
            let said = if names.is_empty() {
                "none".to_string()
            } else {
                names.join(", ")
            };
            put!(out, "{name}\n    registers to fetch    {said}\n");
            put!(out, "    as a set              0x{set:05x}\n");
            put!(out, "    records               {records}\n");
            put!(out, "    refused, not counted  {refused}\n");
        }
        Kind::Csv => {
            let (name, registers) = (csv_quoted(name), names.join(";"));
            put!(out, "{name},{records},{refused},0x{set:05x},{registers}\n");
        }
        Kind::Json => {
            let quoted: Vec<_> = names.iter().map(|name| json_quoted(name)).collect();
            let (name, registers) = (json_quoted(name), quoted.join(","));
            put!(
                out,
                "{{\"trace\":{name},\"records\":{records},\"refused\":{refused},"
            );
            put!(out, "\"set\":{set},\"registers\":[{registers}]}}\n");
        }
    }
}
