//! `machhurel watch`: who tore a variable.
mod across;
mod answer;
mod block;
mod grouped;
mod html;
mod jobs;
mod moment;
mod reasons;
mod records;
mod rows;
mod story;
mod table;
mod teller;
mod text;
mod touched;

use crate::arguments::{wrong, Arguments, Instead};
use crate::choice::{Choice, FORMAT};
use crate::command::{written, Command};
use crate::format::Kind;
use crate::help;
use crate::name::harmless;
use crate::number::number;
use crate::output::{complain, Output, Unwritten};
use crate::source::Source;
use crate::status::Status;
use crate::walk::Walk;
use block::{Block, Look};
use html::Target;
use jobs::{Jobs, Lost};
use machhurel::Watch;
use std::ffi::{OsStr, OsString};
use std::os::unix::ffi::OsStrExt;
use story::{Side, Story};
use teller::Teller;

pub(crate) const COMMAND: Command = Command {
    name: "watch",
    operands: "TRACE ADDRESS LENGTH | X NAME",
    purpose: "who tore a variable: every store that wrote only part of it",
    details: "\
Replays a trace against the variable of LENGTH bytes, 1 to 8, at ADDRESS. Each store that wrote only part of it is a line: the
number of the record, the rip that its register file knows (that of the next instruction; - where it knows none), the store, and
which bytes of the variable it wrote, byte 0 at ADDRESS. Then it counts the stores that wrote part, all or none of it, and says
which record was the first to write part of it and which was the last to write all of it.

  12  0x401136  write [0x0000000000001008] 4 bytes: bytes 0 to 3 of 8

Of what `machhurel record` made, X.trace and X.side, a variable is told by its NAME: in how many stores it is written and from which
lines, how often it was read, how many reads fell between the parts and showed a value that never existed, and by how much.

A refused record and a store at an unknown address may have written the variable, and nobody can tell: then it says that the
answer is not complete, and names those records. A watch takes 1,000,000 pairs of a record and the register file before it. Where
a trace has more it says so, and goes on with a further watch of the same variable. - is standard input.

Exit status of watch: 0 no store wrote part of the variable, and the answer is complete; 3 a store wrote part of it; 4 none was
seen to, and the answer is not complete; 1 the trace could not be opened, is damaged or cut, or output could not be written; 2 wrong
usage. Where several hold it is the one that comes first of 2, 1, 3, 4.
",
    choices: &[FORMAT, HTML, JOBS],
    closing: help::trace,
    run,
};

const HTML: Choice = Choice {
    name: "--html",
    value: "FILE",
    values: &[],
    words: "write it as a page too, with its reads, a timeline and close-ups: one file, without script, under 100 KB",
};

const JOBS: Choice = Choice {
    name: "--jobs",
    value: "N",
    values: &[],
    words: "look with N threads, 1 to 64; 1 if nothing is said. The output is the same",
};

/// What was asked for.
struct Asked {
    source: Source,
    watch: Watch,
    kind: Kind,
    jobs: u64,
    html: Option<OsString>,
    /// What the recorder wrote beside the trace.
    side: Option<Side>,
}

impl Asked {
    fn of(arguments: &Arguments) -> Result<Result<Asked, String>, Instead> {
        let mut side = None;
        let (trace, address, length) = match arguments.operands.as_slice() {
            [trace, address, length] => (trace.clone(), harmless(address), harmless(length)),
            [name, variable] if !starts_with_digit(variable) => {
                let (trace, beside) = story::paths(name);
                let found = match Side::read(&beside, &harmless(variable)) {
                    Ok(found) => found,
                    Err(words) => return Ok(Err(words)),
                };
                let numbers = (found.address.to_string(), found.length.to_string());
                side = Some(found);
                (trace.into_os_string(), numbers.0, numbers.1)
            }
            _ => {
                let words = "expected a trace, an address and a length, as trace 0x1008 8, or a recording and a name, as x position";
                return Err(Instead::Wrong(words.to_string()));
            }
        };
        let expected = |what: &str, typed: &str, words: &str| {
            Instead::Wrong(format!("{what} {typed}: expected {words}"))
        };
        let at =
            number(&address).ok_or_else(|| expected("ADDRESS", &address, "a number, as 0x1008"))?;
        let watch = number(&length).and_then(|length| Watch::new(at, length).ok());
        let jobs = match arguments.last(&JOBS) {
            None => 1,
            Some(typed) => number(typed)
                .filter(|n| (1..=64).contains(n))
                .ok_or_else(|| wrong(&JOBS, typed, "1 to 64"))?,
        };
        Ok(Ok(Asked {
            source: Source::of(&trace),
            watch: watch.ok_or_else(|| expected("LENGTH", &length, "1 to 8"))?,
            kind: Kind::of(arguments),
            jobs,
            html: arguments.last_typed(&HTML).map(OsString::from),
            side,
        }))
    }

    /// Where the page goes, if one is wanted; or why it cannot go there.
    fn target(&self) -> Result<Option<Target>, String> {
        let html = self.html.as_ref();
        html.map(|name| Target::of(name, &self.source)).transpose()
    }
}

/// Whether a word is a number rather than a name.
fn starts_with_digit(word: &OsStr) -> bool {
    word.as_bytes().first().map_or(true, u8::is_ascii_digit)
}

/// Why a replay ended before the trace did.
enum Ended {
    Unwritten(Unwritten),
    /// Not every pair was looked at, or not every part write named.
    Lost,
}

impl From<Unwritten> for Ended {
    fn from(unwritten: Unwritten) -> Self {
        Ended::Unwritten(unwritten)
    }
}

impl From<Lost> for Ended {
    fn from(_: Lost) -> Self {
        Ended::Lost
    }
}

fn run(arguments: &Arguments, output: &mut Output) -> Result<Status, Instead> {
    let mut asked = match Asked::of(arguments)? {
        Ok(asked) => asked,
        Err(words) => return Ok(failed(&words)),
    };
    let target = match asked.target() {
        Ok(target) => target,
        Err(words) => return Ok(failed(&words)),
    };
    output.outlives_reader = target.is_some();
    let mut walk = match Walk::open(&asked.source, true) {
        None => return Ok(Status::Failed),
        Some(walk) => walk,
    };
    let look = Look {
        watch: asked.watch,
        kind: asked.kind,
        name: walk.name().to_string(),
        pictured: target.is_some() || asked.side.is_some(),
    };
    output
        .bytes
        .extend_from_slice(rows::header(asked.kind).as_bytes());
    let story = asked.side.take().map(|side| Story::new(side, &look.watch));
    let mut teller = Teller::new(look.clone(), story);
    let mut jobs = Jobs::new(look, asked.jobs);
    let ended = replay(&mut walk, &mut jobs, &mut teller, output);
    let status = walk.status();
    Ok(match ended {
        Ok(()) => {
            let found = teller.end(output, walk.damages());
            let page = put_page(&mut teller, target, walk.damages());
            written(output.flush(), status.max(found).max(page))
        }
        // whoever read it has gone: what came behind was not looked at
        Err(Ended::Unwritten(unwritten)) => {
            let seen = status.max(teller.status()).max(Status::Unsure);
            written(Err(unwritten), seen)
        }
        Err(Ended::Lost) => failed(&format!("{}: not every record was looked at", walk.name())),
    })
}

/// Writes the page, where one is wanted.
fn put_page(teller: &mut Teller, target: Option<Target>, damages: u64) -> Status {
    let put = match (teller.page(damages), target) {
        (Some(page), Some(target)) => target.write(&page),
        _ => Ok(()),
    };
    put.map_or_else(|words| failed(&words), |()| Status::Done)
}

fn failed(words: &str) -> Status {
    complain(format_args!("{words}"));
    Status::Failed
}

fn replay(
    walk: &mut Walk,
    jobs: &mut Jobs,
    teller: &mut Teller,
    output: &mut Output,
) -> Result<(), Ended> {
    loop {
        let (block, ended) = Block::fill(walk);
        if block.pairs > 0 {
            if let Some(seen) = jobs.put(block)? {
                teller.take(seen, output)?;
            }
        }
        if ended || walk.has_complaint() || walk.may_wait() {
            while let Some(seen) = jobs.take()? {
                teller.take(seen, output)?;
            }
            output.flush()?;
            walk.complain();
        }
        if ended {
            return Ok(());
        }
    }
}
