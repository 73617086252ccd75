//! The commands, and which of them is meant.
use crate::arguments::{asks_help, Arguments, Instead};
use crate::choice::Choice;
use crate::name::harmless;
use crate::nearest::nearest;
use crate::output::{complain, reason, Output, Unwritten};
use crate::status::Status;
use crate::{difference, fetch, help, record, show, summary, watch, VERSION};
use std::ffi::OsString;

/// A command.
pub struct Command {
    /// How it is typed.
    pub name: &'static str,
    /// What stands behind it.
    pub operands: &'static str,
    /// What it does, in a line.
    pub purpose: &'static str,
    /// What it does, in full.
    pub details: &'static str,
    /// Its options.
    pub choices: &'static [Choice],
    /// What its help ends with.
    pub closing: fn() -> String,
    pub(crate) run: fn(&Arguments, &mut Output) -> Result<Status, Instead>,
}

/// Every command. A later one is one more row.
pub const COMMANDS: [&Command; 6] = [
    &show::COMMAND,
    &summary::COMMAND,
    &watch::COMMAND,
    &fetch::COMMAND,
    &difference::COMMAND,
    &record::COMMAND,
];

/// Runs the command that these words ask for. No word at all is `show`.
pub fn run(words: Vec<OsString>) -> Status {
    let mut words = words.into_iter();
    let word = match words.next() {
        None => return run_command(&show::COMMAND, Vec::new()),
        Some(word) => word,
    };
    if asks_help(&word) || word == "help" {
        return match words.next() {
            None => say(&help::all()),
            Some(name) => match found(&name) {
                Some(command) => say(&help::of(command)),
                None => wrong(&unknown(&name), "machhurel"),
            },
        };
    }
    if word == "--version" || word == "-V" {
        return say(&format!("machhurel {VERSION}\n"));
    }
    match found(&word) {
        // its words are another program's; help is told here, where that program may be missing
        Some(command) if command.name == record::COMMAND.name => {
            let words: Vec<OsString> = words.collect();
            match words.first().map_or(true, |word| asks_help(word)) {
                true => say(&help::of(command)),
                false => record::hand_over(words),
            }
        }
        Some(command) => run_command(command, words.collect()),
        None => wrong(&unknown(&word), "machhurel"),
    }
}

fn found(word: &OsString) -> Option<&'static Command> {
    COMMANDS.into_iter().find(|command| word == command.name)
}

fn unknown(word: &OsString) -> String {
    let typed = harmless(word);
    let known = COMMANDS.iter().map(|command| command.name);
    match nearest(&typed, known.chain(["--help", "--version"])) {
        Some(near) => format!("there is no command {typed}: is {near} meant?"),
        None if std::path::Path::new(word).exists() => {
            format!("there is no command {typed}: is `machhurel show {typed}` meant?")
        }
        None => format!("there is no command {typed}"),
    }
}

fn wrong(words: &str, whose: &str) -> Status {
    complain(format_args!("{words} (`{whose} --help` says more)"));
    Status::Usage
}

fn run_command(command: &'static Command, words: Vec<OsString>) -> Status {
    let mut output = Output::new();
    let asked = Arguments::parse(command.choices, words);
    match asked.and_then(|arguments| (command.run)(&arguments, &mut output)) {
        Ok(status) => written(output.flush(), status),
        Err(Instead::Help) => say(&help::of(command)),
        Err(Instead::Wrong(words)) => wrong(&words, &format!("machhurel {}", command.name)),
    }
}

fn say(words: &str) -> Status {
    let mut output = Output::new();
    output.bytes.extend_from_slice(words.as_bytes());
    written(output.flush(), Status::Done)
}

/// The status once it is known whether the output was written. A reader that has gone wanted no more.
pub(crate) fn written(result: Result<(), Unwritten>, status: Status) -> Status {
    match result {
        Ok(()) | Err(Unwritten::Closed) => status,
        Err(Unwritten::Failed(error)) => {
            complain(format_args!("standard output: {}", reason(&error)));
            Status::Failed
        }
    }
}
