//! `machhurel record`: runs the recorder, a program of its own, which is for x86-64 alone.
use crate::arguments::{Arguments, Instead};
use crate::command::Command;
use crate::output::{complain, reason, Output};
use crate::status::Status;
use std::ffi::OsString;
use std::io::ErrorKind;
use std::os::unix::process::CommandExt;
use std::path::PathBuf;
use std::process;

pub(crate) const COMMAND: Command = Command {
    name: "record",
    operands: "run|arm|check ..",
    purpose: "records a running program, for watch to say who tore what (x86-64 only)",
    details: "\
Records what a program does, on Linux and x86-64, and writes X.trace and X.side, which `machhurel watch X NAME` reads.

  machhurel record run [--from FUNCTION] [--to FUNCTION] [--max N] [--watch NAME].. [--full] -o X -- PROGRAM ARGUMENTS
  machhurel record arm --watch NAME [--after N] [--from FUNCTION] [--max N] -o X -- PROGRAM ARGUMENTS
  machhurel record check [--from FUNCTION] [--max N] [-- PROGRAM ARGUMENTS]

run steps through every instruction. arm runs at full speed and stops where the variable is touched. check asks whether the records
are right on this machine. docs/RECORDING.md says what it costs, what it needs and what it cannot see. It is not proved.

Exit status: 0 recorded, or nothing wrong was found; 1 the program or a file failed, or check found a difference; 2 wrong usage, another
processor, or no permission to use ptrace.
",
    choices: &[],
    closing: String::new,
    run,
};

const PROGRAM: &str = "machhurel-record";

/// The words are the recorder's: they go to it as they are.
pub(crate) fn hand_over(words: Vec<OsString>) -> Status {
    if !cfg!(all(target_os = "linux", target_arch = "x86_64")) {
        let words = "recording needs Linux on an x86-64 processor, which this is not";
        complain(format_args!("record: {words}"));
        return Status::Usage;
    }
    let error = process::Command::new(recorder()).args(words).exec();
    match error.kind() {
        ErrorKind::NotFound => complain(format_args!(
            "record: {PROGRAM} is neither beside this command nor on the PATH: recorder/build makes it"
        )),
        _ => complain(format_args!("record: {PROGRAM}: {}", reason(&error))),
    }
    Status::Usage
}

/// The recorder beside this command; else whatever the PATH has.
fn recorder() -> PathBuf {
    let beside = std::env::current_exe().ok();
    beside
        .and_then(|command| Some(command.parent()?.join(PROGRAM)))
        .filter(|path| path.exists())
        .unwrap_or_else(|| PathBuf::from(PROGRAM))
}

fn run(_: &Arguments, _: &mut Output) -> Result<Status, Instead> {
    Ok(hand_over(Vec::new()))
}
