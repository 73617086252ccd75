//! machhurel: which registers and which memory the instructions of a trace touched.
#![forbid(unsafe_code)]
use machhurel_cli::command;
use std::process::ExitCode;

fn main() -> ExitCode {
    let words = std::env::args_os().skip(1).collect();
    ExitCode::from(command::run(words).number())
}
