//! pages man|bash|zsh|fish: the man page, and the completion of a shell. tools/package calls it.
#![forbid(unsafe_code)]
use machhurel_cli::{completion, pages};
use std::io::{self, Write};
use std::process::ExitCode;

fn main() -> ExitCode {
    let page = match std::env::args().nth(1).as_deref() {
        Some("man") => pages::man(),
        Some("bash") => pages::bash(),
        Some("zsh") => completion::zsh(),
        Some("fish") => completion::fish(),
        _ => return ExitCode::from(2),
    };
    match io::stdout().write_all(page.as_bytes()) {
        Ok(()) => ExitCode::SUCCESS,
        Err(_) => ExitCode::FAILURE,
    }
}
