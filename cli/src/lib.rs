//! The command `machhurel`: the library's answers about a trace, told to people and to other programs.
//!
//! All knowledge of instructions is the library's. A command is one file (`show.rs`) or one folder (`watch/`) with one row in `command::COMMANDS`.
#![forbid(unsafe_code)]
#![warn(missing_docs)]
#![allow(unknown_lints)]
#![deny(
    clippy::arithmetic_side_effects,
    clippy::expect_used,
    clippy::indexing_slicing,
    clippy::integer_division,
    clippy::panic,
    clippy::print_stderr,
    clippy::print_stdout,
    clippy::string_slice,
    clippy::todo,
    clippy::unimplemented,
    clippy::unreachable,
    clippy::unwrap_used
)]

mod arguments;
mod choice;
pub mod command;
pub mod completion;
mod difference;
mod fetch;
mod format;
pub mod help;
mod line;
mod name;
mod nearest;
mod number;
mod output;
pub mod pages;
mod progress;
mod record;
mod show;
mod source;
mod status;
mod stream;
mod summary;
mod terminal;
mod walk;
mod watch;

pub use status::Status;

/// The project's version.
pub const VERSION: &str = env!("CARGO_PKG_VERSION");
