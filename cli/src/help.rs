//! Help, from the table of commands.
use crate::choice::Choice;
use crate::command::{Command, COMMANDS};
use machhurel::{Class, KINDS};

/// What the command is for, in a line.
pub const PURPOSE: &str =
    "says which registers and which memory the instructions of a trace touched";

/// What a trace is.
pub fn trace() -> String {
    let (files, records) = (kinds(Class::File), kinds(Class::Record));
    format!(
        "\
A trace has register files ({files}) and records ({records}), one after another. A record stands under the last
good register file before it. Records are counted from 0.
"
    )
}

/// What a trace is, how it is named, and how the command ends: for commands over any number of traces.
pub fn common() -> String {
    let trace = trace();
    format!(
        "\
{trace}
- is standard input. Without a trace a pipe is read; without a pipe the sample is taken, and standard error says so.

Exit status: 0 all was read; 1 a trace could not be opened, is damaged or cut, or output could not be written; 2 wrong usage.
Errors go to standard error, with the trace's name, the byte and the number of the record at that place. A refused record is
a line of the output like any other, and no error.
"
    )
}

/// The kinds of items of a class: `0x10, 40 bytes`.
fn kinds(class: Class) -> String {
    let of = KINDS.iter().filter(|(_, each, _)| *each == class);
    let words = of.map(|(kind, _, bytes)| format!("0x{kind:02x}, {bytes} bytes"));
    words.collect::<Vec<_>>().join("; ")
}

/// The options that the command has whatever is asked.
pub const GENERAL: [(&str, &str); 2] = [
    ("-h, --help", "this help; behind a command, that command's"),
    ("-V, --version", "the version"),
];

/// The help of the whole.
pub fn all() -> String {
    let mut text = format!("machhurel {PURPOSE}, in order.\n\n");
    for command in COMMANDS {
        let left = format!("machhurel {} {}", command.name, command.operands);
        text.push_str(&row(&left, command.purpose));
    }
    text.push('\n');
    for (name, words) in GENERAL {
        text.push_str(&row(name, words));
    }
    text.push('\n');
    text.push_str(&common());
    text.push_str(&further());
    text
}

/// Where more is said of how a command ends.
pub fn further() -> String {
    "watch and difference take no sample, and answer by the exit status too: their help says how.\n"
        .to_string()
}

/// The help of one command.
pub fn of(command: &Command) -> String {
    let mut text = format!(
        "usage: machhurel {} [OPTION..] {}\n\n{}\n",
        command.name, command.operands, command.details
    );
    for choice in command.choices {
        text.push_str(&row(&typed(choice), choice.words));
    }
    text.push_str(&row("-h, --help", "this help"));
    let closing = (command.closing)();
    if !closing.is_empty() {
        text.push('\n');
        text.push_str(&closing);
    }
    text
}

/// An option and what stands behind it.
pub fn typed(choice: &Choice) -> String {
    let value = match choice.values {
        [] => choice.value.to_string(),
        values => values.join("|"),
    };
    format!("{} {value}", choice.name)
}

fn row(left: &str, right: &str) -> String {
    format!("  {left:<37} {right}\n")
}
