//! The words behind a command.
use crate::choice::Choice;
use crate::name::harmless;
use crate::nearest::nearest;
use std::ffi::{OsStr, OsString};
use std::os::unix::ffi::OsStrExt;

/// What was asked of a command.
#[derive(Debug)]
pub(crate) struct Arguments {
    chosen: Vec<Chosen>,
    /// The words that are no options: traces.
    pub(crate) operands: Vec<OsString>,
}

/// An option that was given.
#[derive(Debug)]
struct Chosen {
    name: &'static str,
    /// Its value, shown harmlessly.
    value: String,
    typed: OsString,
}

/// Why the words cannot be taken, or that help is wanted.
#[derive(Debug, PartialEq, Eq)]
pub(crate) enum Instead {
    Help,
    Wrong(String),
}

pub(crate) fn asks_help(word: &OsStr) -> bool {
    word == "-h" || word == "--help"
}

impl Arguments {
    pub(crate) fn parse(choices: &'static [Choice], words: Vec<OsString>) -> Result<Self, Instead> {
        let mut arguments = Arguments {
            chosen: Vec::new(),
            operands: Vec::new(),
        };
        let mut words = words.into_iter();
        while let Some(word) = words.next() {
            if word == "--" {
                arguments.operands.extend(words);
                break;
            }
            if asks_help(&word) {
                return Err(Instead::Help);
            }
            if word == "-" || !harmless(&word).starts_with('-') {
                arguments.operands.push(word);
            } else {
                let taken = take(choices, &word, &mut words)?;
                arguments.chosen.push(taken);
            }
        }
        Ok(arguments)
    }

    /// The values of an option, in the order in which they were given.
    pub(crate) fn all<'a>(&'a self, choice: &'a Choice) -> impl Iterator<Item = &'a str> + 'a {
        let given = self.chosen.iter();
        given
            .filter(move |chosen| chosen.name == choice.name)
            .map(|chosen| chosen.value.as_str())
    }

    /// The last value of an option as it was typed: a file's name may be no text.
    pub(crate) fn last_typed(&self, choice: &Choice) -> Option<&OsStr> {
        let mut given = self.chosen.iter().rev();
        let last = given.find(|chosen| chosen.name == choice.name);
        last.map(|chosen| chosen.typed.as_os_str())
    }

    /// The value of an option that is taken once; the last one counts.
    pub(crate) fn last<'a>(&'a self, choice: &'a Choice) -> Option<&'a str> {
        self.all(choice).last()
    }
}

/// An option and its value, from `--name=value` or from the word behind `--name`.
fn take(
    choices: &'static [Choice],
    word: &OsStr,
    more: &mut impl Iterator<Item = OsString>,
) -> Result<Chosen, Instead> {
    let mut halves = word.as_bytes().splitn(2, |byte| *byte == b'=');
    let half = |bytes: &[u8]| OsStr::from_bytes(bytes).to_os_string();
    let name = harmless(&halves.next().map(half).unwrap_or_default());
    let choice = match choices.iter().find(|choice| choice.name == name) {
        Some(choice) => choice,
        None => return Err(Instead::Wrong(unknown(choices, &name))),
    };
    let typed = match halves.next().map(half).or_else(|| more.next()) {
        Some(typed) => typed,
        None => {
            let words = format!(
                "{} needs a value: {} {}",
                choice.name, choice.name, choice.value
            );
            return Err(Instead::Wrong(words));
        }
    };
    let value = harmless(&typed);
    if !choice.values.is_empty() && !choice.values.contains(&value.as_str()) {
        return Err(wrong(choice, &value, &choice.values.join(", ")));
    }
    let name = choice.name;
    Ok(Chosen { name, value, typed })
}

fn unknown(choices: &'static [Choice], name: &str) -> String {
    let known = choices.iter().map(|choice| choice.name);
    match nearest(name, known.chain(["--help"])) {
        Some(near) => format!("there is no option {name}: is {near} meant?"),
        None => format!("there is no option {name}"),
    }
}

/// A value that is none of an option's.
pub(crate) fn wrong(choice: &Choice, value: &str, expected: &str) -> Instead {
    Instead::Wrong(format!("{} {value}: expected {expected}", choice.name))
}
