//! Where a trace comes from.
use crate::name::harmless;
use crate::terminal;
use std::ffi::OsString;
use std::fs::File;
use std::io::{self, Read};

/// The sample that is shown where no trace is given.
const SAMPLE: &[u8] = include_bytes!("../../samples/torn.trace");

/// Where a trace comes from.
pub(crate) enum Source {
    File(OsString),
    Input,
    Sample,
}

/// A source that can be read, and how long it is where that is known.
pub(crate) struct Opened {
    pub(crate) bytes: Box<dyn Read>,
    pub(crate) length: Option<u64>,
}

impl Source {
    /// The sources that a command's words name: a pipe where there are none, and the sample where there is no pipe either.
    pub(crate) fn named(words: &[OsString]) -> Vec<Source> {
        match words {
            [] if terminal::input_is_given() => vec![Source::Input],
            [] => vec![Source::Sample],
            words => words.iter().map(Source::of).collect(),
        }
    }

    pub(crate) fn of(word: &OsString) -> Source {
        if word == "-" {
            Source::Input
        } else {
            Source::File(word.clone())
        }
    }

    /// Its name, shown harmlessly.
    pub(crate) fn name(&self) -> String {
        match self {
            Source::File(name) => harmless(name),
            Source::Input => "standard input".to_string(),
            Source::Sample => "the sample".to_string(),
        }
    }

    pub(crate) fn open(&self) -> io::Result<Opened> {
        Ok(match self {
            Source::File(name) => {
                let file = File::open(name)?;
                let about = file.metadata()?;
                Opened {
                    bytes: Box::new(file),
                    length: Some(about.len()).filter(|_| about.is_file()),
                }
            }
            Source::Input => Opened {
                bytes: Box::new(io::stdin()),
                length: None,
            },
            Source::Sample => Opened {
                bytes: Box::new(SAMPLE),
                length: Some(SAMPLE.len() as u64),
            },
        })
    }
}
