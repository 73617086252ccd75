//! What the recorder wrote beside a trace: where each access came from, and what was in the variable then.
use crate::name::harmless;
use crate::number::number;
use crate::output::reason;
use std::collections::HashMap;
use std::ffi::OsStr;
use std::fs::File;
use std::io::{BufRead, BufReader};
use std::os::unix::ffi::OsStrExt;
use std::path::{Path, PathBuf};

/// An instruction of the program.
#[derive(Clone, Debug, Default, PartialEq, Eq)]
pub(in super::super) struct Spot {
    /// The address of the next instruction.
    pub(super) next: u64,
    /// `controller.c:41`; nothing where it is not known.
    pub(super) line: String,
    pub(in super::super) function: String,
    pub(in super::super) text: String,
    /// Whether a record tells what it does.
    pub(super) is_complex: bool,
    pub(super) opcode: u64,
}

/// An access of the variable, as the recorder saw it.
#[derive(Clone, Copy, Debug, PartialEq, Eq)]
pub(super) struct Seen {
    pub(super) record: u64,
    pub(super) site: u64,
    pub(super) writes: bool,
    pub(super) bytes: u8,
    /// What was in it: behind a store, or as it was read.
    pub(super) value: u64,
}

/// A change of the variable that no record tells.
#[derive(Clone, Debug, PartialEq, Eq)]
pub(super) struct Unsaid {
    pub(super) record: u64,
    pub(super) value: u64,
    pub(super) by: String,
}

/// A side file, as far as it is about one variable.
#[derive(Debug, Default)]
pub(in super::super) struct Side {
    pub(in super::super) program: String,
    pub(in super::super) name: String,
    pub(in super::super) address: u64,
    pub(in super::super) length: u64,
    /// What was in it when the recording began.
    pub(super) value: u64,
    pub(super) spots: HashMap<u64, Spot>,
    pub(super) seen: Vec<Seen>,
    pub(super) unsaid: Vec<Unsaid>,
    pub(super) signals: Vec<(u64, u64)>,
    pub(super) notes: Vec<String>,
    /// How many threads were recorded.
    pub(super) threads: u64,
    /// Whether the recording was ended in order.
    pub(super) ended: bool,
    pub(super) names: Vec<String>,
    pub(super) chosen: Option<usize>,
    pub(super) tids: Vec<String>,
}

/// The trace and the side file that a name stands for: `X`, or `X.trace`.
pub(in super::super) fn paths(word: &OsStr) -> (PathBuf, PathBuf) {
    let bytes = word.as_bytes();
    let stem = bytes.strip_suffix(b".trace").unwrap_or(bytes);
    let with = |ending: &[u8]| PathBuf::from(OsStr::from_bytes(&[stem, ending].concat()));
    (with(b".trace"), with(b".side"))
}

impl Side {
    /// Reads what a side file says of a variable; or why it cannot be.
    pub(in super::super) fn read(path: &Path, name: &str) -> Result<Side, String> {
        let shown = harmless(path.as_os_str());
        let file = File::open(path)
            .map_err(|error| format!("{shown}: cannot be opened: {}", reason(&error)))?;
        let mut side = Side::default();
        for (k, line) in BufReader::new(file).split(b'\n').enumerate() {
            let line =
                line.map_err(|error| format!("{shown}: cannot be read: {}", reason(&error)))?;
            let text = harmless(OsStr::from_bytes(&line));
            let first = k == 0;
            let taken = match first {
                true => Some(()).filter(|()| text == "machhurel side 1"),
                false => side.take(&text, name),
            };
            if taken.is_none() {
                let number = k.saturating_add(1);
                return Err(format!("{shown}: line {number}: damaged: {}", short(&text)));
            }
        }
        match side.chosen {
            Some(_) => Ok(side),
            None => Err(format!(
                "{shown}: no variable {name} was watched: there is {}",
                short(&side.names.join(", "))
            )),
        }
    }

    /// Takes a line; nothing where it is damaged.
    fn take(&mut self, line: &str, name: &str) -> Option<()> {
        let mut words = line.split(' ');
        let kind = words.next()?;
        match kind {
            "program" => self.program = words.next()?.to_string(),
            "variable" => self.take_variable(&mut words, name)?,
            "site" => self.take_site(&mut words)?,
            "touch" => self.take_touch(&mut words)?,
            "changed" => self.take_change(&mut words)?,
            "signal" => {
                let pair = (number(words.next()?)?, number(words.next()?)?);
                self.signals.push(pair);
            }
            "thread" => {
                number(words.next()?)?;
                let id = words.next()?.to_string();
                if !self.tids.contains(&id) {
                    self.tids.push(id);
                    self.threads = self.threads.saturating_add(1);
                }
            }
            "note" => self.notes.push(words.collect::<Vec<_>>().join(" ")),
            "end" => self.ended = true,
            _ => return None,
        }
        Some(())
    }

    fn take_variable<'a>(
        &mut self,
        words: &mut impl Iterator<Item = &'a str>,
        name: &str,
    ) -> Option<()> {
        let this = words.next()?;
        let (address, length) = (number(words.next()?)?, number(words.next()?)?);
        let value = number(words.next()?)?;
        if this == name && self.chosen.is_none() {
            self.chosen = Some(self.names.len());
            self.name = this.to_string();
            self.address = address;
            self.length = length;
            self.value = value;
        }
        self.names.push(this.to_string());
        Some(())
    }

    fn take_site<'a>(&mut self, words: &mut impl Iterator<Item = &'a str>) -> Option<()> {
        let site = number(words.next()?)?;
        let (pc, length) = (number(words.next()?)?, number(words.next()?)?);
        let is_complex = words.next()? == "complex";
        let opcode = number(words.next()?)?;
        let line = words.next()?;
        let function = words.next()?;
        let spot = Spot {
            next: pc.wrapping_add(length),
            line: match line.starts_with("-:") {
                true => String::new(),
                false => line.to_string(),
            },
            function: Some(function)
                .filter(|name| *name != "-")
                .unwrap_or("")
                .to_string(),
            text: words.collect::<Vec<_>>().join(" "),
            is_complex,
            opcode,
        };
        self.spots.insert(site, spot);
        Some(())
    }

    fn take_touch<'a>(&mut self, words: &mut impl Iterator<Item = &'a str>) -> Option<()> {
        let (record, site) = (number(words.next()?)?, number(words.next()?)?);
        let variable = usize::try_from(number(words.next()?)?).ok();
        let writes = match words.next()? {
            "r" => false,
            "w" => true,
            _ => return None,
        };
        let bytes = u8::try_from(number(words.next()?)?).ok()?;
        let value = number(words.next()?)?;
        if variable == self.chosen {
            self.seen.push(Seen {
                record,
                site,
                writes,
                bytes,
                value,
            });
        }
        Some(())
    }

    fn take_change<'a>(&mut self, words: &mut impl Iterator<Item = &'a str>) -> Option<()> {
        let record = number(words.next()?)?;
        let variable = usize::try_from(number(words.next()?)?).ok();
        let value = number(words.next()?)?;
        if variable == self.chosen {
            let by = words.collect::<Vec<_>>().join(" ");
            self.unsaid.push(Unsaid { record, value, by });
        }
        Some(())
    }
}

/// The first characters of a long text.
fn short(text: &str) -> String {
    let mut first: String = text.chars().take(100).collect();
    if first.len() < text.len() {
        first.push('…');
    }
    first
}

impl Spot {
    /// `controller.c:41`, or as much as is known of the place.
    pub(in super::super) fn name(&self) -> String {
        match (self.line.as_str(), self.function.as_str()) {
            ("", "") => format!("the instruction before {:#x}", self.next),
            ("", function) => function.to_string(),
            (line, _) => line.to_string(),
        }
    }
}
