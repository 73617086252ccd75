//! A walk through a trace: every record visited under the last good register file before it.
use crate::output::{complain, reason};
use crate::progress::Progress;
use crate::source::Source;
use crate::status::Status;
use crate::stream::{Arrived, Stream};
use crate::terminal;
use machhurel::{known, Known, Refusal, TraceError, BASED_FILE_BYTES};

/// What stands at a place of a trace.
pub(crate) enum Step<'a> {
    /// A good register file.
    File,
    /// A register file that is refused: it is not used.
    BadFile(Refusal),
    /// A record with its opcode, and its log or why it was refused.
    Record {
        opcode: u16,
        log: Result<&'a [u8], Refusal>,
    },
}

/// What was met, without its log.
pub(crate) enum Met {
    /// A good register file: `Walk::file` has it.
    File,
    /// A register file that is refused: it is not used.
    BadFile(Refusal),
    /// A record with this opcode: `Walk::record` has it, and `Walk::file` the file that it stands under.
    Record(u16),
}

pub(crate) struct Walk {
    name: String,
    /// Whether more of it may be long in coming: it is no regular file.
    waits: bool,
    stream: Stream,
    progress: Progress,
    /// The last good register file; before the first one there are no bytes.
    file: Vec<u8>,
    /// The length of the last record's log, or why it was refused.
    log: Result<usize, Refusal>,
    records: u64,
    damages: u64,
    /// What is wrong and has not been said yet.
    unsaid: Option<String>,
}

impl Walk {
    /// Opens a trace. Where it cannot be opened, that is said.
    pub(crate) fn open(source: &Source, over_output: bool) -> Option<Walk> {
        let name = source.name();
        if let Source::Sample = source {
            complain(format_args!(
                "no trace is given: this is the sample, samples/torn.trace"
            ));
        }
        match source.open() {
            Err(error) => {
                complain(format_args!("{name}: cannot be opened: {}", reason(&error)));
                None
            }
            Ok(opened) => {
                let shown = terminal::errors_are_terminal()
                    && !(over_output && terminal::output_is_terminal());
                Some(Walk {
                    progress: Progress::new(&name, opened.length, shown),
                    name,
                    waits: opened.length.is_none(),
                    stream: Stream::new(opened.bytes),
                    file: Vec::with_capacity(BASED_FILE_BYTES),
                    log: Ok(0),
                    records: 0,
                    damages: 0,
                    unsaid: None,
                })
            }
        }
    }

    /// The trace's name, shown harmlessly.
    pub(crate) fn name(&self) -> &str {
        &self.name
    }

    /// The byte up to which it was read.
    pub(crate) fn at(&self) -> u64 {
        self.stream.at()
    }

    /// How many records were read.
    pub(crate) fn records(&self) -> u64 {
        self.records
    }

    /// How many places of it are damaged, the one at which it was not read further among them.
    pub(crate) fn damages(&self) -> u64 {
        self.damages
    }

    /// The register file's rip, where it is known.
    pub(crate) fn rip(&self) -> Option<u64> {
        known(&self.file, Known::Rip)
    }

    /// The last good register file; no bytes before the first one.
    pub(crate) fn file(&self) -> &[u8] {
        &self.file
    }

    /// The record that was met, until the next item is.
    pub(crate) fn record(&self) -> &[u8] {
        self.stream.item()
    }

    /// Whether the next item may be long in coming.
    pub(crate) fn may_wait(&mut self) -> bool {
        self.waits && !self.is_ready()
    }

    /// Whether the next step is at hand. Where it is not, what has been told should be seen meanwhile.
    pub(crate) fn is_ready(&mut self) -> bool {
        self.stream.is_ready()
    }

    /// The next item; none at the end of the trace, or where it is damaged. What is wrong waits for `complain`.
    pub(crate) fn meet(&mut self) -> Option<Met> {
        let at = self.stream.at();
        self.progress.tell(at, self.records);
        let arrived = match self.stream.next() {
            Ok(arrived) => arrived,
            Err(error) => {
                self.damage(self.stream.at(), &words(&error));
                return None;
            }
        };
        match arrived {
            None => {
                self.end();
                None
            }
            Some(Arrived::BadFile(refusal)) => {
                let words = format!("damaged: register file {refusal}; not used");
                self.damage(at, &words);
                Some(Met::BadFile(refusal))
            }
            Some(Arrived::File) => {
                self.file.clear();
                self.file.extend_from_slice(self.stream.item());
                Some(Met::File)
            }
            Some(Arrived::Record(log)) => {
                self.records = self.records.saturating_add(1);
                self.log = log;
                Some(Met::Record(opcode_of(self.record())))
            }
        }
    }

    /// The next step: the next item, and its log where it is a record.
    pub(crate) fn step(&mut self) -> Option<Step<'_>> {
        Some(match self.meet()? {
            Met::File => Step::File,
            Met::BadFile(refusal) => Step::BadFile(refusal),
            Met::Record(opcode) => {
                let log = self.log.map(|length| self.stream.log(length));
                Step::Record { opcode, log }
            }
        })
    }

    /// Whether something is wrong that has not been said: what came before it should be written first.
    pub(crate) fn has_complaint(&self) -> bool {
        self.unsaid.is_some()
    }

    /// Says what is wrong.
    pub(crate) fn complain(&mut self) {
        if let Some(words) = self.unsaid.take() {
            self.progress.clear();
            complain(format_args!("{}: {words}", self.name));
        }
    }

    /// Whether all was read and well, once all is said.
    pub(crate) fn status(&mut self) -> Status {
        self.complain();
        self.progress.clear();
        match self.damages {
            0 => Status::Done,
            _ => Status::Failed,
        }
    }

    fn end(&mut self) {
        if self.records == 0 {
            self.unsaid = Some("there is no record in it".to_string());
        }
    }

    /// What is wrong at a place.
    fn damage(&mut self, at: u64, words: &str) {
        self.damages = self.damages.saturating_add(1);
        self.unsaid = Some(format!("byte {at}, record {}: {words}", self.records));
    }
}

/// The opcode of a record.
fn opcode_of(record: &[u8]) -> u16 {
    match record {
        [_, low, high, ..] => u16::from_le_bytes([*low, *high]),
        _ => 0,
    }
}

fn words(error: &TraceError) -> String {
    match error {
        TraceError::Broken(broken) => format!("{broken}; not read further"),
        TraceError::Unread(error) => format!("cannot be read: {}", reason(error)),
    }
}
