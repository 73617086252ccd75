//! A trace as the library's reader takes it: where each record and each refused register file ends, and what comes of it, is the
//! reader's word. Good register files, of which it tells nothing, are told apart in what it took.
use machhurel::{Broken, Class, End, Items, Reader, Refusal, Told, TraceError, LOG_BYTES};
use std::io::{self, ErrorKind, Read};

/// How many bytes are asked for at once.
const BUFFER: usize = 1 << 18;

/// What came of an item of a trace.
#[derive(Clone, Copy)]
pub(crate) enum Arrived {
    /// A good register file.
    File,
    /// A register file that is refused.
    BadFile(Refusal),
    /// A record: how many bytes its log has, or why it was refused.
    Record(Result<usize, Refusal>),
}

pub(crate) struct Stream {
    source: Box<dyn Read>,
    reader: Reader,
    buffer: Vec<u8>,
    /// The items before this place of the buffer are given out.
    given: usize,
    /// The reader has taken the bytes before this one.
    taken: usize,
    /// So many bytes have come.
    came: usize,
    /// The byte of the trace that stands at `given`.
    at: u64,
    /// How many bytes before `given` the item has that was given out last.
    last: usize,
    /// What the reader told of the item that ends at `taken`: the length of its log, or a refusal.
    told: Option<Result<usize, Refusal>>,
    /// The reader has stopped: the byte at `taken` begins no item.
    stopped: bool,
    /// There is nothing more to give out.
    over: bool,
    log: [u8; LOG_BYTES],
}

impl Stream {
    pub(crate) fn new(source: Box<dyn Read>) -> Stream {
        Stream {
            source,
            reader: Reader::new(),
            buffer: vec![0; BUFFER],
            given: 0,
            taken: 0,
            came: 0,
            at: 0,
            last: 0,
            told: None,
            stopped: false,
            over: false,
            log: [0; LOG_BYTES],
        }
    }

    /// The byte at which the next item begins, or at which reading ended.
    pub(crate) fn at(&self) -> u64 {
        self.at
    }

    /// Whether the next item is at hand, so that asking for it does not wait for the source.
    pub(crate) fn is_ready(&mut self) -> bool {
        self.hand_over();
        matches!(self.first(), Some(Ok(_)))
    }

    /// The next item; none at the trace's end, and after an error.
    pub(crate) fn next(&mut self) -> Result<Option<Arrived>, TraceError> {
        if self.over {
            return Ok(None);
        }
        let found = self.find();
        self.over = !matches!(found, Ok(Some(_)));
        match found? {
            None => Ok(None),
            Some((class, length)) => self.give(class, length).map(Some),
        }
    }

    /// The bytes of the item that was given out last.
    pub(crate) fn item(&self) -> &[u8] {
        let begin = self.given.saturating_sub(self.last);
        self.buffer.get(begin..self.given).unwrap_or(&[])
    }

    /// The log of the record that was given out last, of so many bytes.
    pub(crate) fn log(&self, length: usize) -> &[u8] {
        self.log.get(..length).unwrap_or(&[])
    }

    /// The bytes that the reader has taken, from the first item on that is not given out.
    fn held(&self) -> &[u8] {
        self.buffer.get(self.given..self.taken).unwrap_or(&[])
    }

    /// What stands first among them.
    fn first(&self) -> Option<Result<(Class, usize), Broken>> {
        let found = Items::new(self.held()).next()?;
        Some(found.map(|item| (item.class, item.bytes.len())))
    }

    /// Hands what has come to the reader, up to the next item that it tells of.
    fn hand_over(&mut self) {
        if self.told.is_some() || self.stopped || self.taken == self.came {
            return;
        }
        let chunk = self.buffer.get(self.taken..self.came).unwrap_or(&[]);
        let handed = self.reader.read(chunk, &mut self.log, 0);
        self.taken = self.taken.saturating_add(handed.taken);
        match handed.told {
            Told::More => {}
            Told::Log(length) => self.told = Some(Ok(length)),
            Told::Refused(refusal) => self.told = Some(Err(refusal)),
            Told::Stopped | Told::Room { .. } => self.stopped = true,
        }
    }

    /// The class and the length of the item at hand, which the reader has taken whole then.
    fn find(&mut self) -> Result<Option<(Class, usize)>, TraceError> {
        loop {
            self.hand_over();
            let found = self.first();
            if let Some(Ok(found)) = found {
                return Ok(Some(found));
            }
            if self.stopped {
                let kind = self.buffer.get(self.taken).copied().unwrap_or(0);
                return Err(TraceError::Broken(Broken::Unknown { kind }));
            }
            if self.fill().map_err(TraceError::Unread)? == 0 {
                return match (self.reader.close(), found) {
                    (End::Between, None) => Ok(None),
                    (End::Inside, Some(Err(cut))) => Err(TraceError::Broken(cut)),
                    // the reader keeps what is not given out
                    _ => Err(TraceError::Unread(ErrorKind::UnexpectedEof.into())),
                };
            }
        }
    }

    /// Gives the item at hand out. What the reader told is of the last one that it took.
    fn give(&mut self, class: Class, length: usize) -> Result<Arrived, TraceError> {
        self.at = self.at.saturating_add(length as u64);
        self.given = self.given.saturating_add(length);
        self.last = length;
        let told = match self.given == self.taken {
            true => self.told.take(),
            false => None,
        };
        match (class, told) {
            (Class::File, None) => Ok(Arrived::File),
            (Class::File, Some(Err(refusal))) => Ok(Arrived::BadFile(refusal)),
            (Class::Record, Some(told)) => Ok(Arrived::Record(told)),
            // the reader tells of every record, and of no good register file
            (Class::Record, None) | (Class::File, Some(Ok(_))) => {
                self.over = true;
                let kind = self.item().first().copied().unwrap_or(0);
                Err(TraceError::Broken(Broken::Unknown { kind }))
            }
        }
    }

    /// Moves what is not given out to the front and reads more behind it. Answers how many bytes came.
    fn fill(&mut self) -> io::Result<usize> {
        self.buffer.copy_within(self.given..self.came, 0);
        self.taken = self.taken.saturating_sub(self.given);
        self.came = self.came.saturating_sub(self.given);
        self.given = 0;
        self.last = 0;
        loop {
            let room = self.buffer.get_mut(self.came..).unwrap_or(&mut []);
            match self.source.read(room) {
                Ok(n) => {
                    self.came = self.came.saturating_add(n).min(self.buffer.len());
                    return Ok(n);
                }
                Err(error) if error.kind() == ErrorKind::Interrupted => {}
                Err(error) => return Err(error),
            }
        }
    }
}

#[cfg(test)]
mod tests {
    use super::*;
    use machhurel::{check_file, visit};

    /// An item: the byte at which it begins, its bytes, and its log or refusal; nothing of a good register file.
    type Came = (u64, Vec<u8>, Option<Result<Vec<u8>, Refusal>>);

    /// Gives up to so many bytes at a time.
    struct Drips {
        bytes: Vec<u8>,
        at: usize,
        most: usize,
    }

    impl Read for Drips {
        fn read(&mut self, room: &mut [u8]) -> io::Result<usize> {
            let long = 1 + self.at * 7 % self.most;
            let long = long.min(room.len()).min(self.bytes.len() - self.at);
            room[..long].copy_from_slice(&self.bytes[self.at..self.at + long]);
            self.at += long;
            Ok(long)
        }
    }

    /// The items by their kinds, each visited alone, and how the trace ends.
    fn by_items(trace: &[u8]) -> (Vec<Came>, Option<Broken>) {
        let (mut all, mut file) = (Vec::new(), Vec::new());
        for item in Items::new(trace) {
            let item = match item {
                Ok(item) => item,
                Err(broken) => return (all, Some(broken)),
            };
            let bytes = item.bytes.to_vec();
            let told = match item.class {
                Class::File => check_file(&bytes).err().map(Err),
                Class::Record => {
                    let mut log = vec![0; LOG_BYTES];
                    Some(visit(&bytes, &file, &mut log, 0).map(|n| log[..n].to_vec()))
                }
            };
            if told.is_none() {
                file = bytes.clone();
            }
            all.push((item.at, bytes, told));
        }
        (all, None)
    }

    /// The same, as a stream gives it.
    fn by_stream(trace: &[u8], most: usize) -> (Vec<Came>, Option<Broken>) {
        let (bytes, at) = (trace.to_vec(), 0);
        let mut stream = Stream::new(Box::new(Drips { bytes, at, most }));
        let mut all = Vec::new();
        loop {
            let at = stream.at();
            // looking ahead changes nothing
            stream.is_ready();
            let told = match stream.next() {
                Ok(None) => return (all, None),
                Ok(Some(Arrived::File)) => None,
                Ok(Some(Arrived::BadFile(refusal))) => Some(Err(refusal)),
                Ok(Some(Arrived::Record(log))) => Some(log.map(|n| stream.log(n).to_vec())),
                Err(TraceError::Broken(broken)) => return (all, Some(broken)),
                Err(TraceError::Unread(error)) => panic!("{error}"),
            };
            all.push((at, stream.item().to_vec(), told));
        }
    }

    #[test]
    fn a_stream_gives_the_items_however_they_come() {
        let sample = include_bytes!("../../samples/torn.trace");
        let (mut broken, mut refused) = (0, 0);
        for round in 0..sample.len() {
            // cut somewhere, and a byte of it changed
            let mut trace = sample[..sample.len() - round / 2].to_vec();
            let at = round * 31 % trace.len();
            trace[at] ^= 1 << (round % 8);
            let expected = by_items(&trace);
            for most in [1, 50, 400, BUFFER] {
                assert_eq!(by_stream(&trace, most), expected, "round {round}, {most}");
            }
            broken += usize::from(expected.1.is_some());
            refused += expected
                .0
                .iter()
                .filter(|came| matches!(came.2, Some(Err(_))))
                .count();
        }
        assert!(broken > 500 && refused > 500, "{broken} {refused}");
    }

    #[test]
    fn longer_than_the_buffer() {
        let sample = include_bytes!("../../samples/torn.trace");
        // register files without a record between them, which the reader tells nothing of
        let files = sample[..141].repeat(BUFFER / 141 * 2);
        let trace = [
            &sample.repeat(BUFFER / sample.len() * 2)[..],
            &files[..],
            &sample[..],
        ]
        .concat();
        assert!(by_stream(&trace, BUFFER) == by_items(&trace));
        assert!(by_stream(&trace, 1000) == by_items(&trace));
    }
}
