//! Runs the command as a user would, from the repository's top.
#![allow(dead_code)]
use std::io::Write;
use std::path::{Path, PathBuf};
use std::process::{Command, Output, Stdio};

pub const COMMAND: &str = env!("CARGO_BIN_EXE_machhurel");

pub fn top() -> PathBuf {
    Path::new(env!("CARGO_MANIFEST_DIR")).join("..")
}

pub fn command(words: &[&str]) -> Command {
    let mut command = Command::new(COMMAND);
    command.args(words).current_dir(top());
    command
}

/// What came of a run.
#[derive(Debug)]
pub struct Ran {
    pub status: Option<i32>,
    pub output: String,
    pub errors: String,
}

impl From<Output> for Ran {
    fn from(output: Output) -> Ran {
        Ran {
            status: output.status.code(),
            output: String::from_utf8(output.stdout).unwrap(),
            errors: String::from_utf8(output.stderr).unwrap(),
        }
    }
}

/// Runs it with nothing on standard input.
pub fn run(words: &[&str]) -> Ran {
    let mut command = command(words);
    command.stdin(Stdio::null()).output().unwrap().into()
}

/// Runs it with these bytes in a pipe.
pub fn pipe(words: &[&str], bytes: &[u8]) -> Ran {
    let mut child = command(words)
        .stdin(Stdio::piped())
        .stdout(Stdio::piped())
        .stderr(Stdio::piped())
        .spawn()
        .unwrap();
    let mut input = child.stdin.take().unwrap();
    let bytes = bytes.to_vec();
    let writer = std::thread::spawn(move || {
        // a command that ends early closes the pipe
        let _ = input.write_all(&bytes);
    });
    let output = child.wait_with_output().unwrap();
    writer.join().unwrap();
    output.into()
}

/// A folder for the files of one test, emptied first.
pub fn folder(name: &str) -> PathBuf {
    let folder = Path::new(env!("CARGO_TARGET_TMPDIR")).join(name);
    let _ = std::fs::remove_dir_all(&folder);
    std::fs::create_dir_all(&folder).unwrap();
    folder
}

/// Compares with the file kept in tests/golden; with GOLDEN=write in the environment that file is written instead.
pub fn golden(name: &str, text: &str) {
    let path = Path::new(env!("CARGO_MANIFEST_DIR"))
        .join("tests/golden")
        .join(name);
    if std::env::var("GOLDEN").as_deref() == Ok("write") {
        std::fs::write(&path, text).unwrap();
    }
    let kept = std::fs::read_to_string(&path).unwrap_or_default();
    assert!(kept == text, "{name} is not what is kept:\n{text}");
}

pub const TORN: &str = "samples/torn.trace";

pub fn torn() -> Vec<u8> {
    std::fs::read(top().join(TORN)).unwrap()
}

/// A small generator with a fixed seed: xorshift.
pub struct Random(pub u64);

impl Random {
    pub fn next(&mut self) -> u64 {
        self.0 ^= self.0 << 13;
        self.0 ^= self.0 >> 7;
        self.0 ^= self.0 << 17;
        self.0
    }

    pub fn below(&mut self, n: u64) -> u64 {
        self.next() % n
    }
}

/// A trace of good items with some of their bytes changed, cut now and then.
pub fn spoilt(random: &mut Random) -> Vec<u8> {
    let good = torn();
    let items: Vec<&[u8]> = machhurel::Items::new(&good)
        .map(|item| item.unwrap().bytes)
        .collect();
    let mut trace = Vec::new();
    for _ in 0..random.below(40) {
        let mut item = items[random.below(items.len() as u64) as usize].to_vec();
        if random.below(3) == 0 {
            let at = random.below(item.len() as u64) as usize;
            // a kind is seldom changed, for nothing is read behind it
            if at > 0 || random.below(8) == 0 {
                item[at] = [random.next() as u8, random.below(41) as u8][random.below(2) as usize];
            }
        }
        trace.extend(item);
    }
    if random.below(4) == 0 {
        trace.truncate(random.below(trace.len() as u64 + 1) as usize);
    }
    trace
}
