//! A trace of a million records, in less memory than it has bytes.
mod common;
use common::{folder, Ran, COMMAND};
use machhurel::*;
use std::fs::File;
use std::io::{BufWriter, Write};
use std::path::{Path, PathBuf};
use std::process::{Command, Stdio};

const PAIRS: u64 = 1_000_000;

/// A million stores of 8 bytes, each under a file of its own; every 1,000th address in turn.
fn million(path: &Path) {
    let store = Record::builder(40)
        .operand(Spec::Disp, Access::Write)
        .operand(Spec::RegRRR, Access::Read)
        .base(Register::quad(3))
        .memory_size(8)
        .build()
        .unwrap();
    let mut out = BufWriter::new(File::create(path).unwrap());
    for k in 0..PAIRS {
        let file = RegisterFile::new()
            .with(Known::Rbx, 8 * (k % 1_000))
            .with(Known::Rip, k);
        out.write_all(&file).unwrap();
        out.write_all(&store).unwrap();
    }
    out.flush().unwrap();
}

/// Runs the command with 64 MB of memory in all.
fn in_little_memory(words: &[&str], path: &PathBuf) -> Command {
    let mut shell = Command::new("sh");
    shell.args(["-c", "ulimit -v 65536; exec \"$0\" \"$@\"", COMMAND]);
    shell.args(words).arg(path).stdin(Stdio::null());
    shell
}

#[test]
fn a_million_records() {
    let path = folder("long").join("million.trace");
    million(&path);
    assert_eq!(path.metadata().unwrap().len(), 181 * PAIRS);

    let ran: Ran = in_little_memory(&["summary", "--format", "csv"], &path)
        .output()
        .unwrap()
        .into();
    assert_eq!((ran.status, ran.errors.as_str()), (Some(0), ""));
    for row in [
        "trace,records,1000000,1000000",
        "records by refusal,0: not refused,1000000,1000000",
        "events,register read,2000000,2000000",
        "events,memory write at a known address,1000000,1000000",
        "memory writes by size,8,1000000,1000000",
        "addresses written most,0x0000000000000000,1000,1000",
        "addresses written most,0x0000000000000048,1000,1000",
    ] {
        assert!(
            ran.output.contains(&format!(",{row}\n")),
            "{row} in {}",
            ran.output
        );
    }

    let ran: Ran = in_little_memory(&["show", "--records", "999999"], &path)
        .output()
        .unwrap()
        .into();
    assert_eq!(
        ran.output.lines().nth(1),
        Some("999999  0xf423f  write [0x0000000000001f38] 8 bytes")
    );

    // all of its text, through a pipe
    let mut child = in_little_memory(&["show"], &path)
        .stdout(Stdio::piped())
        .spawn()
        .unwrap();
    let mut text = child.stdout.take().unwrap();
    let mut count = Lines(0);
    std::io::copy(&mut text, &mut count).unwrap();
    assert_eq!(
        (child.wait().unwrap().code(), count.0),
        (Some(0), 3_000_000)
    );
    std::fs::remove_file(&path).unwrap();
}

struct Lines(usize);

impl Write for Lines {
    fn write(&mut self, bytes: &[u8]) -> std::io::Result<usize> {
        self.0 += bytes.iter().filter(|byte| **byte == b'\n').count();
        Ok(bytes.len())
    }

    fn flush(&mut self) -> std::io::Result<()> {
        Ok(())
    }
}

#[test]
fn more_addresses_than_are_counted_at_once() {
    let path = folder("addresses").join("many.trace");
    let store = Record::builder(40)
        .operand(Spec::DispU64, Access::Write)
        .memory_size(1);
    let mut out = BufWriter::new(File::create(&path).unwrap());
    out.write_all(&RegisterFile::new()).unwrap();
    for k in 0..400_000 {
        // every other store goes to one place
        let address = if k % 2 == 0 { 0x1008 } else { 0x10_0000 + k };
        out.write_all(&store.displacement(address).build().unwrap())
            .unwrap();
    }
    for k in 0..400_000 {
        out.write_all(&store.displacement(0x100_0000 + k).build().unwrap())
            .unwrap();
    }
    drop(out);
    let ran: Ran = in_little_memory(&["summary"], &path)
        .output()
        .unwrap()
        .into();
    let row = ran
        .output
        .lines()
        .find(|line| line.contains("0x0000000000001008"))
        .unwrap();
    let words: Vec<&str> = row.split_whitespace().collect();
    let (least, most): (u64, u64) = (words[1].parse().unwrap(), words[4].parse().unwrap());
    assert!(
        least < 200_000 && 200_000 <= most && most < 200_100,
        "{row}"
    );
    assert!(row.ends_with(" at most"));
    std::fs::remove_file(&path).unwrap();
}
