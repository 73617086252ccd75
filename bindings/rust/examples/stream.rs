//! Reads a trace through a link that gives a few bytes at a time, and tells each record. `cargo run --example stream [TRACE]`
use machhurel::*;
use std::error::Error;
use std::fs::File;
use std::io::{ErrorKind, Read};

/// A link that has 1 to 60 bytes whenever it is asked.
struct Link<R> {
    source: R,
    asked: usize,
}

impl<R: Read> Read for Link<R> {
    fn read(&mut self, buffer: &mut [u8]) -> std::io::Result<usize> {
        self.asked += 1;
        let most = buffer.len().min(1 + self.asked * 7 % 60);
        self.source.read(&mut buffer[..most])
    }
}

/// Every record of a stream, told by its number.
fn tell<R: Read>(mut link: R) -> Result<End, Box<dyn Error>> {
    let (mut reader, mut log, mut chunk) = (Reader::new(), [0; LOG_BYTES], [0; 64]);
    let mut number = 0;
    loop {
        let arrived = match link.read(&mut chunk) {
            Ok(0) => return Ok(reader.close()),
            Ok(n) => n,
            Err(error) if error.kind() == ErrorKind::Interrupted => continue,
            Err(error) => return Err(error.into()),
        };
        let mut rest = &chunk[..arrived];
        while !rest.is_empty() {
            let handed = reader.read(rest, &mut log, 0);
            rest = &rest[handed.taken..];
            match handed.told {
                Told::More => {}
                Told::Log(n) => {
                    println!("record {number}");
                    for event in Events::new(&log[..n]) {
                        println!("  {}", event?);
                    }
                    number += 1;
                }
                Told::Refused(refusal) => {
                    println!("item {number} {refusal}");
                    number += 1;
                }
                Told::Stopped | Told::Room { .. } => return Ok(reader.close()),
            }
        }
    }
}

fn main() -> Result<(), Box<dyn Error>> {
    let sample = concat!(env!("CARGO_MANIFEST_DIR"), "/../../samples/torn.trace");
    let name = std::env::args().nth(1).unwrap_or(sample.to_string());
    let source = File::open(name)?;
    println!("{:?}", tell(Link { source, asked: 0 })?);
    Ok(())
}
