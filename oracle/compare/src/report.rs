//! A difference, printed whole and shrunk.

use answers::expected::{self, Refusal};
use answers::input::{Call, Input};

use crate::judge::Judge;

/// Prints the input with what was expected and found, and then the same shrunk.
pub fn difference(judge: &mut Judge, input: &Input, fault: &str) {
    println!("\nDIFFERENCE");
    print(input, fault);
    let mut owned = Owned {
        call: input.call,
        parts: [input.subject.to_vec(), input.file.to_vec()],
        room: input.room,
        start: input.start,
    };
    match shrink(judge, &mut owned) {
        Some(fault) => {
            println!("shrunk:");
            print(&owned.input(), &fault);
        }
        None => println!("not seen again when repeated: the outcome depends on bytes beside the slices"),
    }
    println!();
}

fn print(input: &Input, fault: &str) {
    println!("  call      {:?}", input.call);
    match input.call {
        Call::Event => println!("  log       {}\n  at        {}", hex(input.subject), input.start),
        _ => println!("  record    {}{}", hex(input.subject), fields(input.subject)),
    }
    if input.call == Call::Visit {
        println!("  file      {}", hex(input.file));
    }
    if matches!(input.call, Call::Visit | Call::Listing) {
        println!("  room      {}\n  start     {}", input.room, input.start);
    }
    let expected = expected::outcome(input);
    println!(
        "  expected  answer 0x{:016X}, {} bytes: {}",
        expected.answer,
        expected.written.len(),
        hex(&expected.written)
    );
    let of_oracle = match input.call {
        Call::Visit => expected::log(input.subject, input.file),
        Call::Listing => expected::listing(input.subject),
        _ => Ok(Vec::new()),
    };
    if let Err(Refusal::Disagreement(how)) = of_oracle {
        println!("  ORACLE    the given Rust and document 01's table disagree: {how}");
    }
    println!("  library   {fault}");
}

/// An input that can be changed.
struct Owned {
    call: Call,
    /// The record or log; the register file.
    parts: [Vec<u8>; 2],
    room: usize,
    start: usize,
}

impl Owned {
    fn input(&self) -> Input<'_> {
        let [subject, file] = &self.parts;
        Input { call: self.call, subject, file, room: self.room, start: self.start }
    }

    fn fault(&self, judge: &mut Judge) -> Option<String> {
        let expected = expected::outcome(&self.input());
        judge.fault(&self.input(), expected.answer, &expected.written)
    }
}

/// Plain room first; then bytes are zeroed one at a time while a difference stays. Gives what is
/// wrong with the shrunk one.
fn shrink(judge: &mut Judge, owned: &mut Owned) -> Option<String> {
    let mut last = owned.fault(judge)?;
    if matches!(owned.call, Call::Visit | Call::Listing) {
        let before = (owned.room, owned.start);
        (owned.room, owned.start) = (256, 0);
        match owned.fault(judge) {
            Some(fault) => last = fault,
            None => (owned.room, owned.start) = before,
        }
    }
    let mut changed = true;
    while changed {
        changed = false;
        for part in 0..2 {
            for at in 0..owned.parts[part].len() {
                let before = std::mem::replace(&mut owned.parts[part][at], 0);
                match owned.fault(judge) {
                    _ if before == 0 => (),
                    Some(fault) => (changed, last) = (true, fault),
                    None => owned.parts[part][at] = before,
                }
            }
        }
    }
    Some(last)
}

fn hex(bytes: &[u8]) -> String {
    bytes.iter().map(|byte| format!("{byte:02X}")).collect::<Vec<_>>().join(" ")
}

/// A record's fields in words, where it has all of them.
fn fields(record: &[u8]) -> String {
    let Some(b) = record.first_chunk::<40>() else {
        return format!("\n            ({} bytes)", record.len());
    };
    let long = |at: usize| u64::from_le_bytes(b[at..at + 8].try_into().unwrap());
    format!(
        "\n            opcode {}, count {}, specs {:?}, regs {:?}, size {}, scale {}, disp 0x{:X}, imm 0x{:X}, \
         prefixes {:04b}, mask {}, behavior {:08b}, access {:08b}, list {}",
        u16::from_le_bytes([b[1], b[2]]),
        b[3],
        &b[4..8],
        b[8..16].chunks(2).collect::<Vec<_>>(),
        b[16],
        b[17],
        long(18),
        long(26),
        b[34],
        b[35],
        b[36],
        b[37],
        u16::from_le_bytes([b[38], b[39]]),
    ) + &record.get(40).map_or(String::new(), |segment| format!(", segment {segment}"))
}
