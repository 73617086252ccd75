//! Makes a trace, reads it back, and tells each record's listing and log. `cargo run --example trace`
use machhurel::*;
use std::error::Error;

fn trace() -> Result<Vec<u8>, Refusal> {
    let file = RegisterFile::new().with(Known::Rsp, 0x7FFE_0000);
    let push = Record::builder(40)
        .operand(Spec::RegRRR, Access::Read)
        .rrr(Register::quad(5))
        .memory_size(8)
        .list(26)
        .build()?;
    let mul = Record::builder(1)
        .operand(Spec::RegMMM, Access::Read)
        .mmm(Register::double(3))
        .flags(Access::Write)
        .nontrivial()
        .build()?;
    Ok([&file[..], &push[..], &mul[..]].concat())
}

fn tell(record: &[u8], file: &[u8]) -> Result<(), Refusal> {
    let mut bytes = [0; LISTING_BYTES];
    let n = listing(record, &mut bytes, 0)?;
    for item in Listing::new(&bytes[..n]) {
        println!("  lists {}", item?);
    }
    let mut log = [0; LOG_BYTES];
    let n = visit(record, file, &mut log, 0)?;
    for event in Events::new(&log[..n]) {
        println!("  {}", event?);
    }
    Ok(())
}

fn main() -> Result<(), Box<dyn Error>> {
    let trace = trace()?;
    let mut file = Vec::new();
    let mut reader = TraceReader::new(&trace[..]);
    while let Some(item) = reader.next_item()? {
        println!("{} at byte {}", item.class.name(), item.at);
        match item.class {
            Class::File => file = item.bytes.to_vec(),
            Class::Record => tell(item.bytes, &file)?,
        }
    }
    Ok(())
}
