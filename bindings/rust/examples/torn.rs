//! Tells in how many stores a position was written: examples/c/torn.c in Rust. `cargo run --example torn`
use machhurel::*;

const RBX: Register = Register::quad(3);

/// mov [rbx + disp], rax, or its low half
fn store(size: u8, disp: i64) -> Result<Record, Refusal> {
    let register = if size == 8 {
        Register::quad(0)
    } else {
        Register::double(0)
    };
    Record::builder(40)
        .operand(Spec::Disp, Access::Write)
        .operand(Spec::RegRRR, Access::Read)
        .rrr(register)
        .base(RBX)
        .memory_size(size)
        .displacement(disp)
        .build()
}

fn main() -> Result<(), Refusal> {
    let file = RegisterFile::new().with(Known::Rbx, 0x1000);
    for (size, disp) in [(4, 8), (4, 12), (8, 8)] {
        let mut log = [0; LOG_BYTES];
        let n = visit(&store(size, disp)?, &file, &mut log, 0)?;
        for event in Events::new(&log[..n]) {
            let event = event?;
            if matches!(event, Event::MemoryWrite { .. }) {
                println!("{event}");
            }
        }
    }
    Ok(())
}
