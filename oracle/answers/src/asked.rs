//! The given Rust, asked: its answers turned into document 01's bytes.

use std::cell::Cell;
use std::panic::{self, AssertUnwindSafe};
use std::sync::Once;

use given::behavior::{Exception, PrivilegeLevel};
use given::long_mode::behavior::{AccessVisitor, ComplexOp};
use given::long_mode::{Operand, RegSpec};

use crate::record::Record;
use crate::register_file::RegisterFile;

/// The level's number; the given Rust has no name for the reserved one.
pub fn privilege(record: &Record) -> u8 {
    match record.behavior().privilege_level() {
        Some(PrivilegeLevel::Any) => 0,
        Some(PrivilegeLevel::PL0) => 1,
        Some(PrivilegeLevel::Special) => 2,
        None => 3,
    }
}

/// The set of exceptions, a bit for each vector.
pub fn exceptions(record: &Record) -> u32 {
    let exceptions = record.behavior().exceptions();
    (0..32).filter(|&vector| exceptions.may(Exception::vector(vector))).map(|vector| 1 << vector).sum()
}

/// The listing's bytes, or the opcode of a complex instruction.
pub fn listing(record: &Record) -> Result<Vec<u8>, u16> {
    let mut bytes = Vec::with_capacity(34);
    for (operand, access) in record.behavior().all_operands().map_err(opcode_number)?.iter() {
        match operand {
            Operand::Register { reg } if reg == RegSpec::rflags() => bytes.push(0x41),
            Operand::Register { reg } => bytes.extend([0x42, reg.bank as u8, reg.num]),
            Operand::MemDeref { base } => bytes.extend([0x43, base.bank as u8, base.num]),
            Operand::Disp { base, disp } => {
                bytes.extend([0x44, base.bank as u8, base.num]);
                bytes.extend(disp.to_le_bytes());
            }
            Operand::MemBaseIndexScale { base, index, scale } => {
                bytes.extend([0x45, base.bank as u8, base.num, index.bank as u8, index.num, scale]);
            }
            Operand::Explicit { index, spec } => bytes.extend([0x46, index, spec as u8]),
        }
        bytes.push(access as u8);
    }
    Ok(bytes)
}

/// How the given Rust's visit ended.
pub enum Visited {
    Log(Vec<u8>),
    Complex(u16),
    /// It panicked since an operand is none that it knows: 5.
    PanickedOperand,
    /// It panicked since memory has no size: 6.
    PanickedSize,
    /// It panicked with other words.
    Panicked(String),
}

pub fn visit(record: &Record, file: &RegisterFile) -> Visited {
    let behavior = record.behavior();
    let mut visitor = LogVisitor { file, log: Vec::with_capacity(crate::expected::LOG_BYTES), uncut: record.uncut_accesses() };
    let outcome = quietly(|| behavior.visit_accesses(&mut visitor));
    match outcome {
        Ok(Ok(())) => Visited::Log(visitor.log),
        Ok(Err(complex)) => Visited::Complex(opcode_number(complex)),
        Err(words) if words.contains("access size") => Visited::PanickedSize,
        Err(words) if words.contains("not-yet-handled") || words.contains("unreachable") => Visited::PanickedOperand,
        Err(words) => Visited::Panicked(words),
    }
}

fn opcode_number(complex: ComplexOp) -> u16 {
    complex as u32 as u16
}

/// Where the bytes of a log go.
pub trait Sink {
    fn put<const N: usize>(&mut self, bytes: [u8; N]);
}

impl Sink for Vec<u8> {
    fn put<const N: usize>(&mut self, bytes: [u8; N]) {
        self.extend(bytes);
    }
}

/// Writes what the given Rust reports as document 01's events.
pub struct LogVisitor<'a, S> {
    pub file: &'a RegisterFile,
    pub log: S,
    /// How many accesses yet to come are logged as they are reported. Those after them are cut to 32 bits (T-02).
    pub uncut: usize,
}

impl<S: Sink> LogVisitor<'_, S> {
    fn memory(&mut self, known_kind: u8, address: Option<u64>, size: u32) {
        let cut = self.uncut == 0;
        self.uncut = self.uncut.saturating_sub(1);
        match address {
            Some(address) => {
                let address = if cut { address % (1 << 32) } else { address };
                self.log.put([known_kind]);
                self.log.put(address.to_le_bytes());
                self.log.put([size as u8]);
            }
            None => self.log.put([known_kind + 2, size as u8]),
        }
    }
}

impl<S: Sink> AccessVisitor for LogVisitor<'_, S> {
    fn register_read(&mut self, reg: RegSpec) {
        self.log.put([1, reg.bank as u8, reg.num]);
    }

    fn register_write(&mut self, reg: RegSpec) {
        self.log.put([2, reg.bank as u8, reg.num]);
    }

    /// A visitor that brings its own `get_register` must report the read itself.
    fn get_register(&mut self, reg: RegSpec) -> Option<u64> {
        self.register_read(reg);
        self.file.value(reg)
    }

    fn memory_read(&mut self, address: Option<u64>, size: u32) {
        self.memory(3, address, size);
    }

    fn memory_write(&mut self, address: Option<u64>, size: u32) {
        self.memory(4, address, size);
    }
}

thread_local! {
    static QUIET: Cell<bool> = const { Cell::new(false) };
}

/// Runs `work`; a panic becomes its words and prints nothing.
fn quietly<T>(work: impl FnOnce() -> T) -> Result<T, String> {
    static HOOK: Once = Once::new();
    HOOK.call_once(|| {
        let usual = panic::take_hook();
        panic::set_hook(Box::new(move |info| {
            if !QUIET.get() {
                usual(info);
            }
        }));
    });
    QUIET.set(true);
    let outcome = panic::catch_unwind(AssertUnwindSafe(work));
    QUIET.set(false);
    outcome.map_err(|payload| match payload.downcast::<String>() {
        Ok(words) => *words,
        Err(payload) => payload.downcast_ref::<&str>().unwrap_or(&"no words").to_string(),
    })
}
