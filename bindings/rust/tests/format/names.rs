//! Registers by name.
use crate::subject::value;

/// A register by the name that the document calls it: the record's, or the processor's.
pub fn named(name: &str) -> [u8; 2] {
    match name.trim_matches('`') {
        "regs[0]" => [1, 10],
        "regs[1]" => [0, 3],
        "regs[2]" => [0, 1],
        "regs[3]" => [2, 13],
        "imm" => [2, 9],
        "al" => [4, 0],
        "ax" => [2, 0],
        "cx" => [2, 1],
        "dx" => [2, 2],
        "eax" => [1, 0],
        "ecx" => [1, 1],
        "edx" => [1, 2],
        "edi" => [1, 7],
        "esi" => [1, 6],
        "rax" => [0, 0],
        "rcx" => [0, 1],
        "rdx" => [0, 2],
        "rbx" => [0, 3],
        "rsp" => [0, 4],
        "rdi" => [0, 7],
        "rsi" => [0, 6],
        "xmm0" => [5, 0],
        other => panic!("no register: {other:?}"),
    }
}

/// The value of a general register under `full()`.
pub fn valued([bank, n]: [u8; 2]) -> u64 {
    match bank {
        0 => value(n.into()),
        1 => value(n.into()) & 0xFFFF_FFFF,
        4 => value(n.into()) & 0xFF,
        other => panic!("no address is made of bank {other}"),
    }
}
