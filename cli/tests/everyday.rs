//! Records without a digest: the command names their opcodes, and a watch over refused ones is not complete.
mod common;
use common::pipe;
use machhurel::*;

/// A register operand, of this opcode and memory size, without a digest.
fn bare(opcode: u16, size: u8) -> Vec<u8> {
    let mut bytes = vec![0; EVERYDAY_RECORD_BYTES];
    bytes[0] = 0x12;
    bytes[1..3].copy_from_slice(&opcode.to_le_bytes());
    bytes[3..5].copy_from_slice(&[1, 1]);
    bytes[16] = size;
    bytes
}

fn trace(records: &[Vec<u8>]) -> Vec<u8> {
    let file = RegisterFile::new().with(Known::Rsp, 0x1000);
    [&file[..], &records.concat()].concat()
}

#[test]
fn shown_by_name() {
    let trace = trace(&[bare(117, 8), bare(117, 0), bare(119, 8), bare(2, 8)]);
    let ran = pipe(&["show", "-"], &trace);
    assert_eq!(
        ran.output,
        "0  -  read rsp\n\
         0  -  write rsp\n\
         0  -  read rsp\n\
         0  -  write [0x0000000000000ff8] 8 bytes\n\
         0  -  read rax\n\
         1  -  refused 6 (opcode 117, PUSH): memory is accessed and its size is 0\n\
         2  -  refused 9 (opcode 119): kind 0x12 has no digest for this opcode\n\
         3  -  refused 9 (opcode 2, IMUL): kind 0x12 has no digest for this opcode\n"
    );
    assert_eq!((ran.status, ran.errors.as_str()), (Some(0), ""));
}

#[test]
fn a_refused_opcode_may_hide_a_write() {
    let seen = |records: &[Vec<u8>]| pipe(&["watch", "-", "0x2000", "8"], &trace(records));
    assert_eq!(seen(&[bare(117, 8)]).status, Some(0));
    let ran = seen(&[bare(117, 8), bare(119, 8)]);
    assert_eq!(ran.status, Some(4), "{}", ran.output);
    assert!(ran.output.contains("the answer is not complete"));
    assert!(ran.output.contains("refused 9, opcode 119"));
}
