//! Document 01's bench records, P1 to P11, through the oracle.

use answers::cases::draft::*;
use answers::cases::{bases, files, kinds};
use answers::expected::{self, Refusal};
use answers::input::Input;

fn log(record: Draft, file: files::File) -> Vec<u8> {
    expected::log(&record.0, &file).expect("a log")
}

fn refusal(record: Draft) -> Refusal {
    expected::log(&record.0, &files::holding(&[])).expect_err("a refusal")
}

/// The address of the last event, which is a memory event at a known address.
fn address(record: Draft, file: files::File) -> u64 {
    let log = log(record, file);
    let event = &log[log.len() - 10..];
    assert!(matches!(event[0], 3 | 4));
    u64::from_le_bytes(event[1..9].try_into().unwrap())
}

#[test]
fn p1() {
    let record = Draft::of(&[REG_RRR, REG_MMM]).access(0x06).reg(0, D, 0).reg(1, D, 3);
    assert_eq!(log(record, files::holding(&[])), [2, 0, 0, 1, 1, 3]);
}

#[test]
fn p2_and_p3() {
    let p2 = bases::p2();
    let known = [2, 11, 0, 1, 0, 3, 3, 8, 16, 0, 0, 0, 0, 0, 0, 8, 1, 0, 3, 4, 8, 16, 0, 0, 0, 0, 0, 0, 8, 1, 0, 0];
    assert_eq!(log(p2.record, p2.file), known);
    let unknown = [2, 11, 0, 1, 0, 3, 5, 8, 1, 0, 3, 6, 8, 1, 0, 0];
    assert_eq!(log(p2.record, files::knowing(files::ALL_KNOWN & !8)), unknown);
    assert_eq!(expected::outcome(&Input::visit(&p2.record.0, &p2.file, 32, 0)).answer, 32 << 32);
    assert_eq!(expected::outcome(&Input::visit(&p2.record.0, &p2.file, 31, 0)).answer, 0x20_0000_0007);
}

#[test]
fn p4() {
    let record = Draft::of(&[REG_MMM]).opcode(MUL).behavior(0x18).reg(1, D, 3);
    assert_eq!(log(record, files::holding(&[])), [1, 1, 0, 2, 0, 0, 2, 0, 2, 2, 11, 0, 1, 1, 3]);
}

#[test]
fn p5_to_p7() {
    let record = Draft::of(&[DISP]).reg(1, Q, 3).disp(0xFFFF_FFF8);
    assert_eq!(address(record, files::holding(&[(3, 4)])), 0xFFFF_FFFF_FFFF_FFFC);
    assert_eq!(address(record.prefixes(0x08), files::holding(&[(3, 4)])), 0xFFFF_FFFC);
    assert_eq!(address(record.spec(0, DISP_U32), files::holding(&[(3, 4)])), 0xFFFF_FFF8);
    let record = Draft::of(&[MEM_INDEX_SCALE]).reg(2, Q, 1).scale(2);
    assert_eq!(address(record, files::holding(&[(1, 0x8000_0000_0000_0001)])), 2);
}

#[test]
fn p8_and_p9() {
    let push = Draft::of(&[]).list(26);
    assert_eq!(log(push, files::holding(&[])).len(), 19);
    assert_eq!(address(push, files::holding(&[])), 0xFFFF_FFFF_FFFF_FFF8);
    assert_eq!(address(push.prefixes(0x08), files::holding(&[])), 0xFFFF_FFFF_FFFF_FFF8);
    let xlat = Draft::of(&[]).list(28).size(1);
    assert_eq!(address(xlat, files::holding(&[(3, 0x2000), (0, 0x1234)])), 0x2034);
}

#[test]
fn p10_and_p11() {
    let bit_test = Draft::of(&[REG_MMM]).opcode(BT).behavior(COMPLEX);
    assert_eq!(log(bit_test, files::holding(&[])), [1, 0, 0]);
    assert_eq!(refusal(bit_test.spec(0, DISP)), Refusal::Complex(BT));
    assert_eq!(refusal(Draft::of(&[DISP]).opcode(LEA).size(0)), Refusal::Number(6));
}

#[test]
fn sizes() {
    let record = Draft::of(&[DISP]);
    assert_eq!(log(record.size(64), files::holding(&[])).last(), Some(&64));
    assert_eq!(log(record.size(63), files::holding(&[])).last(), Some(&63));
    assert_eq!(refusal(record.size(65)), Refusal::Number(2));
}

#[test]
fn the_longest() {
    let longest = bases::longest();
    // Each of eight parts gets a read of the base, of 3 bytes.
    assert_eq!(log(longest.record, longest.file).len(), expected::LOG_BYTES - 8 * 3);
    let (record, file) = (kinds::segmented(&longest.record.0, 1).unwrap(), kinds::based(&longest.file, 3).unwrap());
    assert_eq!(expected::log(&record, &file).unwrap().len(), expected::LOG_BYTES);
    assert_eq!(expected::listing(&longest.record.0).unwrap().len(), expected::LISTING_BYTES);
}

/// T-10: the base is read first and added last; LEA's read part and specs 20 and 22 ask for none.
#[test]
fn segments() {
    let file = kinds::based(&files::holding(&[(3, 0x1000), (7, 0x3000)]), 1).unwrap();
    let fs: [u8; 8] = file[141..149].try_into().unwrap();
    let at = u64::from_le_bytes(fs).wrapping_add(0x1000).to_le_bytes();
    let of = |record: Draft, segment| expected::log(&kinds::segmented(&record.0, segment).unwrap(), &file).unwrap();
    let load = Draft::of(&[DEREF]).reg(1, Q, 3);
    assert_eq!(of(load, 1), [&[1, 13, 0, 1, 0, 3, 3][..], &at, &[8]].concat());
    assert_eq!(of(load, 2), [1, 13, 1, 1, 0, 3, 5, 8]);
    assert_eq!(of(load, 0), [1, 0, 3, 3, 0, 0x10, 0, 0, 0, 0, 0, 0, 8]);
    assert_eq!(of(load.opcode(LEA), 1), [1, 0, 3]);
    assert_eq!(of(Draft::of(&[DEREF_RDI]), 1), [1, 0, 7, 3, 0, 0x30, 0, 0, 0, 0, 0, 0, 8]);
}

/// T-11: a record without a digest is one with the digest of the table; an opcode that is not in it is 9, after 2 and before 3.
#[test]
fn no_digest() {
    let (none, bad) = (files::holding(&[]), [0; 141]);
    let adc = Draft::of(&[REG_RRR, REG_MMM]).opcode(108).reg(0, Q, 1).reg(1, Q, 3);
    let of = |record: Draft, file: &[u8]| expected::log(&kinds::bare(&record.0).unwrap(), file);
    assert_eq!(of(adc, &none), Ok(vec![1, 11, 0, 2, 11, 0, 1, 0, 1, 2, 0, 1, 1, 0, 3]));
    assert_eq!(of(adc, &bad), Err(Refusal::Number(3)));
    assert_eq!(of(adc.opcode(119), &bad), Err(Refusal::Number(9)));
    assert_eq!(of(adc.opcode(119).size(65), &bad), Err(Refusal::Number(2)));
    assert_eq!(expected::digest(&kinds::bare(&adc.opcode(118).0).unwrap()), 0x1B_0002_0000);
}

/// The text turns an opcode into a `ComplexOp` by its number: every number must come through.
#[test]
fn every_complex_opcode() {
    for opcode in 0..=65535 {
        let record = Draft::of(&[DISP]).opcode(opcode).behavior(COMPLEX);
        assert_eq!(refusal(record), Refusal::Complex(opcode));
    }
}
