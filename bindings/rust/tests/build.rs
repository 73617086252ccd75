//! The builders: what they build is what document 01 says, and is not refused by mistake.
use machhurel::*;

/// Document 01's P2: a read and a write of [rbx + 8], a read of rax, the flags written.
fn p2() -> RecordBuilder {
    Record::builder(40)
        .operand(Spec::Disp, Access::Both)
        .operand(Spec::RegRRR, Access::Read)
        .rrr(Register::quad(0))
        .base(Register::quad(3))
        .memory_size(8)
        .displacement(8)
        .flags(Access::Write)
}

#[test]
fn p2_has_its_log() {
    let file = RegisterFile::new().with(Known::Rbx, 0x1000);
    let mut log = [0; LOG_BYTES];
    let n = visit(&p2().build().unwrap(), &file, &mut log, 0).unwrap();
    let write = [4, 8, 0x10, 0, 0, 0, 0, 0, 0, 8];
    assert_eq!(log[..3], [2, 11, 0]);
    assert_eq!(log[19..29], write);
    assert_eq!(n, 32);
}

#[test]
fn each_field_stands_in_its_place() {
    let record = Record::builder(0x0201)
        .operand(Spec::RegVex, Access::None)
        .operand(Spec::MemBaseIndexScaleDispMask, Access::Both)
        .rrr(Register { bank: 2, number: 1 })
        .mmm(Register { bank: 0, number: 5 })
        .index(Register { bank: 0, number: 6 })
        .vex(Register { bank: 5, number: 7 })
        .memory_size(64)
        .scale(4)
        .displacement(-2)
        .immediate(0x0807_0605_0403_0201)
        .vex_w()
        .rex_w()
        .operand_size_prefix()
        .address_size_prefix()
        .mask(7)
        .privilege(PrivilegeLevel::PL0)
        .flags(Access::Both)
        .nontrivial()
        .list(26)
        .build()
        .unwrap();
    let expected = [
        0x10, 1, 2, 2, 3, 33, 0, 0, 2, 1, 0, 5, 0, 6, 5, 7, 64, 4, 0xFE, 0xFF, 0xFF, 0xFF, 0xFF,
        0xFF, 0xFF, 0xFF, 1, 2, 3, 4, 5, 6, 7, 8, 15, 7, 0x1D, 0x0C, 26, 0,
    ];
    assert_eq!(record[..], expected);
}

#[test]
fn mistakes_are_not_built() {
    let five = (0..5).fold(Record::builder(40), |b, _| {
        b.operand(Spec::ImmU8, Access::Read)
    });
    assert_eq!(five.build(), Err(Refusal::Field));
    assert_eq!(p2().memory_size(65).build(), Err(Refusal::Field));
    assert_eq!(p2().memory_size(0).build(), Err(Refusal::Size));
    assert_eq!(p2().mask(8).build(), Err(Refusal::Field));
    assert_eq!(p2().list(29).build(), Err(Refusal::Field));
    assert_eq!(p2().list(24).build(), Err(Refusal::Operand));
    assert_eq!(
        p2().rrr(Register { bank: 4, number: 8 }).build(),
        Err(Refusal::Field)
    );
    assert_eq!(
        p2().operand(Spec::Nothing, Access::Read).build(),
        Err(Refusal::Operand)
    );
    assert!(p2().operand(Spec::Nothing, Access::None).build().is_ok());
}

#[test]
fn complex_is_said_on_purpose() {
    let record = p2().complex().build().unwrap();
    let answer = visit(&record, &RegisterFile::new(), &mut [0; LOG_BYTES], 0);
    assert_eq!(answer, Err(Refusal::Complex { opcode: 40 }));
}

#[test]
fn a_file_knows_what_it_was_told() {
    let value = |k: usize| 0x0123_4567_89AB_CDEF_u64.rotate_left(k as u32);
    let all = &Known::ALL[..17];
    let mut file = RegisterFile::default();
    for (k, register) in all.iter().copied().enumerate() {
        assert_eq!(known(&file, register), None);
        file = file.with(register, value(k));
        assert_eq!(check_file(&file), Ok(()));
        assert_eq!(file[1..5], (u32::MAX >> (31 - k)).to_le_bytes());
    }
    for (k, register) in all.iter().copied().enumerate() {
        assert_eq!(known(&file, register), Some(value(k)));
    }
    assert_eq!(known(&file[..140], Known::Rax), None);
    assert_eq!(known(&[0; FILE_BYTES], Known::Rax), None);
    let mut bad = file.to_vec();
    bad[3] |= 2;
    assert_eq!(check_file(&bad), Err(Refusal::File));
}
