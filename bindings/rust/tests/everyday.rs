//! T-11 through the bindings: a record without a digest answers what the same record answers with the digest filled in. The table here is
//! a second reading of the request, by groups of mnemonics.
use machhurel::*;

mod common;
use common::Random;

/// What the request says of an opcode: `behavior`, accesses, list.
fn told(opcode: u16) -> Option<[u8; 4]> {
    const FLAGS_READ: u8 = 0x04;
    const FLAGS_WRITE: u8 = 0x08;
    const NONTRIVIAL: u8 = 0x10;
    let [read, write, both] = [1, 2, 3];
    let second = |access: u8| access << 2;
    let name = opcode_name(opcode)?;
    let (behavior, access, list) = match name {
        "MOV" | "MOVZX" | "MOVSX" | "LEA" => (0, write | second(read), 0),
        "ADD" | "SUB" | "AND" | "OR" | "XOR" => (FLAGS_WRITE, both | second(read), 0),
        "ADC" | "SBB" => (FLAGS_READ | FLAGS_WRITE, both | second(read), 0),
        "CMP" | "TEST" => (FLAGS_WRITE, read | second(read), 0),
        "INC" | "DEC" | "NEG" => (FLAGS_WRITE, both, 0),
        "NOT" => (0, both, 0),
        "XCHG" => (0, both | second(both), 0),
        "PUSH" => (0, read, 26),
        "POP" => (0, write, 27),
        "MUL" => (NONTRIVIAL | FLAGS_WRITE, read, 0),
        _ => return None,
    };
    Some([behavior, access, list, 0])
}

/// 36 bytes of kind 0x12, most of them inside their tables.
fn bare(random: &mut Random) -> Vec<u8> {
    let mut bytes = vec![0; EVERYDAY_RECORD_BYTES];
    bytes[0] = 0x12;
    let opcode = match random.below(8) {
        0 => random.below(130) as u16,
        1 => random.next() as u16,
        2 => random.one_of(&[1, 28]),
        _ => 100 + random.below(19) as u16,
    };
    bytes[1..3].copy_from_slice(&opcode.to_le_bytes());
    bytes[3] = random.below(5) as u8;
    for at in 4..8 {
        bytes[at] = random.below(36) as u8;
    }
    for at in [8, 10, 12, 14] {
        bytes[at] = random.one_of(&[0, 0, 1, 2, 4, 5, 8]);
        bytes[at + 1] = random.below(8) as u8;
    }
    bytes[16] = random.one_of(&[0, 1, 2, 4, 8, 8]);
    bytes[17] = random.below(9) as u8;
    bytes[18..34].copy_from_slice(&random.bytes(16));
    bytes[34] = random.below(16) as u8;
    bytes[35] = random.below(8) as u8;
    if random.below(16) == 0 {
        let at = 3 + random.index(33);
        bytes[at] = random.next() as u8;
    }
    bytes
}

/// The same record in kind 0x10: with the digest filled in, or with none where the opcode has none.
fn filled(bare: &[u8]) -> Vec<u8> {
    let opcode = u16::from_le_bytes([bare[1], bare[2]]);
    let mut bytes = bare.to_vec();
    bytes[0] = 0x10;
    bytes.extend(told(opcode).unwrap_or_default());
    bytes
}

fn file(random: &mut Random) -> Vec<u8> {
    let mut file = random.bytes(FILE_BYTES);
    file[0] = 0x20;
    file[3] &= 1;
    file[4] = if random.below(8) == 0 { 1 } else { 0 };
    file
}

/// What the five calls answer, and what stands in the buffers.
type Answers = (
    (Result<usize, Refusal>, Vec<u8>),
    (Result<usize, Refusal>, Vec<u8>),
    Result<Digest, Refusal>,
    Result<PrivilegeLevel, Refusal>,
    Result<Exceptions, Refusal>,
);

fn answers(record: &[u8], file: &[u8], room: usize, start: usize) -> Answers {
    let (mut log, mut listed) = (vec![0xEE; room], vec![0xEE; room]);
    let visited = visit(record, file, &mut log, start);
    let items = listing(record, &mut listed, start);
    (
        (visited, log),
        (items, listed),
        digest(record),
        privilege(record),
        exceptions(record),
    )
}

/// All five refused alike, and no byte written.
fn refused(refusal: Refusal, room: usize) -> Answers {
    let untouched = (Err(refusal), vec![0xEE; room]);
    (
        untouched.clone(),
        untouched,
        Err(refusal),
        Err(refusal),
        Err(refusal),
    )
}

#[test]
fn as_the_kind_with_the_digest_filled_in() {
    let mut random = Random(0x2545_F491_4F6C_DD1D);
    let (mut logged, mut nine, mut two) = (0, 0, 0);
    for _ in 0..200_000 {
        let (record, file) = (bare(&mut random), file(&mut random));
        let (room, start) = (random.one_of(&[0, 8, 40, 210]), random.index(10));
        let answered = answers(&record, &file, room, start);
        let filled = filled(&record);
        let opcode = u16::from_le_bytes([record[1], record[2]]);
        if digest(&filled) == Err(Refusal::Field) {
            assert_eq!(answered, refused(Refusal::Field, room), "{record:x?}");
            two += 1;
        } else if told(opcode).is_none() {
            assert_eq!(answered, refused(Refusal::Opcode, room), "{record:x?}");
            nine += 1;
        } else {
            assert_eq!(
                answered,
                answers(&filled, &file, room, start),
                "{record:x?}"
            );
            logged += usize::from(answered.0 .0.is_ok());
        }
    }
    assert!(
        logged > 20_000 && nine > 5_000 && two > 500,
        "{logged} {nine} {two}"
    );
}

/// Only 36 bytes are a record of this kind: it has no digest and no segment behind it.
#[test]
fn its_length() {
    let record = bare(&mut Random(1));
    for length in 0..64 {
        let mut bytes = record.clone();
        bytes.resize(length, 0);
        let is_form = digest(&bytes) == Err(Refusal::Form);
        assert_eq!(is_form, length != EVERYDAY_RECORD_BYTES, "{length}");
    }
}

/// A trace has it among its items, and the builder's last word decides the kind.
#[test]
fn in_a_trace_and_from_the_builder() {
    let push = Record::builder(117)
        .operand(Spec::RegRRR, Access::None)
        .memory_size(8);
    let bare = push.everyday().build().unwrap();
    assert_eq!(bare.len(), EVERYDAY_RECORD_BYTES);
    assert_eq!(digest(&bare).unwrap().list, 26);
    let (named, unnamed) = (
        push.everyday().segment(Segment::Fs),
        push.segment(Segment::Fs).everyday(),
    );
    assert_eq!(named.build().unwrap().len(), SEGMENT_RECORD_BYTES);
    assert_eq!(unnamed.build().unwrap(), bare);
    let trace = [&RegisterFile::new()[..], &bare, &bare].concat();
    let items: Result<Vec<_>, _> = Items::new(&trace).collect();
    let lengths: Vec<_> = items.unwrap().iter().map(|item| item.bytes.len()).collect();
    assert_eq!(
        lengths,
        [FILE_BYTES, EVERYDAY_RECORD_BYTES, EVERYDAY_RECORD_BYTES]
    );
}
