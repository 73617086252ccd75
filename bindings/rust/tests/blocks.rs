//! A block of records against single calls: each record visited by itself, and what document 02 says of their answers.
mod common;

use common::calls::machhurel_block;
use common::Random;
use machhurel::*;

/// The bytes of a buffer before a call.
const BEFORE: u8 = 0xEE;

/// Any record, and any opcode; sometimes of another kind, complex, outside its tables or without a size.
fn any_record(random: &mut Random) -> Vec<u8> {
    let mut record = common::inputs::any_record(random);
    record[1..3].copy_from_slice(&(random.next() as u16).to_le_bytes());
    match random.below(12) {
        0 => record[16] = 0,
        1 => record[0] = random.one_of(&[0, 0x20, 0xFF]),
        2 => record[36] |= 0x20,
        3 => record[3] = 5,
        _ => {}
    }
    record
}

fn any_file(random: &mut Random) -> Vec<u8> {
    let mut file = random.bytes(FILE_BYTES);
    file[0] = 0x20;
    file[1..5].copy_from_slice(&random.one_of(&[0u32, 0x1FFFF, 0x00FF]).to_le_bytes());
    file
}

/// What the block call leaves: its answer's bits, the log buffer and the answer buffer.
type Left = (u64, Vec<u8>, Vec<u8>);

fn block(
    records: &[u8],
    each: usize,
    file: &[u8],
    room: usize,
    start: usize,
    answers: usize,
) -> Left {
    let (mut log, mut told) = (vec![BEFORE; room], vec![BEFORE; answers]);
    let answer = machhurel_block(records, each, file, &mut log, start, &mut told);
    (answer, log, told)
}

/// The same by single calls: four bytes a record, up to and with the first that has too little room.
fn singly(records: &[Vec<u8>], file: &[u8], room: usize, start: usize, answers: usize) -> Left {
    let (mut log, mut told) = (vec![BEFORE; room], vec![BEFORE; answers]);
    let (mut place, mut count) = (start, 0);
    for (i, record) in records.iter().enumerate() {
        let found = visit(record, file, &mut log, place);
        let (number, length, opcode) = match found {
            Ok(n) => (0, n, 0),
            Err(Refusal::Room { needed }) => (7, needed, 0),
            Err(refusal) => (refusal.number(), 0, refusal.opcode().unwrap_or(0)),
        };
        let four = [
            number,
            length as u8,
            (opcode % 256) as u8,
            (opcode / 256) as u8,
        ];
        told[4 * i..4 * i + 4].copy_from_slice(&four);
        if number == 7 {
            break;
        }
        place += found.unwrap_or(0);
        count += 1;
    }
    (count << 8 | ((place - start) as u64) << 32, log, told)
}

#[test]
fn a_block_is_its_single_calls() {
    let mut random = Random(0xB10C);
    let mut seen = [0; 8];
    for _ in 0..4_000 {
        let records: Vec<_> = (0..random.below(40))
            .map(|_| any_record(&mut random))
            .collect();
        let file = any_file(&mut random);
        let room = random.index(800);
        let start = random.one_of(&[0, 0, 1, 7, room, room + 1, room + 1000]);
        let answers = 4 * records.len() + random.one_of(&[0, 0, 3, 9]);
        let bytes = records.concat();
        let found = block(&bytes, RECORD_BYTES, &file, room, start, answers);
        assert_eq!(found, singly(&records, &file, room, start, answers));
        let told = records.len().min((found.0 >> 8) as u16 as usize + 1);
        for four in found.2.chunks(4).take(told) {
            seen[usize::from(four[0])] += 1;
        }
    }
    for number in [0, 1, 2, 4, 5, 6, 7] {
        assert!(seen[number] > 500, "{seen:?}");
    }
}

/// Records that leave the digest to their opcode: 36 bytes each, and 9 goes on as 2 does.
#[test]
fn a_block_of_records_without_a_digest() {
    let mut random = Random(0x36);
    let (mut logs, mut nine) = (0, 0);
    for _ in 0..1_000 {
        let bare = |random: &mut Random| {
            let mut record = any_record(random);
            record.truncate(EVERYDAY_RECORD_BYTES);
            if record[0] == 0x10 {
                record[..3].copy_from_slice(&[0x12, 100 + random.below(22) as u8, 0]);
            }
            record
        };
        let records: Vec<_> = (0..random.below(40)).map(|_| bare(&mut random)).collect();
        let (file, room) = (any_file(&mut random), random.index(800));
        let answers = 4 * records.len();
        let found = block(
            &records.concat(),
            EVERYDAY_RECORD_BYTES,
            &file,
            room,
            3,
            answers,
        );
        assert_eq!(found, singly(&records, &file, room, 3, answers));
        logs += usize::from(found.0 >> 32 > 0);
        nine += found
            .2
            .chunks(4)
            .filter(|four| **four == [9, 0, 0, 0])
            .count();
    }
    assert!(logs > 500 && nine > 500, "{logs} {nine}");
}

#[test]
fn the_answers_one_after_the_other() {
    let mut random = Random(0xA5_0B10C);
    for _ in 0..500 {
        let records: Vec<_> = (0..random.below(30))
            .map(|_| any_record(&mut random))
            .collect();
        let file = any_file(&mut random);
        let mut log = vec![BEFORE; random.index(600)];
        let mut answers = vec![BEFORE; 4 * records.len()];
        let block = visit_block(
            &records.concat(),
            RECORD_BYTES,
            &file,
            &mut log,
            0,
            &mut answers,
        )
        .unwrap();
        let mut room = vec![0u8; LOG_BYTES];
        let mut logs = Vec::new();
        for (i, (found, record)) in block.answers().zip(&records).enumerate() {
            let alone = visit(record, &file, &mut room, 0);
            match found {
                Ok(log) => assert_eq!(Ok(log), alone.map(|n| &room[..n])),
                Err(Refusal::Room { needed }) => {
                    assert_eq!((i, Ok(needed)), (block.count(), alone))
                }
                Err(refusal) => assert_eq!(Err(refusal), alone),
            }
            logs.extend_from_slice(found.unwrap_or(&[]));
        }
        assert_eq!((block.log(), block.written()), (&logs[..], logs.len()));
        assert_eq!(
            block.answers().count(),
            records.len().min(block.count() + 1)
        );
    }
}

#[test]
fn the_whole_call_refused() {
    let mut good = vec![0u8; FILE_BYTES];
    good[0] = 0x20;
    let bad = vec![0u8; FILE_BYTES];
    let refused = |number, room, answers| (number, vec![BEFORE; room], vec![BEFORE; answers]);
    // another length than a record has, of no bytes too
    for each in (0..200)
        .filter(|each| ![EVERYDAY_RECORD_BYTES, RECORD_BYTES, SEGMENT_RECORD_BYTES].contains(each))
        .chain([usize::MAX])
    {
        assert_eq!(block(&[], each, &good, 9, 0, 9), refused(1, 9, 9));
        assert_eq!(block(&[0; 80], each, &bad, 9, 0, 0), refused(1, 9, 0));
    }
    // each test before the next
    let zeros = vec![0u8; 41_041];
    assert_eq!(block(&zeros[..40_041], 40, &bad, 9, 0, 0), refused(1, 9, 0));
    assert_eq!(block(&zeros[..40_040], 40, &bad, 9, 0, 0), refused(2, 9, 0));
    assert_eq!(block(&zeros[..40_000], 40, &bad, 9, 0, 0), refused(3, 9, 0));
    assert_eq!(
        block(&zeros[..40_000], 40, &good, 9, 0, 3_999),
        refused(7, 9, 3_999)
    );
    assert_eq!(block(&[], 40, &bad, 9, 0, 9), refused(3, 9, 9));
    assert_eq!(block(&zeros, 41, &bad, 9, 0, 0), refused(2, 9, 0));
    assert_eq!(block(&zeros[..36_036], 36, &bad, 9, 0, 0), refused(2, 9, 0));
    // no records, under a good file
    assert_eq!(block(&[], 41, &good, 9, 99, 9), refused(0, 9, 9));
    assert_eq!(block(&[], 40, &good, 9, 99, 9), refused(0, 9, 9));
}

#[test]
fn a_thousand_records() {
    let mut record = vec![0u8; RECORD_BYTES];
    record[..5].copy_from_slice(&[0x10, 40, 0, 1, 1]);
    record[37] = 0x01;
    let mut file = vec![0u8; FILE_BYTES];
    file[0] = 0x20;
    let bytes = record.repeat(BLOCK_RECORDS);
    let (answer, log, answers) = block(
        &bytes,
        RECORD_BYTES,
        &file,
        3 * BLOCK_RECORDS,
        0,
        4 * BLOCK_RECORDS,
    );
    assert_eq!(answer, 1000 << 8 | 3000 << 32);
    assert_eq!(log, [1, 0, 0].repeat(BLOCK_RECORDS));
    assert_eq!(answers, [0, 3, 0, 0].repeat(BLOCK_RECORDS));
    // one byte less: the last one is refused for room
    let (answer, log, answers) = block(
        &bytes,
        RECORD_BYTES,
        &file,
        3 * BLOCK_RECORDS - 1,
        0,
        4 * BLOCK_RECORDS,
    );
    assert_eq!(answer, 999 << 8 | 2997 << 32);
    assert_eq!(log[2997..], [BEFORE; 2]);
    assert_eq!(answers[3996..], [7, 3, 0, 0]);
}
