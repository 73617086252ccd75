//! A reader against a second reading of the whole stream, however it is cut: its items by their kinds and lengths, as FORMAT lays them
//! out, and each record visited alone.
mod common;

use common::calls::{machhurel_reader_close as close, machhurel_reader_new, machhurel_reader_read};
use common::{inputs, Random};
use machhurel::*;

/// What is told of an item: the number, the log, and the opcode after 4.
type Answer = (u8, Vec<u8>, u16);

const KIND_RECORD: u8 = 0x10;
const KIND_SEGMENT: u8 = 0x11;
const KIND_EVERYDAY: u8 = 0x12;
const KIND_FILE: u8 = 0x20;
const KIND_BASED: u8 = 0x21;

/// Whether the bytes of a register file are a good one: no known bit above that of rip, or above those of the bases.
fn is_good(file: &[u8]) -> bool {
    let values = if file[0] == KIND_BASED { 19 } else { 17 };
    u32::from_le_bytes([file[1], file[2], file[3], file[4]]) < 1 << values
}

fn visited(record: &[u8], file: &[u8]) -> Answer {
    let mut log = [0u8; LOG_BYTES];
    match visit(record, file, &mut log, 0) {
        Ok(n) => (0, log[..n].to_vec(), 0),
        Err(refusal) => (refusal.number(), Vec::new(), refusal.opcode().unwrap_or(0)),
    }
}

/// The whole stream: its answers up to and with the first unknown kind, and how it ends.
fn read_whole(stream: &[u8]) -> (Vec<Answer>, End) {
    let (mut answers, mut file, mut rest) = (Vec::new(), Vec::new(), stream);
    loop {
        let long = match rest.first() {
            None => return (answers, End::Between),
            Some(&KIND_RECORD) => RECORD_BYTES,
            Some(&KIND_SEGMENT) => SEGMENT_RECORD_BYTES,
            Some(&KIND_EVERYDAY) => EVERYDAY_RECORD_BYTES,
            Some(&KIND_FILE) => FILE_BYTES,
            Some(&KIND_BASED) => BASED_FILE_BYTES,
            Some(_) => {
                answers.push((1, Vec::new(), 0));
                return (answers, End::Stopped);
            }
        };
        if rest.len() < long {
            return (answers, End::Inside);
        }
        let (item, behind) = rest.split_at(long);
        rest = behind;
        if item[0] < KIND_FILE {
            answers.push(visited(item, &file));
        } else if is_good(item) {
            file = item.to_vec();
        } else {
            answers.push((3, Vec::new(), 0));
        }
    }
}

/// A call with bytes before and behind its log, which stay as they are.
fn call(reader: &mut Reader, chunk: &[u8], random: &mut Random) -> (Handed, Answer) {
    let start = random.index(9);
    let mut buffer = vec![0xEE; start + LOG_BYTES + random.index(5)];
    let handed = reader.read(chunk, &mut buffer, start);
    let answer = match handed.told {
        Told::Log(n) => (0, buffer[start..start + n].to_vec(), 0),
        Told::Refused(refusal) => (refusal.number(), Vec::new(), refusal.opcode().unwrap_or(0)),
        Told::Stopped => (1, Vec::new(), 0),
        Told::More => (0, Vec::new(), 0),
        Told::Room { .. } => panic!("there is room"),
    };
    let end = start + answer.1.len();
    assert!(buffer[..start]
        .iter()
        .chain(&buffer[end..])
        .all(|byte| *byte == 0xEE));
    (handed, answer)
}

/// With too little room nothing is taken and nothing changes.
fn call_without_room(reader: &mut Reader, chunk: &[u8], random: &mut Random) {
    let before = reader.clone();
    let mut buffer = vec![0xEE; random.index(LOG_BYTES + 4)];
    let past_the_end = buffer.len() + random.index(3);
    let start = past_the_end.max(buffer.len().saturating_sub(random.index(LOG_BYTES)));
    let handed = reader.read(chunk, &mut buffer, start);
    assert_eq!(handed.taken, 0);
    assert_eq!(handed.told, Told::Room { needed: LOG_BYTES });
    assert_eq!(*reader, before);
    assert!(buffer.iter().all(|byte| *byte == 0xEE));
}

/// A stream handed over in chunks: what was told, how it ended, and how many calls that took.
fn read_in_chunks(
    stream: &[u8],
    sizes: &mut dyn FnMut(&mut Random) -> usize,
    random: &mut Random,
) -> (Vec<Answer>, End, u64) {
    let (mut reader, mut answers, mut calls) = (Reader::new(), Vec::new(), 0);
    let mut rest = stream;
    'stream: while !rest.is_empty() {
        let (mut chunk, behind) = rest.split_at(sizes(random).min(rest.len()));
        loop {
            if random.below(16) == 0 {
                call_without_room(&mut reader, chunk, random);
            }
            let (handed, answer) = call(&mut reader, chunk, random);
            calls += 1;
            chunk = &chunk[handed.taken..];
            match handed.told {
                Told::More => {
                    assert!(chunk.is_empty(), "more is awaited");
                    break;
                }
                Told::Stopped => {
                    answers.push(answer);
                    // and in every later call
                    let again = call(&mut reader, chunk, random).0;
                    assert_eq!((again.taken, again.told), (0, Told::Stopped));
                    break 'stream;
                }
                _ => {
                    assert!(handed.taken > 0);
                    answers.push(answer);
                }
            }
        }
        rest = behind;
    }
    let end = reader.close();
    assert_eq!(reader, Reader::new(), "closed, it is fresh");
    (answers, end, calls)
}

/// A record of some kind; sometimes complex, with a field outside its table, or of no memory size.
fn any_record(random: &mut Random) -> Vec<u8> {
    let mut record = inputs::any_record(random);
    match random.below(12) {
        0 => record[16] = 0,
        1 => record[3] = 5,
        2 => record[36] = 0x20,
        _ => {}
    }
    in_some_kind(record, random)
}

/// The same record in one of the kinds: with a segment, sometimes one that there is not; or without its digest, and sometimes with an
/// opcode that has one.
fn in_some_kind(mut record: Vec<u8>, random: &mut Random) -> Vec<u8> {
    match random.below(3) {
        0 => {
            record[0] = KIND_SEGMENT;
            record.push(random.one_of(&[0, 1, 1, 2, 2, 3]));
        }
        1 => {
            record[0] = KIND_EVERYDAY;
            record[1] = random.one_of(&[40, 28, 100, 103, 117]);
            record.truncate(EVERYDAY_RECORD_BYTES);
        }
        _ => {}
    }
    record
}

/// A file that knows some of the registers; sometimes one that there is not.
fn any_file(random: &mut Random) -> Vec<u8> {
    let (kind, long) = random.one_of(&[(KIND_FILE, FILE_BYTES), (KIND_BASED, BASED_FILE_BYTES)]);
    let mut file = random.bytes(long);
    let known = random.one_of(&[0u32, 0x1_FFFF, 0xFF, 0xAAAA, 0x2_0000, 0x6_0000, 0x8_0000]);
    file[0] = kind;
    file[1..5].copy_from_slice(&known.to_le_bytes());
    file
}

fn any_item(random: &mut Random) -> Vec<u8> {
    match random.below(3) {
        0 => any_file(random),
        _ => any_record(random),
    }
}

const RECORDED: [&[u8]; 2] = [
    include_bytes!("../../../samples/torn.trace"),
    include_bytes!("../../../samples/thread.trace"),
];

/// A recorded stream or one of random items; often cut short, and sometimes with a byte changed, put in or taken out.
fn any_stream(random: &mut Random) -> Vec<u8> {
    let mut stream = match random.below(4) {
        0 => random.one_of(&RECORDED).to_vec(),
        _ => {
            let items = random.below(12);
            (0..items).flat_map(|_| any_item(random)).collect()
        }
    };
    if stream.is_empty() {
        return stream;
    }
    let at = random.index(stream.len());
    match random.below(8) {
        0 => stream[at] = random.next() as u8,
        1 => stream.insert(at, random.next() as u8),
        2 => {
            stream.remove(at);
        }
        3 | 4 => stream.truncate(at),
        _ => {}
    }
    stream
}

#[test]
fn however_a_stream_is_cut() {
    let mut random = Random(0x0071_4EA4);
    let mut numbers = [0u64; 10];
    let mut ends = [0u64; 3];
    let mut calls = 0;
    for round in 0..2500 {
        let stream = any_stream(&mut random);
        let (answers, end) = read_whole(&stream);
        for (number, _, _) in &answers {
            numbers[usize::from(*number)] += 1;
        }
        ends[end as usize] += 1;
        for most in [1, 2, 7, 64, BASED_FILE_BYTES, 400, 2000] {
            let mut sizes = |random: &mut Random| match round % 2 {
                0 => most,
                _ => random.index(most + 1),
            };
            let (found, closed, n) = read_in_chunks(&stream, &mut sizes, &mut random);
            assert_eq!(found, answers, "chunks of {most} bytes");
            assert_eq!(closed, end);
            calls += n;
        }
    }
    for number in [0, 1, 2, 3, 4, 5, 6, 9] {
        assert!(numbers[number] > 100, "{number}: {numbers:?}");
    }
    assert!(ends.iter().all(|seen| *seen > 100), "{ends:?}");
    assert!(calls > 1_000_000, "{calls} calls");
}

#[test]
fn a_recorded_stream_cut_anywhere_in_two() {
    let mut random = Random(0x0700_4EA4);
    for stream in RECORDED {
        let (answers, end) = read_whole(stream);
        for cut in 0..=stream.len() {
            let mut first = true;
            let mut sizes = |_: &mut Random| {
                let size = if first { cut } else { stream.len() };
                first = false;
                size
            };
            let (found, closed, _) = read_in_chunks(stream, &mut sizes, &mut random);
            assert_eq!((&found, closed), (&answers, end), "cut at {cut}");
        }
    }
}

/// One call of the C interface: all bits of its answer, and the bytes taken.
fn read(words: &mut [u64; 48], chunk: &[u8], room: usize) -> (u64, u64) {
    let (mut log, mut taken) = (vec![0u8; room], u64::MAX);
    let answer = machhurel_reader_read(words, chunk, &mut log, 0, &mut taken);
    (answer, taken)
}

fn fresh() -> [u64; 48] {
    let mut words = [u64::MAX; 48];
    assert_eq!(machhurel_reader_new(&mut words), 0);
    words
}

/// `add [rbx+8], rax`, a file that knows rbx, and one that knows a register which there is not.
fn p2_and_files() -> ([u8; RECORD_BYTES], [u8; FILE_BYTES], [u8; FILE_BYTES]) {
    let mut p2 = [0u8; RECORD_BYTES];
    p2[..6].copy_from_slice(&[KIND_RECORD, 40, 0, 2, 24, 1]);
    p2[11] = 3;
    p2[16] = 8;
    p2[18] = 8;
    p2[36..38].copy_from_slice(&[0x08, 0x07]);
    let mut good = [0u8; FILE_BYTES];
    good[..2].copy_from_slice(&[KIND_FILE, 1 << 3]);
    good[5 + 3 * 8 + 1] = 0x10;
    let mut bad = good;
    bad[3] = 2;
    (p2, good, bad)
}

const FINISHED: u64 = 1 << 24;
const BYTES: u64 = 1 << 32;
const ENOUGH: usize = LOG_BYTES;

#[test]
fn the_traps_of_the_request() {
    let (p2, good, bad) = p2_and_files();
    let a_log = FINISHED + 32 * BYTES;
    let short = 7 + LOG_BYTES as u64 * BYTES;
    let cat = |parts: &[&[u8]]| parts.concat();

    // a good file does not end the call
    let mut words = fresh();
    let four = cat(&[&good, &good, &p2, &p2]);
    assert_eq!(read(&mut words, &four, ENOUGH), (a_log, 322));
    assert_eq!(read(&mut words, &four[322..], ENOUGH), (a_log, 40));
    // the early 7 comes before an unknown kind, and of no bytes too; it does not stop the reader
    let mut words = fresh();
    assert_eq!(read(&mut words, &[0xFF], 0), (short, 0));
    assert_eq!(read(&mut words, &[], ENOUGH - 1), (short, 0));
    assert_eq!(read(&mut words, &[0xFF], ENOUGH), (1, 0));
    assert_eq!(read(&mut words, &p2, 0), (1, 0));
    assert_eq!(close(&mut words), 1);
    assert_eq!(read(&mut words, &[], ENOUGH), (0, 0));
    // no file: 3 in the table's order
    let mut complex = p2;
    complex[1..3].copy_from_slice(&0x1234u16.to_le_bytes());
    complex[36] = 0x20;
    let mut outside = p2;
    outside[3] = 5;
    assert_eq!(read(&mut words, &p2, ENOUGH), (3 + FINISHED, 40));
    assert_eq!(read(&mut words, &complex, ENOUGH), (3 + FINISHED, 40));
    assert_eq!(read(&mut words, &outside, ENOUGH), (2 + FINISHED, 40));
    // a bad file, and the earlier one stays
    assert_eq!(
        read(&mut words, &cat(&[&good, &bad]), ENOUGH),
        (3 + FINISHED, 282)
    );
    assert_eq!(read(&mut words, &p2, ENOUGH), (a_log, 40));
    assert_eq!(
        read(&mut words, &complex, ENOUGH),
        (4 + (0x1234 << 8) + FINISHED, 40)
    );
    // the byte of an unknown kind is not taken
    let mut words = fresh();
    let last = cat(&[&good, &p2, &[0xFF]]);
    assert_eq!(read(&mut words, &last, ENOUGH), (a_log, 181));
    assert_eq!(read(&mut words, &last[181..], ENOUGH), (1, 0));
    let mut words = fresh();
    assert_eq!(read(&mut words, &cat(&[&good, &[0xFF]]), ENOUGH), (1, 141));
    // the kept bytes stay on 7
    let mut words = fresh();
    assert_eq!(
        read(&mut words, &cat(&[&good, &p2[..20]]), ENOUGH),
        (0, 161)
    );
    assert_eq!(read(&mut words, &p2[20..], ENOUGH - 1), (short, 0));
    assert_eq!(read(&mut words, &p2[20..], ENOUGH), (a_log, 20));
    // closing inside an item, which leaves no file
    assert_eq!(read(&mut words, &p2[..20], ENOUGH), (0, 20));
    assert_eq!(close(&mut words), 8);
    assert_eq!(read(&mut words, &p2, ENOUGH), (3 + FINISHED, 40));
    assert_eq!(close(&mut words), 0);
    assert_eq!(read(&mut words, &good[..140], ENOUGH), (0, 140));
    assert_eq!(close(&mut words), 8);
    assert_eq!(words, fresh());
}

/// Each kind by its own length, and 9 before 3.
#[test]
fn every_kind() {
    let (p2, good, _) = p2_and_files();
    // P2 under fs, and P2 without its digest: as ADD, and with an opcode that has none
    let mut under_fs = [&p2[..], &[1]].concat();
    under_fs[0] = KIND_SEGMENT;
    let mut undigested = p2[..EVERYDAY_RECORD_BYTES].to_vec();
    undigested[0] = KIND_EVERYDAY;
    let mut add = undigested.clone();
    add[1] = 103;
    // the same file with the base of fs, and with a known bit that it has not
    let mut based = [&good[..], &[0; 16]].concat();
    based[0] = KIND_BASED;
    based[3] = 2;
    based[FILE_BYTES + 2] = 7;
    let mut bad = based.clone();
    bad[3] = 8;
    let log_of = |bytes: u64| FINISHED + bytes * BYTES;

    let mut words = fresh();
    assert_eq!(read(&mut words, &under_fs, ENOUGH), (3 + FINISHED, 41));
    assert_eq!(read(&mut words, &add, ENOUGH), (3 + FINISHED, 36));
    assert_eq!(read(&mut words, &undigested, ENOUGH), (9 + FINISHED, 36));
    let stream = [&based[..], &under_fs[..], &add[..]].concat();
    assert_eq!(read(&mut words, &stream, ENOUGH), (log_of(38), 198));
    assert_eq!(read(&mut words, &stream[198..], ENOUGH), (log_of(32), 36));
    assert_eq!(read(&mut words, &p2, ENOUGH), (log_of(32), 40));
    assert_eq!(read(&mut words, &undigested, ENOUGH), (9 + FINISHED, 36));
    assert_eq!(read(&mut words, &bad, ENOUGH), (3 + FINISHED, 157));
    assert_eq!(read(&mut words, &under_fs, ENOUGH), (log_of(38), 41));
    // one kind of file takes the other's place: the base of fs is unknown again
    let stream = [&good[..], &under_fs[..]].concat();
    assert_eq!(read(&mut words, &stream, ENOUGH), (log_of(22), 182));
    assert_eq!(read(&mut words, &based[..156], ENOUGH), (0, 156));
    assert_eq!(close(&mut words), 8);
}

/// Words that no call leaves count as a reader that has stopped, and every words get an answer.
#[test]
fn any_words_get_an_answer() {
    let mut random = Random(0x0A11_00D5);
    let (p2, good, _) = p2_and_files();
    for _ in 0..20_000 {
        let mut words = [0u64; 48];
        words.fill_with(|| random.next());
        assert_eq!(read(&mut words, &p2, ENOUGH), (1, 0));
        assert_eq!(close(&mut words), 1);
    }
    // one bit changed: the reader has stopped, or it is another one that a stream leaves
    let mut words = fresh();
    let stream = [&good[..], &p2[..17]].concat();
    assert_eq!(read(&mut words, &stream, ENOUGH), (0, 158));
    let (mut stopped, mut others) = (0, 0);
    for word in 0..48 {
        for bit in 0..64 {
            let mut changed = words;
            changed[word] ^= 1 << bit;
            match close(&mut changed) {
                1 => stopped += 1,
                8 => others += 1,
                number => panic!("{number} of word {word}, bit {bit}"),
            }
            assert_eq!(changed, fresh());
        }
    }
    assert!(stopped > 1000 && others > 1000, "{stopped} {others}");
}
