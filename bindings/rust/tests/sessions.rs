//! A log session against a second reading: after every call the log is read from its start, byte by byte, as FORMAT lays events out.
mod common;

use common::calls::machhurel_append;
use common::Random;
use machhurel::*;

/// The events of a log and those of kinds 5 and 6, by the length that each kind has.
fn read_whole(log: &[u8]) -> (u64, u64) {
    let (mut at, mut events, mut unknown) = (0, 0, 0);
    while at < log.len() {
        let kind = log[at];
        at += match kind {
            1 | 2 => 3,
            3 | 4 => 10,
            5 | 6 => 2,
            _ => panic!("kind {kind} at {at}"),
        };
        events += 1;
        unknown += u64::from(kind >= 5);
    }
    assert_eq!(at, log.len(), "an event is cut short");
    (events, unknown)
}

/// Any record; sometimes cut, complex, outside its tables or without a size.
fn any_record(random: &mut Random) -> Vec<u8> {
    let mut record = common::inputs::any_record(random);
    match random.below(16) {
        0 => record[16] = 0,
        1 => record.truncate(random.index(RECORD_BYTES)),
        2 => record[36] |= 0x20,
        3 => record[3] = 5,
        _ => {}
    }
    record
}

/// A file that knows some of the registers; sometimes none at all.
fn any_file(random: &mut Random) -> Vec<u8> {
    let mut file = vec![0u8; FILE_BYTES];
    file[0] = 0x20;
    let known = random.one_of(&[0u16, 0xFFFF, 0x00FF, 0xAAAA]);
    file[1..3].copy_from_slice(&known.to_le_bytes());
    for byte in &mut file[5..] {
        *byte = random.below(256) as u8;
    }
    if random.below(20) == 0 {
        file.truncate(random.below(FILE_BYTES as u64) as usize);
    }
    file
}

/// The counts, and nothing else, of the log that is there.
fn check(session: &Session) {
    let whole = read_whole(session.log());
    assert_eq!((session.events(), session.unknown()), whole);
    assert_eq!(session.log().len(), session.used());
}

#[test]
fn counts_are_those_of_the_whole_log() {
    let mut random = Random(0x5E55_1015);
    let (mut written, mut empty, mut full, mut refused, mut resets) = (0, 0, 0, 0, 0);
    for _ in 0..400 {
        let mut buffer = vec![0xEE; random.below(1200) as usize];
        let mut session = Session::new(&mut buffer);
        for _ in 0..100 {
            if random.below(40) == 0 {
                let bytes = session.log().to_vec();
                session.reset();
                let counts = (session.used(), session.events(), session.unknown());
                assert_eq!(counts, (0, 0, 0));
                let buffer = session.into_buffer();
                assert_eq!(buffer[..bytes.len()], bytes, "a reset clears no byte");
                session = Session::new(buffer);
                resets += 1;
                continue;
            }
            let (record, file) = (any_record(&mut random), any_file(&mut random));
            let before = session.log().to_vec();
            let counts = (session.events(), session.unknown());
            let alone = {
                let mut log = [0u8; LOG_BYTES];
                visit(&record, &file, &mut log, 0).map(|n| log[..n].to_vec())
            };
            match session.append(&record, &file) {
                Ok(n) => {
                    let log = alone.expect("a visit alone writes it too");
                    assert_eq!(session.log(), [before, log].concat());
                    written += u64::from(n > 0);
                    empty += u64::from(n == 0);
                }
                Err(Refusal::Room { needed }) => {
                    assert_eq!(alone.map(|log| log.len()), Ok(needed));
                    assert_eq!(session.log(), before);
                    assert_eq!((session.events(), session.unknown()), counts);
                    full += 1;
                }
                Err(refusal) => {
                    assert_eq!(alone, Err(refusal));
                    assert_eq!(session.log(), before);
                    assert_eq!((session.events(), session.unknown()), counts);
                    refused += 1;
                }
            }
            check(&session);
        }
    }
    for seen in [written, empty, full, refused, resets] {
        assert!(seen > 500, "{written} {empty} {full} {refused} {resets}");
    }
}

/// One append by the C call: its answer, the words and the buffer after it.
fn append(mut words: [u64; 3], record: &[u8], file: &[u8], log: &mut [u8]) -> (u64, [u64; 3]) {
    let answer = machhurel_append(&mut words, record, file, log);
    (answer, words)
}

/// 8 bytes are read at rbx, which is not known: 5 bytes of log.
fn blind_read() -> ([u8; RECORD_BYTES], [u8; FILE_BYTES]) {
    let mut record = [0u8; RECORD_BYTES];
    record[..5].copy_from_slice(&[0x10, 40, 0, 1, 18]);
    record[11] = 3;
    record[16] = 8;
    record[37] = 0x01;
    let mut file = [0u8; FILE_BYTES];
    file[0] = 0x20;
    (record, file)
}

#[test]
fn any_words_get_an_answer() {
    let (record, file) = blind_read();
    let needs_five = 7 | 5 << 32;
    // `used` past the end of the buffer: 7, but what comes before it in the table comes first
    for used in [9, 1 << 40, u64::MAX] {
        let words = [used, 3, 1];
        assert_eq!(
            append(words, &record, &file, &mut [0; 8]),
            (needs_five, words)
        );
        assert_eq!(append(words, &record[1..], &file, &mut [0; 8]), (1, words));
        assert_eq!(append(words, &record, &file[1..], &mut [0; 8]), (3, words));
    }
    // counts are modulo two to the 64
    let mut log = [0xEE; 8];
    let (answer, words) = append([2, u64::MAX, u64::MAX], &record, &file, &mut log);
    assert_eq!((answer, words), (5 << 32, [7, 1, 0]));
    assert_eq!(log, [0xEE, 0xEE, 1, 0, 3, 5, 8, 0xEE]);
}

#[test]
fn another_buffer_with_the_same_bytes() {
    let (record, file) = blind_read();
    let mut short = [0; 6];
    let (_, words) = append([0; 3], &record, &file, &mut short);
    assert_eq!(append(words, &record, &file, &mut short).0, 7 | 5 << 32);
    // a longer buffer with the bytes used, and any others behind
    let mut longer = [0x77; 16];
    longer[..5].copy_from_slice(&short[..5]);
    let (answer, words) = append(words, &record, &file, &mut longer);
    assert_eq!((answer, words), (5 << 32, [10, 4, 2]));
    assert_eq!(read_whole(&longer[..10]), (4, 2));
    assert_eq!(longer[10..], [0x77; 6]);
}
