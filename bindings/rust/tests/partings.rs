//! Where two logs part, judged by a second reading of the bytes: this file parses logs by itself, from the layout of
//! events alone.
mod common;

use common::calls::machhurel_difference;
use common::Random;
use machhurel::{difference, Difference, Event, Events, Register};

/// Which registers a log may name: asked of the event call, which the oracle judges by the given Rust.
struct Banks(Vec<[bool; 256]>);

impl Banks {
    fn asked() -> Self {
        let named = |bank: u8, number: u8| {
            Events::new(&[1, bank, number])
                .next()
                .is_some_and(|e| e.is_ok())
        };
        Banks(
            (0..=255)
                .map(|bank| std::array::from_fn(|number| named(bank, number as u8)))
                .collect(),
        )
    }

    fn have(&self, bank: u8, number: u8) -> bool {
        self.0[bank as usize][number as usize]
    }
}

/// The events of a log as pieces of its bytes, or the number with which its first bad event is refused.
fn pieces<'a>(banks: &Banks, mut log: &'a [u8]) -> Result<Vec<&'a [u8]>, u8> {
    let mut found = Vec::new();
    while let Some(&kind) = log.first() {
        let long = match kind {
            1 | 2 => 3,
            3 | 4 => 10,
            5 | 6 => 2,
            _ => return Err(1),
        };
        if log.len() < long {
            return Err(1);
        }
        let (event, rest) = log.split_at(long);
        let good = match kind {
            1 | 2 => banks.have(event[1], event[2]),
            _ => (1..=64).contains(&event[long - 1]),
        };
        if !good {
            return Err(2);
        }
        found.push(event);
        log = rest;
    }
    Ok(found)
}

/// Number, sign and place, by the sentences of the request.
fn expected(banks: &Banks, first: &[u8], second: &[u8]) -> (u8, bool, usize) {
    let refused = |number| (number, false, second.len());
    let (xs, ys) = match (pieces(banks, first), pieces(banks, second)) {
        (Err(number), _) | (Ok(_), Err(number)) => return refused(number),
        (Ok(xs), Ok(ys)) => (xs, ys),
    };
    let common = xs.iter().zip(&ys).take_while(|(x, y)| x == y).count();
    let at = ys[..common].iter().map(|event| event.len()).sum();
    (0, common < xs.len() || common < ys.len(), at)
}

fn answered(first: &[u8], second: &[u8]) -> (u8, bool, usize) {
    let mut at = u64::MAX;
    let answer = machhurel_difference(first, second, &mut at);
    assert_eq!(answer >> 9, 0, "bits that are not named are 0");
    (answer as u8, answer & 0x100 != 0, at as usize)
}

fn event(random: &mut Random) -> Vec<u8> {
    // banks 0 to 8 have eight registers or more
    let register = [random.index(9) as u8, random.index(8) as u8];
    let address = (random.next() >> random.index(60)).to_le_bytes();
    let size = [1 + random.index(64) as u8];
    match 1 + random.index(6) as u8 {
        kind @ 1..=2 => [&[kind], &register[..]].concat(),
        kind @ 3..=4 => [&[kind], &address[..], &size[..]].concat(),
        kind => [&[kind], &size[..]].concat(),
    }
}

fn log(random: &mut Random) -> Vec<u8> {
    let n = random.index(12);
    (0..n).flat_map(|_| event(random)).collect()
}

/// The log with a byte changed, a cut, or something put in, now and then with none of these.
fn damaged(random: &mut Random, log: &[u8]) -> Vec<u8> {
    let mut bytes = log.to_vec();
    let at = random.index(bytes.len() + 1);
    match random.index(6) {
        0 => bytes.truncate(at),
        1 => bytes.push(random.next() as u8),
        2 => bytes.extend(event(random)),
        3 | 4 if at < bytes.len() => bytes[at] = random.index(70) as u8,
        _ => {}
    }
    bytes
}

#[test]
fn random_and_damaged_logs() {
    let banks = Banks::asked();
    let mut random = Random(0x9E37_79B9_7F4A_7C15);
    let mut seen = [0u32; 5];
    for _ in 0..200_000 {
        let first = log(&mut random);
        let second = match random.index(8) {
            0 => log(&mut random),
            _ => damaged(&mut random, &first),
        };
        let first = match random.index(4) {
            0 => damaged(&mut random, &first),
            _ => first,
        };
        let (number, differs, at) = expected(&banks, &first, &second);
        assert_eq!(
            answered(&first, &second),
            (number, differs, at),
            "{first:?} {second:?}"
        );
        match difference(&first, &second) {
            Ok(Difference::Equal) => assert!(number == 0 && !differs && first == second),
            Ok(Difference::From(part)) => assert!(differs && part == &second[at..]),
            Err(refusal) => assert_eq!(refusal.number(), number),
        }
        let kind = match (number, differs) {
            (0, false) => 0,
            (0, true) if at < second.len() => 1,
            (0, true) => 2,
            (number, _) => 2 + usize::from(number),
        };
        seen[kind] += 1;
    }
    assert!(
        seen.iter().all(|&n| n > 5_000),
        "each answer was seen often: {seen:?}"
    );
}

#[test]
fn random_bytes() {
    let banks = Banks::asked();
    let mut random = Random(7);
    for _ in 0..100_000 {
        let mut bytes = || {
            let n = random.index(24);
            (0..n).map(|_| random.index(9) as u8).collect::<Vec<u8>>()
        };
        let (first, second) = (bytes(), bytes());
        assert_eq!(
            answered(&first, &second),
            expected(&banks, &first, &second),
            "{first:?} {second:?}"
        );
    }
}

/// Logs of some millions of bytes, so that time that is not linear would be seen.
#[test]
fn long_logs() {
    let mut random = Random(3);
    let events: Vec<Vec<u8>> = (0..200_000).map(|_| event(&mut random)).collect();
    let first: Vec<u8> = (0..5).flat_map(|_| events.concat()).collect();
    assert!(first.len() > 4_000_000);
    assert_eq!(difference(&first, &first), Ok(Difference::Equal));
    let mut second = first.clone();
    second.extend([6, 8]);
    assert_eq!(difference(&first, &second), Ok(Difference::From(&[6, 8])));
    assert_eq!(difference(&second, &first), Ok(Difference::From(&[])));
}

/// The README's example: one record visited under two files.
#[test]
fn one_record_under_two_files() {
    let mut record = [0u8; machhurel::RECORD_BYTES];
    record[..2].copy_from_slice(&[0x10, 40]);
    record[3..5].copy_from_slice(&[1, 24]); // one operand, memory at a base and a displacement
    record[11] = 3; // the base is rbx
    record[16] = 8;
    record[18] = 8;
    record[37] = 0x02;
    let visited = |known: u8| {
        let mut file = [0u8; machhurel::FILE_BYTES];
        file[..2].copy_from_slice(&[0x20, known]);
        file[30] = 0x10;
        let mut log = [0u8; machhurel::LOG_BYTES];
        let n = machhurel::visit(&record, &file, &mut log, 0).expect("not refused");
        log[..n].to_vec()
    };
    let (unknown, known) = (visited(0), visited(1 << 3));
    assert_eq!(unknown, [1, 0, 3, 6, 8]);
    assert_eq!(known, [1, 0, 3, 4, 0x08, 0x10, 0, 0, 0, 0, 0, 0, 8]);
    let parted = difference(&unknown, &known).expect("both read whole");
    let rbx = Register { bank: 0, number: 3 };
    assert_eq!(
        Events::new(&known).next(),
        Some(Ok(Event::RegisterRead(rbx)))
    );
    assert_eq!(
        Events::new(parted.part()).next(),
        Some(Ok(Event::MemoryWrite {
            address: Some(0x1008),
            size: 8
        }))
    );
    assert_eq!(parted.part().len(), known.len() - 3);
}
