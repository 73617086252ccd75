//! Damaged input gets an answer, and a refused call changes nothing.
mod common;

use common::Random;
use machhurel::*;

fn store_record() -> [u8; RECORD_BYTES] {
    let mut record = [0u8; RECORD_BYTES];
    record[0] = 0x10;
    record[1] = 40;
    record[3] = 1;
    record[4] = 24;
    record[11] = 3;
    record[16] = 8;
    record[18] = 8;
    record[37] = 0x03;
    record
}

fn file_of(known: u32, rbx: u64) -> [u8; FILE_BYTES] {
    let mut file = [0u8; FILE_BYTES];
    file[0] = 0x20;
    file[1..5].copy_from_slice(&known.to_le_bytes());
    file[29..37].copy_from_slice(&rbx.to_le_bytes());
    file
}

#[test]
fn a_read_and_a_write_of_one_address() {
    let mut log = [0xEEu8; LOG_BYTES];
    let n = visit(&store_record(), &file_of(1 << 3, 0x1000), &mut log, 0).unwrap();
    let events: Vec<Event> = Events::new(&log[..n]).map(Result::unwrap).collect();
    let rbx = Register { bank: 0, number: 3 };
    assert_eq!(
        events,
        [
            Event::RegisterRead(rbx),
            Event::MemoryRead {
                address: Some(0x1008),
                size: 8
            },
            Event::RegisterRead(rbx),
            Event::MemoryWrite {
                address: Some(0x1008),
                size: 8
            },
        ]
    );
    assert!(log[n..].iter().all(|&b| b == 0xEE));
}

#[test]
fn an_unknown_register_gives_an_unknown_address() {
    let mut log = [0u8; LOG_BYTES];
    let n = visit(&store_record(), &file_of(0, 0), &mut log, 0).unwrap();
    assert_eq!(
        Events::new(&log[..n]).nth(1),
        Some(Ok(Event::MemoryRead {
            address: None,
            size: 8
        }))
    );
}

#[test]
fn each_refusal() {
    let good = store_record();
    let file = file_of(0, 0);
    let mut log = [0u8; LOG_BYTES];
    let changed = |at: usize, byte: u8| {
        let mut record = good;
        record[at] = byte;
        record
    };
    assert_eq!(visit(&good[..39], &file, &mut log, 0), Err(Refusal::Form));
    assert_eq!(
        visit(&changed(16, 65), &file, &mut log, 0),
        Err(Refusal::Field)
    );
    assert_eq!(visit(&good, &file[..140], &mut log, 0), Err(Refusal::File));
    assert_eq!(
        visit(&changed(36, 0x20), &file, &mut log, 0),
        Err(Refusal::Complex { opcode: 40 })
    );
    assert_eq!(
        visit(&changed(4, 0), &file, &mut log, 0),
        Err(Refusal::Operand)
    );
    assert_eq!(
        visit(&changed(16, 0), &file, &mut log, 0),
        Err(Refusal::Size)
    );
    assert_eq!(
        visit(&good, &file, &mut log, LOG_BYTES + 1),
        Err(Refusal::Room { needed: 10 })
    );
    assert_eq!(
        visit(&good, &file, &mut log, usize::MAX),
        Err(Refusal::Room { needed: 10 })
    );
    assert_eq!(
        visit(&good, &file, &mut [], 0),
        Err(Refusal::Room { needed: 10 })
    );
    assert_eq!(
        Refusal::Complex { opcode: 24 }.to_string(),
        "refused 4 (opcode 24, BT): complex: its accesses are no plain list"
    );
    assert!(log.iter().all(|&b| b == 0));
}

#[test]
fn any_bytes_get_an_answer() {
    let mut random = Random(0x9E37_79B9_7F4A_7C15);
    for round in 0..100_000u64 {
        let mut record = if round % 2 == 0 {
            store_record().to_vec()
        } else {
            random.bytes(40)
        };
        record[0] = 0x10;
        let at = (random.next() % 40) as usize;
        record[at] = random.next() as u8;
        record.truncate((random.next() % 50) as usize + 30);
        let file = file_of(random.next() as u32 & 0x3FFFF, random.next());
        let room = (random.next() % 200) as usize;
        let mut log = vec![0xEE; room];
        match visit(&record, &file, &mut log, 0) {
            Ok(n) => {
                assert!(n <= LOG_BYTES);
                assert!(Events::new(&log[..n]).all(|e| e.is_ok()));
                assert!(Events::new(&log[..n]).count() <= LOG_EVENTS);
                assert!(log[n..].iter().all(|&b| b == 0xEE));
            }
            Err(_) => assert!(log.iter().all(|&b| b == 0xEE)),
        }
        let mut out = [0xEE; LISTING_BYTES];
        let _ = listing(&record, &mut out, 0);
        let _ = (digest(&record), privilege(&record), exceptions(&record));
    }
}

#[test]
fn a_damaged_log_stops_at_its_first_fault() {
    let mut random = Random(1);
    for _ in 0..10_000 {
        let n = (random.next() % 64) as usize;
        let log: Vec<u8> = random.bytes(n).into_iter().map(|b| b % 8).collect();
        let mut events = Events::new(&log);
        let refused = events.by_ref().filter(|e| e.is_err()).count();
        assert!(refused <= 1);
        assert_eq!(events.next(), None);
    }
}
