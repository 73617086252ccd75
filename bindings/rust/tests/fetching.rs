//! The judge and the proposer against a second reading, which tries: a record is visited under a file that knows every register, and
//! under the same file without each register. Where an address turns unknown, the register is needed.
mod common;
use common::Random;
use machhurel::*;

/// The registers that a file of kind 0x21 holds.
const HELD: usize = 19;
/// How long a record can be.
const LENGTHS: [usize; 3] = [EVERYDAY_RECORD_BYTES, RECORD_BYTES, SEGMENT_RECORD_BYTES];
/// The places of `regs[1]` and `regs[2]` in a record: banks, each with its number behind it.
const REGISTERS: [usize; 2] = [10, 12];

/// A file that knows the registers of a set, each to be another number.
fn knowing(set: u32) -> Vec<u8> {
    let mut file = vec![0; BASED_FILE_BYTES];
    file[0] = 0x21;
    file[1..5].copy_from_slice(&set.to_le_bytes());
    for k in 0..HELD {
        let value = 0x1_0000_0000 * (k as u64 + 1) + 0x1111 * k as u64;
        file[5 + 8 * k..13 + 8 * k].copy_from_slice(&value.to_le_bytes());
    }
    file
}

fn events(record: &[u8], file: &[u8]) -> Option<Vec<Event>> {
    let mut log = [0; LOG_BYTES];
    let n = visit(record, file, &mut log, 0).ok()?;
    Events::new(&log[..n]).collect::<Result<_, _>>().ok()
}

fn unknown(events: &[Event]) -> usize {
    let at = |event: &&Event| {
        matches!(
            event,
            Event::MemoryRead { address: None, .. } | Event::MemoryWrite { address: None, .. }
        )
    };
    events.iter().filter(at).count()
}

/// The record with a general register in place of a base or an index that no file holds, and the registers that were put there: with
/// the other one in place its address would be unknown under every file, and trying would show nothing.
fn all_held(record: &[u8]) -> (Vec<u8>, u32) {
    let mut bytes = record.to_vec();
    let mut put = 0;
    for at in REGISTERS {
        if matches!(bytes[at], 5..=8 | 11 | 12) {
            let used = |k: &u8| bytes[8..16].contains(k) || put >> k & 1 == 1;
            let spare = (8..16).find(|k| !used(k)).unwrap();
            bytes[at] = 0;
            bytes[at + 1] = spare;
            put |= 1 << spare;
        }
    }
    (bytes, put)
}

/// What a record needs, by trying.
fn needed(record: &[u8]) -> u32 {
    let all = (1 << HELD) - 1;
    if events(record, &knowing(all)).is_none() {
        return 0;
    }
    let (tried, put) = all_held(record);
    let known = events(&tried, &knowing(all)).unwrap();
    assert_eq!(unknown(&known), 0, "{record:x?}");
    let without = |k: &u32| unknown(&events(&tried, &knowing(all & !(1 << k))).unwrap()) > 0;
    let needed = (0..HELD as u32).filter(without).map(|k| 1 << k);
    needed.sum::<u32>() & !put
}

/// A record so long, whose numbers are nearly all in their tables: many with memory, some with a vector index, some refused.
fn any_record(random: &mut Random, each: usize) -> Vec<u8> {
    let mut bytes = vec![0; SEGMENT_RECORD_BYTES];
    bytes[0] = 0x10;
    bytes[1] = random.one_of(&[40, 40, 40, 28, 5, 16, 24, 1, 23]);
    bytes[3] = random.below(5) as u8;
    for at in 4..8 {
        bytes[at] = if random.below(3) == 0 {
            random.below(36) as u8
        } else {
            18 + random.below(18) as u8
        };
    }
    for at in [8, 10, 12, 14] {
        bytes[at] = random.one_of(&[0, 0, 0, 1, 2, 3, 4, 5, 8, 9, 10, 11, 12]);
        let most = [16, 16, 16, 16, 8, 32, 32, 32, 8, 1, 1, 1, 32][usize::from(bytes[at])];
        bytes[at + 1] = random.below(most) as u8;
    }
    bytes[16] = random.one_of(&[0, 1, 8, 8, 8, 64]);
    bytes[17] = random.one_of(&[0, 1, 2, 8, 255]);
    for at in 18..34 {
        bytes[at] = random.next() as u8;
    }
    bytes[34] = random.below(16) as u8;
    bytes[35] = random.below(8) as u8;
    bytes[36] = random.one_of(&[0, 0, 0x10, 0x20]);
    bytes[37] = random.next() as u8;
    bytes[38] = random.one_of(&[0, 0, 0, 1, 15, 16, 24, 25, 26, 27, 28]);
    if each == SEGMENT_RECORD_BYTES {
        bytes[0] = 0x11;
        bytes[RECORD_BYTES] = random.one_of(&[0, 1, 1, 2, 2, 3]);
    }
    if each == EVERYDAY_RECORD_BYTES {
        bytes[0] = 0x12;
        bytes[1] = random.one_of(&[1, 28, 100, 103, 110, 112, 115, 116, 117, 118, 119]);
    }
    bytes.truncate(each);
    if random.below(16) == 0 {
        let at = random.index(each);
        bytes[at] = random.next() as u8;
    }
    bytes
}

#[test]
fn what_a_record_needs_is_what_trying_shows() {
    let mut random = Random(0x0DDB_1A5E_5BAD_5EED);
    let (mut seen, mut refused, mut beside) = ([0; HELD], 0, 0);
    for _ in 0..60_000 {
        let each = random.one_of(&LENGTHS);
        let record = any_record(&mut random, each);
        let set = fetch_propose(&record, each).unwrap();
        let tried = needed(&record);
        assert_eq!(set.0, tried, "{record:x?}");
        for (k, count) in seen.iter_mut().enumerate() {
            *count += tried >> k & 1;
        }
        refused += u32::from(events(&record, &knowing(0)).is_none());
        beside += u32::from(all_held(&record).1 != 0 && tried != 0);
    }
    assert!(seen.iter().all(|count| *count > 500), "{seen:?}");
    assert!(refused > 5_000 && beside > 1_000, "{refused} {beside}");
}

/// The judge by the needs of each record, one after another.
fn judged(records: &[Vec<u8>], set: u32) -> Judgement {
    if set >> SET_BITS != 0 {
        return Judgement::NoSuchBit;
    }
    for (record, bytes) in records.iter().enumerate() {
        let lacked = needed(bytes) & !set;
        if lacked != 0 {
            let register = Known::ALL[lacked.trailing_zeros() as usize];
            return Judgement::Lacking { record, register };
        }
    }
    Judgement::Accepted
}

#[test]
fn lists_are_judged_record_by_record_and_their_proposals_unite() {
    let mut random = Random(0x5EED_0F_F37C4);
    let mut seen = [0; 3];
    for _ in 0..3_000 {
        let (n, each) = (random.index(12), random.one_of(&LENGTHS));
        let records: Vec<_> = (0..n).map(|_| any_record(&mut random, each)).collect();
        let all: u32 = records
            .iter()
            .map(|bytes| needed(bytes))
            .fold(0, |a, b| a | b);
        let list = records.concat();
        let proposed = fetch_propose(&list, each).unwrap();
        assert_eq!(proposed, RegisterSet(all));
        // cut anywhere, the proposals of the parts unite
        let cut = random.index(n + 1) * each;
        let part = |list| fetch_propose(list, each).unwrap();
        assert_eq!(part(&list[..cut]).union(part(&list[cut..])), proposed);
        for set in [
            all,
            all & random.next() as u32,
            all | random.next() as u32 & 0x7FFFF,
            random.next() as u32 & 0x7FFFF,
            all | 1 << (SET_BITS + random.below(13) as u8),
        ] {
            let said = fetch_judge(&list, each, RegisterSet(set)).unwrap();
            assert_eq!(said, judged(&records, set), "{set:x} {records:x?}");
            seen[match said {
                Judgement::Accepted => 0,
                Judgement::NoSuchBit => 1,
                Judgement::Lacking { .. } => 2,
            }] += 1;
        }
    }
    assert!(seen.iter().all(|count| *count > 1_000), "{seen:?}");
}

/// Every visit is the same, answer and buffer, under a file and under the same file that knows no more than an accepted set.
#[test]
fn nothing_is_lost() {
    let mut random = Random(0x10AD_ED_D1CE);
    let mut short = 0;
    for _ in 0..40_000 {
        let each = random.one_of(&LENGTHS);
        let record = any_record(&mut random, each);
        let least = fetch_propose(&record, each).unwrap().0;
        let set = least | random.next() as u32 & random.next() as u32;
        let known = random.next() as u32 & ((1 << HELD) - 1);
        let (mut full, mut less) = (knowing(known), knowing(known & set));
        let values = random.bytes(BASED_FILE_BYTES - 5);
        full[5..].copy_from_slice(&values);
        less[5..].copy_from_slice(&values);
        let (mut first, mut second) = ([0xEE; 190], [0xEE; 190]);
        let (room, start) = (random.index(190), random.index(12));
        let answer = visit(&record, &full, &mut first[..room], start);
        assert_eq!(visit(&record, &less, &mut second[..room], start), answer);
        assert_eq!(first, second);
        short += u32::from(matches!(answer, Err(Refusal::Room { .. })));
    }
    assert!(short > 1_000, "{short}");
}

#[test]
fn a_set_says_its_registers_by_name() {
    let all = RegisterSet((1 << HELD) - 1).registers();
    let names: Vec<_> = all.map(|register| register.to_string()).collect();
    assert_eq!(
        names.join(" "),
        "rax rcx rdx rbx rsp rbp rsi rdi r8 r9 r10 r11 r12 r13 r14 r15 rip fs base gs base"
    );
    for (k, register) in Known::ALL.into_iter().enumerate() {
        assert!(RegisterSet(1 << k).registers().eq([register]));
    }
    assert_eq!(RegisterSet(1 << HELD).registers().count(), 0);
}

#[test]
fn lengths_and_limits() {
    let record = [0x10; RECORD_BYTES];
    for each in (0..200).chain([usize::MAX]) {
        let right = LENGTHS.contains(&each);
        assert_eq!(fetch_propose(&[], each).is_ok(), right, "{each}");
        let whole = each == RECORD_BYTES;
        assert_eq!(fetch_propose(&record, each).is_ok(), whole, "{each}");
    }
    let list = record.repeat(BLOCK_RECORDS + 1);
    let most = BLOCK_RECORDS * RECORD_BYTES;
    let propose = |n| fetch_propose(&list[..n], RECORD_BYTES);
    assert_eq!(propose(most), Ok(RegisterSet(0)));
    assert_eq!(propose(most + 1), Err(Refusal::Form));
    assert_eq!(propose(most + RECORD_BYTES), Err(Refusal::Field));
    let judge = |n, set| fetch_judge(&list[..n], RECORD_BYTES, RegisterSet(set));
    assert_eq!(judge(most, 0), Ok(Judgement::Accepted));
    assert_eq!(judge(most, 1 << SET_BITS), Ok(Judgement::NoSuchBit));
    // 1 and 2 come before a bit that stands for no register
    assert_eq!(judge(most + 1, u32::MAX), Err(Refusal::Form));
    assert_eq!(judge(most + RECORD_BYTES, u32::MAX), Err(Refusal::Field));
}
