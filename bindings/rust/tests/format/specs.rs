//! The table of specs: what an operand of each logs where it is read and where it is written.
use crate::document::{number, rows};
use crate::names::{named, valued};
use crate::subject::{full, logged, memory, record};
use machhurel::*;

const DISP: u64 = 0x1122_3344_F566_7788;
const SCALE: u64 = 3;
const MASK: [u8; 3] = [1, 8, 5];

const ADDRESS_SIZE: u8 = 0x08;

/// A record with one operand of a spec.
fn of_spec(spec: u8, access: u8, prefixes: u8) -> Vec<u8> {
    let mut changes = vec![
        (3, 1),
        (4, spec),
        (17, SCALE as u8),
        (26, 9),
        (34, prefixes),
        (35, MASK[2]),
        (37, access),
    ];
    for (i, name) in ["regs[0]", "regs[1]", "regs[2]", "regs[3]"]
        .iter()
        .enumerate()
    {
        changes.extend([(8 + 2 * i, named(name)[0]), (9 + 2 * i, named(name)[1])]);
    }
    changes.extend(
        DISP.to_le_bytes()
            .iter()
            .enumerate()
            .map(|(i, &byte)| (18 + i, byte)),
    );
    logged(&changes)
}

/// What reading and writing memory of a spec logs, by its row; only the address-size bit cuts.
fn memory_row(row: &[&str], kind: u8, prefixes: u8) -> Vec<u8> {
    let (mut log, mut address) = (Vec::new(), 0u64);
    for (name, factor) in [(row[4], 1), (row[5], SCALE)] {
        if !name.is_empty() {
            log.extend([1].iter().chain(&named(name)));
            address = address.wrapping_add(valued(named(name)).wrapping_mul(factor));
        }
    }
    let displacement = match row[6] {
        "" => 0,
        "signed 32" => DISP as i32 as i64 as u64,
        "unsigned 32" => DISP as u32 as u64,
        "whole" => DISP,
        other => panic!("no displacement: {other:?}"),
    };
    let mask = if row[3] == "mask" { &MASK[..] } else { &[] };
    let sum = address.wrapping_add(displacement);
    let cut = prefixes & ADDRESS_SIZE != 0;
    let place = if cut { sum & 0xFFFF_FFFF } else { sum };
    [&log, mask, &memory(kind, place)].concat()
}

fn register_row(row: &[&str], name: &str, write: bool) -> Vec<u8> {
    let [bank, n] = named(name.trim_start_matches("of "));
    let mask = if row[3] == "mask" { &MASK[..] } else { &[] };
    match (write, row[3]) {
        (false, _) => [&[1, bank, n][..], mask].concat(),
        (true, "mask") => [mask, &[2, bank, n]].concat(),
        (true, _) => vec![2, if bank == 1 { 0 } else { bank }, n],
    }
}

#[test]
fn specs() {
    let table = rows("Specs");
    assert_eq!(table.len(), 36);
    for row in table {
        let spec = number(row[0]) as u8;
        for (access, write, prefixes) in
            (0..16).flat_map(|prefixes| [(1, false, prefixes), (2, true, prefixes)])
        {
            let log = match row[2].split_once(' ').unwrap_or((row[2], "")) {
                ("nothing", _) => {
                    let refused = visit(
                        &record(&[(3, 1), (37, access)]),
                        &full(),
                        &mut [0; LOG_BYTES],
                        0,
                    );
                    assert_eq!(refused, Err(Refusal::Operand));
                    continue;
                }
                ("immediate", _) => Vec::new(),
                ("register", name) => register_row(&row, name, write),
                ("memory", _) => memory_row(&row, 3 + u8::from(write), prefixes),
                other => panic!("no operand: {other:?}"),
            };
            assert_eq!(
                of_spec(spec, access, prefixes),
                log,
                "spec {} ({}), access {access}, prefixes {prefixes}",
                spec,
                row[1]
            );
        }
    }
    assert_eq!(digest(&record(&[(7, 36)])), Err(Refusal::Field));
}
