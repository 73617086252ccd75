//! The table of base digests: the opcodes that a record without a digest may have.
use crate::document::{number, table};
use crate::subject::record;
use machhurel::*;
use std::collections::BTreeMap;

/// An access by its name.
fn access(name: &str) -> u8 {
    let names = ["none", "read", "write", "read and write"];
    names.iter().position(|&known| known == name).expect(name) as u8
}

/// The rows, by opcode: the name, and the base digest.
fn rows() -> BTreeMap<u16, (&'static str, Digest)> {
    let mut rows = BTreeMap::new();
    let wanted = |row: &[&str]| row.len() == 6 && row[0].starts_with(|c: char| c.is_ascii_digit());
    for row in table("Base digests", wanted) {
        let opcodes = row[0].split(", ").map(|opcode| number(opcode) as u16);
        for (opcode, name) in opcodes.zip(row[1].split(", ")) {
            let nontrivial = if row[4] == "yes" { 0x10 } else { 0 };
            let digest = Digest {
                behavior: access(row[3]) << 2 | nontrivial,
                operand_access: u8::from_str_radix(row[2].trim_start_matches("0x"), 16)
                    .expect(row[2]),
                list: number(row[5]) as u16,
            };
            assert_eq!(rows.insert(opcode, (name, digest)), None, "{opcode} twice");
        }
    }
    rows
}

/// A record with this opcode and without a digest.
fn bare(opcode: u16) -> Vec<u8> {
    let [low, high] = opcode.to_le_bytes();
    record(&[(0, 0x12), (1, low), (2, high)])[..EVERYDAY_RECORD_BYTES].to_vec()
}

#[test]
fn base_digests() {
    let rows = rows();
    assert_eq!(rows.len(), 21);
    for opcode in 0..=u16::MAX {
        let Some((name, digest)) = rows.get(&opcode) else {
            assert_eq!(machhurel::digest(&bare(opcode)), Err(Refusal::Opcode));
            continue;
        };
        assert_eq!(opcode_name(opcode), Some(*name));
        // as kind 0x10 with this digest, after its fix-ups
        let mut filled = bare(opcode);
        filled[0] = 0x10;
        filled.extend([digest.behavior, digest.operand_access]);
        filled.extend(digest.list.to_le_bytes());
        assert_eq!(
            machhurel::digest(&bare(opcode)),
            machhurel::digest(&filled),
            "{name}"
        );
        if digest.behavior & 0x10 == 0 {
            assert_eq!(machhurel::digest(&bare(opcode)), Ok(*digest), "{name}");
        }
    }
}
