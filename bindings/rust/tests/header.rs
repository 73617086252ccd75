//! The header's constants are the tables of this crate, and both have the same numbers.
use machhurel::*;
use std::collections::HashMap;

/// What the header defines as a plain number.
fn defined() -> HashMap<String, u64> {
    let headers = [
        include_str!("../../../include/machhurel.h"),
        include_str!("../../../include/machhurel_format.h"),
    ];
    let lines = headers.iter().flat_map(|text| text.lines());
    let define = |line: &str| {
        let (name, value) = line.strip_prefix("#define MACHHUREL_")?.split_once(' ')?;
        let number = match value.strip_prefix("0x") {
            Some(hex) => u64::from_str_radix(hex, 16).ok()?,
            None => value.parse().ok()?,
        };
        Some((name.to_string(), number))
    };
    lines.filter_map(define).collect()
}

/// The constants that begin so, by number, without what they begin with and without the lines between words.
fn group(prefix: &str) -> Vec<(u64, String)> {
    let all = defined();
    let mut rows: Vec<_> = all
        .iter()
        .filter_map(|(name, number)| Some((*number, name.strip_prefix(prefix)?.replace('_', ""))))
        .collect();
    rows.sort();
    rows
}

fn plain(name: &str) -> String {
    name.replace('_', "").to_uppercase()
}

#[test]
fn specs_banks_and_opcodes() {
    let specs = Spec::ALL
        .iter()
        .map(|spec| (u64::from(spec.number()), plain(spec.name())));
    assert_eq!(group("SPEC_"), specs.collect::<Vec<_>>());
    let bank = |bank: u8| Some((u64::from(bank), plain(bank_name(bank)?)));
    assert_eq!(
        group("BANK_"),
        (0..=255).filter_map(bank).collect::<Vec<_>>()
    );
    let opcode = |opcode: u16| Some((u64::from(opcode), plain(opcode_name(opcode)?)));
    assert_eq!(
        group("OPCODE_"),
        (0..=u16::MAX).filter_map(opcode).collect::<Vec<_>>()
    );
}

#[test]
fn registers() {
    let all = defined();
    for number in 0..16 {
        let name = Register::quad(number).to_string().to_uppercase();
        assert_eq!(all.get(&name), Some(&u64::from(number)), "{name}");
    }
    assert_eq!(all.get("RIP"), Some(&(Known::Rip as u64)));
    assert_eq!(all.get("FS_BASE"), Some(&(Known::FsBase as u64)));
    assert_eq!(all.get("GS_BASE"), Some(&(Known::GsBase as u64)));
}

#[test]
fn kinds_lengths_and_bounds() {
    let all = defined();
    let of = |name: &str| all.get(name).map(|number| *number as usize);
    let kinds: Vec<u64> = group("KIND_").into_iter().map(|(kind, _)| kind).collect();
    assert_eq!(kinds, KINDS.map(|(kind, _, _)| u64::from(kind)));
    assert_eq!(of("RECORD_BYTES"), Some(RECORD_BYTES));
    assert_eq!(of("SEGMENT_RECORD_BYTES"), Some(SEGMENT_RECORD_BYTES));
    assert_eq!(of("EVERYDAY_RECORD_BYTES"), Some(EVERYDAY_RECORD_BYTES));
    assert_eq!(of("FILE_BYTES"), Some(FILE_BYTES));
    assert_eq!(of("BASED_FILE_BYTES"), Some(BASED_FILE_BYTES));
    assert_eq!(of("LOG_BYTES"), Some(LOG_BYTES));
    assert_eq!(of("LOG_EVENTS"), Some(LOG_EVENTS));
    assert_eq!(of("LISTING_BYTES"), Some(LISTING_BYTES));
    assert_eq!(of("BLOCK_RECORDS"), Some(BLOCK_RECORDS));
    assert_eq!(of("ANSWER_BYTES"), Some(ANSWER_BYTES));
    assert_eq!(of("SHEET_LOGS"), Some(SHEET_LOGS as usize));
    assert_eq!(of("SHEET_LOG_BYTES"), Some(SHEET_LOG_BYTES));
    assert_eq!(of("SET_BITS"), Some(usize::from(SET_BITS)));
}

#[test]
fn accesses_refusals_and_lists() {
    for (number, name) in group("ACCESS_") {
        let access = Access::of(number as u8);
        assert_eq!(u64::from(access.number()), number);
        assert_eq!(format!("{access:?}").to_uppercase(), name);
    }
    let refusals = [
        Refusal::Form,
        Refusal::Field,
        Refusal::File,
        Refusal::Complex { opcode: 0 },
        Refusal::Operand,
        Refusal::Size,
        Refusal::Room { needed: 0 },
        Refusal::Opcode,
        Refusal::Logs,
    ];
    for ((number, name), refusal) in group("REFUSED_").into_iter().zip(refusals) {
        assert_eq!(u64::from(refusal.number()), number);
        assert!(
            format!("{refusal:?}").to_uppercase().starts_with(&name),
            "{name}"
        );
    }
    // the lists are as many as the library takes
    let lists: Vec<u64> = group("LIST_")
        .into_iter()
        .map(|(number, _)| number)
        .collect();
    assert_eq!(lists, (0..lists.len() as u64).collect::<Vec<_>>());
    let taken =
        |list: &u16| Record::builder(40).list(*list).memory_size(8).build() != Err(Refusal::Field);
    assert_eq!((0..=u16::MAX).filter(taken).count(), lists.len());
}

#[test]
fn the_version_is_the_header_s() {
    let line = format!(
        "#define MACHHUREL_VERSION \"{}\"",
        env!("CARGO_PKG_VERSION")
    );
    assert!(include_str!("../../../include/machhurel.h").contains(&line));
}
