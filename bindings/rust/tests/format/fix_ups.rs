//! The table of opcodes: what a fix-up makes of a digest.
use crate::document::{number, section};
use crate::subject::record;
use machhurel::{digest, Digest};

/// The counts that a fix-up's second column names.
fn counts(text: &str) -> Vec<u8> {
    let holds = |count: u8| match text.strip_prefix("count is ") {
        None => text == "always",
        Some(rest) => match rest.split_once(' ') {
            None => number(rest) == count.into(),
            Some(("above", than)) => number(than) < count.into(),
            Some(("not", other)) => number(other) != count.into(),
            other => panic!("no count: {other:?}"),
        },
    };
    (0..=4).filter(|&count| holds(count)).collect()
}

/// The list that a fix-up's last column names, under prefix bits and for a memory size.
fn list_of(text: &str, prefixes: u8, size: u8) -> u64 {
    if let Some(four) = text.strip_suffix(", by width") {
        let place = [1, 2, 4]
            .iter()
            .position(|&width| width == size)
            .unwrap_or(3);
        return number(
            four.replace(" or ", ", ")
                .split(", ")
                .nth(place)
                .expect(text),
        );
    }
    let bit = |name: &str| {
        ["VEX W", "REX W", "operand size", "address size"]
            .iter()
            .position(|&known| known == name)
    };
    text.split(", else ")
        .find_map(|choice| match choice.split_once(" with ") {
            None => Some(number(choice)),
            Some((list, name)) => {
                (prefixes >> bit(name).expect(name) & 1 == 1).then(|| number(list))
            }
        })
        .expect(text)
}

/// What a fix-up's last column makes of a digest.
fn fixed(text: &str, mut digest: Digest, prefixes: u8, size: u8) -> Digest {
    if let Some(lists) = text.strip_prefix("list ") {
        digest.list = list_of(lists, prefixes, size) as u16;
        return digest;
    }
    for change in text.split(", ") {
        let (operand, access) = change
            .strip_prefix("operand ")
            .expect(text)
            .split_once(' ')
            .expect(text);
        let access = ["none", "read", "write", "both"]
            .iter()
            .position(|&known| known == access)
            .expect(text);
        let place = 2 * number(operand);
        digest.operand_access = digest.operand_access & !(3 << place) | (access as u8) << place;
    }
    digest
}

/// The digest of an opcode by the document's table; the rows of a family follow its first.
fn by_table(opcode: u8, count: u8, base: Digest, prefixes: u8, size: u8) -> Digest {
    let mut family = false;
    for line in section("Opcodes and fix-ups")
        .into_iter()
        .filter(|line| line.starts_with('|'))
    {
        let cells: Vec<_> = line.trim_matches('|').split('|').map(str::trim).collect();
        if !cells[0].is_empty() {
            family = cells[0]
                .split(", ")
                .any(|number| number == opcode.to_string());
        }
        if family && counts(cells[2]).contains(&count) {
            return fixed(cells[3], base, prefixes, size);
        }
    }
    base
}

#[test]
fn fix_ups() {
    let mut changed = 0;
    for opcode in 0..=40 {
        for (count, prefixes, size) in
            (0..=4).flat_map(|c| (0..16).flat_map(move |p| [0, 1, 2, 4, 8].map(|s| (c, p, s))))
        {
            for (behavior, operand_access) in [(0x10, 0xE4), (0xD3, 0x1B), (0xEF, 0xE4)] {
                let base = Digest {
                    behavior,
                    operand_access,
                    list: 27,
                };
                let is_nontrivial = behavior & 0x10 != 0;
                let wanted = if is_nontrivial {
                    by_table(opcode, count, base, prefixes, size)
                } else {
                    base
                };
                let changes = [
                    (1, opcode),
                    (3, count),
                    (16, size),
                    (34, prefixes),
                    (36, behavior),
                    (37, operand_access),
                    (38, 27),
                ];
                assert_eq!(
                    digest(&record(&changes)),
                    Ok(wanted),
                    "opcode {opcode}, count {count}"
                );
                changed += u32::from(wanted != base);
            }
        }
    }
    assert!(changed > 10_000, "the table changes digests: {changed}");
}
