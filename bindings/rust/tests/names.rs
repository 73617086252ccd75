//! Names and words, and that the tables here are the library's.
use machhurel::*;

/// Whether a record with this byte there is refused 2.
fn outside(at: usize, byte: u8) -> bool {
    let mut record = [0; RECORD_BYTES];
    record[0] = 0x10;
    record[at] = byte;
    digest(&record) == Err(Refusal::Field)
}

#[test]
fn the_registers_are_those_that_the_library_takes() {
    let mut record = [0; RECORD_BYTES];
    record[0] = 0x10;
    for bank in 0..=255 {
        for number in 0..=255 {
            record[8] = bank;
            record[9] = number;
            let register = Register { bank, number };
            let logged = Events::new(&[1, bank, number]).all(|event| event.is_ok());
            assert_eq!(register.exists(), logged, "{register}");
            let in_records = register.exists() && bank_name(bank) != Some("base");
            assert_eq!(in_records, digest(&record).is_ok(), "{register}");
            assert_eq!(
                register.exists(),
                !register.to_string().starts_with("bank ")
            );
        }
        assert_eq!(bank_name(bank).is_some(), usize::from(bank) < BANK_COUNT);
    }
}

#[test]
fn names_of_registers() {
    for (bank, number, name) in [
        (0, 3, "rbx"),
        (0, 15, "r15"),
        (1, 8, "r8d"),
        (2, 4, "sp"),
        (3, 4, "spl"),
        (4, 4, "ah"),
        (5, 31, "xmm31"),
        (6, 0, "ymm0"),
        (7, 10, "zmm10"),
        (8, 7, "k7"),
        (9, 0, "rip"),
        (10, 0, "eip"),
        (11, 0, "rflags"),
        (12, 31, "other 31"),
        (13, 0, "fs base"),
        (13, 1, "gs base"),
        (4, 8, "bank 4 number 8"),
        (200, 0, "bank 200 number 0"),
    ] {
        assert_eq!(Register { bank, number }.to_string(), name);
    }
}

#[test]
fn the_specs_are_those_that_the_library_takes() {
    for number in 0..=255 {
        let spec = Spec::of(number);
        assert_eq!(spec.is_none(), outside(4, number), "{number}");
        assert_eq!(spec.map_or(number, Spec::number), number);
    }
    assert_eq!(Spec::DispU32.to_string(), "DispU32");
    assert_eq!(Spec::RegRRRMaskmergeSae.name(), "RegRRR_maskmerge_sae");
}

#[test]
fn names_of_opcodes() {
    let named: Vec<u16> = (0..=u16::MAX)
        .filter(|k| opcode_name(*k).is_some())
        .collect();
    assert_eq!(named, (1..=28).chain(100..=118).collect::<Vec<_>>());
    assert_eq!(opcode_name(1), Some("MUL"));
    assert_eq!(opcode_name(28), Some("LEA"));
    assert_eq!(opcode_name(100), Some("MOV"));
    assert_eq!(opcode_name(117), Some("PUSH"));
}

#[test]
fn words_of_events() {
    let write = |address, size| Event::MemoryWrite { address, size }.to_string();
    assert_eq!(write(Some(0x1008), 8), "write [0x0000000000001008] 8 bytes");
    assert_eq!(
        write(Some(u64::MAX), 1),
        "write [0xffffffffffffffff] 1 byte"
    );
    assert_eq!(write(None, 64), "write [unknown] 64 bytes");
    let read = Event::MemoryRead {
        address: Some(0),
        size: 2,
    };
    assert_eq!(read.to_string(), "read [0x0000000000000000] 2 bytes");
    assert_eq!(
        Event::RegisterRead(Register::quad(3)).to_string(),
        "read rbx"
    );
    assert_eq!(
        Event::RegisterWrite(Register::double(1)).to_string(),
        "write ecx"
    );
}

#[test]
fn words_of_refusals() {
    for (refusal, words) in [
        (Refusal::Form, "refused 1: wrong length or unknown kind"),
        (Refusal::Field, "refused 2: a field is outside its table"),
        (Refusal::File, "refused 3: no well-formed register file"),
        (
            Refusal::Complex { opcode: 40 },
            "refused 4 (opcode 40): complex: its accesses are no plain list",
        ),
        (
            Refusal::Operand,
            "refused 5: an accessed operand names no register or memory",
        ),
        (
            Refusal::Size,
            "refused 6: memory is accessed and its size is 0",
        ),
        (
            Refusal::Room { needed: 32 },
            "refused 7 (32 bytes needed): too little room behind the start",
        ),
        (
            Refusal::Opcode,
            "refused 9: kind 0x12 has no digest for this opcode",
        ),
        (Refusal::Logs, "refused 10: the sheet takes no more logs"),
    ] {
        assert_eq!(refusal.to_string(), words);
        assert!(refusal.number() <= Refusal::MOST);
    }
}

#[test]
fn listing_items_in_words() {
    let listing: &[u8] = &[
        0x41, 2, 0x42, 0, 1, 3, 0x43, 0, 7, 2, 0x44, 0, 4, 0xF8, 0xFF, 0xFF, 0xFF, 2, 0x45, 0, 3,
        4, 0, 1, 1, 0x46, 0, 24, 0,
    ];
    let words: Vec<String> = Listing::new(listing)
        .map(|item| item.unwrap().to_string())
        .collect();
    assert_eq!(
        words,
        [
            "flags: write",
            "rcx: read and write",
            "[rdi]: write",
            "[rsp -8]: write",
            "[rbx + al * 1]: read",
            "operand 0 (Disp): none",
        ]
    );
    for n in 0..listing.len() {
        let items: Vec<_> = Listing::new(&listing[..n]).collect();
        let refused = items.iter().filter(|item| item.is_err()).count();
        assert_eq!(
            refused,
            usize::from(![0, 2, 6, 10, 18, 25].contains(&n)),
            "{n}"
        );
        assert!(items.iter().rev().skip(1).all(|item| item.is_ok()));
    }
    assert_eq!(
        Listing::new(&[0x47, 0, 0, 0]).next(),
        Some(Err(Refusal::Form))
    );
    assert_eq!(
        Listing::new(&[0x46, 0, 36, 0]).next(),
        Some(Err(Refusal::Form))
    );
}
