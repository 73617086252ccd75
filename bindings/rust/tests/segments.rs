//! T-10 through the bindings: a thread-local variable behind fs, and a second reading of the rule over the log's bytes.
use machhurel::*;

/// mov rax, [fs:rbx + 8], as `spec`.
fn load(spec: Spec, segment: Option<Segment>) -> Record {
    let record = Record::builder(40)
        .operand(spec, Access::Read)
        .base(Register::quad(3))
        .index(Register::quad(1))
        .scale(2)
        .displacement(8)
        .memory_size(8);
    match segment {
        Some(segment) => record.segment(segment).build().unwrap(),
        None => record.build().unwrap(),
    }
}

fn file() -> RegisterFile {
    RegisterFile::new()
        .with(Known::Rbx, 0x1000)
        .with(Known::Rcx, 0x10)
        .with(Known::Rsi, 0x2000)
        .with(Known::Rdi, 0x3000)
}

fn log(record: &[u8], file: &[u8]) -> Vec<u8> {
    let mut log = [0; LOG_BYTES];
    let n = visit(record, file, &mut log, 0).unwrap();
    log[..n].to_vec()
}

/// What the same record logs in a segment, by the log without one: the base is read first, and the last event is moved by it.
fn moved(plain: &[u8], number: u8, base: Option<u64>) -> Vec<u8> {
    let mut log = vec![1, 13, number];
    let known = plain.len() >= 10 && plain[plain.len() - 10] == 3;
    let access = plain.len() - if known { 10 } else { 2 };
    log.extend(&plain[..access]);
    let at = known.then(|| u64::from_le_bytes(plain[access + 1..access + 9].try_into().unwrap()));
    match at.zip(base) {
        Some((at, base)) => {
            log.push(3);
            log.extend(at.wrapping_add(base).to_le_bytes());
            log.push(8);
        }
        None => log.extend([5, 8]),
    }
    log
}

#[test]
fn every_memory_spec_in_every_segment() {
    let memory = (18..=35).filter_map(Spec::of);
    for spec in memory {
        let plain = log(&load(spec, None), &file());
        for (segment, number, register) in [
            (Segment::Fs, 0, Known::FsBase),
            (Segment::Gs, 1, Known::GsBase),
        ] {
            for base in [None, Some(0x7000), Some(u64::MAX)] {
                let file = base.map_or(file(), |base| file().with(register, base));
                let expected = match spec.number() {
                    20 | 22 => plain.clone(),
                    _ => moved(&plain, number, base),
                };
                assert_eq!(
                    log(&load(spec, Some(segment)), &file),
                    expected,
                    "{spec:?} {segment:?} {base:?}"
                );
            }
        }
    }
}

#[test]
fn the_other_base_is_not_asked() {
    let gs_alone = file().with(Known::GsBase, 0x7000);
    assert_eq!(
        log(&load(Spec::Deref, Some(Segment::Fs)), &gs_alone),
        [1, 13, 0, 1, 0, 3, 5, 8]
    );
}

#[test]
fn the_old_kinds_answer_as_before() {
    for spec in (18..=35).filter_map(Spec::of) {
        let old = load(spec, None);
        let mut new = old.to_vec();
        new[0] = 0x11;
        new.push(0);
        let mut based = file().to_vec();
        based[0] = 0x21;
        based.extend([0x5A; 16]);
        assert_eq!(log(&new, &based), log(&old, &file()));
        assert_eq!(digest(&new), digest(&old));
    }
}

#[test]
fn kinds_and_lengths() {
    let record = load(Spec::Deref, Some(Segment::Fs));
    assert_eq!((record[0], record.len()), (0x11, SEGMENT_RECORD_BYTES));
    let file = file().with(Known::GsBase, 1);
    assert_eq!((file[0], file.len()), (0x21, BASED_FILE_BYTES));
    assert_eq!(check_file(&file), Ok(()));
    assert_eq!(known(&file, Known::GsBase), Some(1));
    assert_eq!(known(&file, Known::FsBase), None);
    let mut bad = file.to_vec();
    bad[3] |= 8;
    assert_eq!(check_file(&bad), Err(Refusal::File));
    let mut third = record.to_vec();
    third[40] = 3;
    assert_eq!(digest(&third), Err(Refusal::Field));
}

#[test]
fn the_longest_log() {
    let spec = Spec::of(33).unwrap();
    let builder = (0..4).fold(Record::builder(40), |builder, _| {
        builder.operand(spec, Access::Both)
    });
    let record = builder
        .base(Register::quad(3))
        .index(Register::quad(1))
        .memory_size(8)
        .mask(1)
        .flags(Access::Both)
        .list(26)
        .segment(Segment::Fs)
        .build()
        .unwrap();
    let file = file().with(Known::Rsp, 0x4000).with(Known::FsBase, 0x7000);
    let log = log(&record, &file);
    assert_eq!(
        (log.len(), Events::new(&log).count()),
        (LOG_BYTES, LOG_EVENTS)
    );
    let short = visit(&record, &file, &mut [0; LOG_BYTES - 1], 0);
    assert_eq!(short, Err(Refusal::Room { needed: LOG_BYTES }));
}
