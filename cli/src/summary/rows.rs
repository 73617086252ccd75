//! The counts as rows, and the rows in each format.
use super::counts::{Both, Counts};
use crate::format::{csv_quoted, json_quoted, put, Kind};
use crate::output::Output;
use crate::walk::Walk;
use machhurel::bank_name;

/// One count: what is counted, of what, how often at least and at most.
struct Row {
    what: &'static str,
    key: String,
    least: u64,
    most: u64,
}

fn row(what: &'static str, key: impl ToString, count: u64) -> Row {
    Row {
        what,
        key: key.to_string(),
        least: count,
        most: count,
    }
}

/// Two rows for what is read and written, without those at zero.
fn both(rows: &mut Vec<Row>, reads: &'static str, writes: &'static str, counts: &[(String, Both)]) {
    let mut take = |what, of: fn(&Both) -> u64| {
        let some = counts.iter().filter(|(_, both)| of(both) > 0);
        rows.extend(some.map(|(key, both)| row(what, key, of(both))));
    };
    take(reads, |both| both.reads);
    take(writes, |both| both.writes);
}

fn rows(walk: &Walk, counts: &Counts) -> Vec<Row> {
    let mut rows = vec![
        row("trace", "bytes read", walk.at()),
        row("trace", "places damaged or cut", walk.damages()),
        row("trace", "register files", counts.files),
        row("trace", "register files refused", counts.bad_files),
        row("trace", "records", walk.records()),
    ];
    for (number, (count, reason)) in counts.refused.iter().enumerate() {
        let key = if number == 0 {
            "0: not refused".to_string()
        } else {
            format!("{number}: {reason}")
        };
        if *count > 0 {
            rows.push(row("records by refusal", key, *count));
        }
    }
    for (of, place, both) in [
        ("register", "", counts.registers),
        ("memory", " at a known address", counts.memory),
        ("memory", " at an unknown address", counts.unknown),
    ] {
        rows.push(row("events", format!("{of} read{place}"), both.reads));
        rows.push(row("events", format!("{of} write{place}"), both.writes));
    }
    let bank = |(number, both): (usize, &Both)| {
        let name = u8::try_from(number).ok().and_then(bank_name).unwrap_or("");
        (name.to_string(), *both)
    };
    let banks: Vec<_> = counts.banks.iter().enumerate().map(bank).collect();
    both(
        &mut rows,
        "register reads by bank",
        "register writes by bank",
        &banks,
    );
    let sizes: Vec<_> = counts
        .sizes
        .iter()
        .enumerate()
        .map(|(size, both)| (size.to_string(), *both))
        .collect();
    both(
        &mut rows,
        "memory reads by size",
        "memory writes by size",
        &sizes,
    );
    rows.extend(counts.most.highest(10).into_iter().map(|written| Row {
        what: "addresses written most",
        key: format!("0x{:016x}", written.address),
        least: written.least,
        most: written.most,
    }));
    rows
}

pub(super) fn header(kind: Kind) -> &'static str {
    match kind {
        Kind::Csv => "trace,what,key,count,at_most\n",
        Kind::Text | Kind::Json => "",
    }
}

pub(super) fn put(output: &mut Output, kind: Kind, walk: &Walk, counts: &Counts) {
    let rows = rows(walk, counts);
    let (out, name) = (&mut output.bytes, walk.name());
    match kind {
        Kind::Text => put_text(out, name, &rows),
        Kind::Csv => {
            let name = csv_quoted(name);
            for row in &rows {
                put!(
                    out,
                    "{name},{},{},{},{}\n",
                    row.what,
                    csv_quoted(&row.key),
                    row.least,
                    row.most
                );
            }
        }
        Kind::Json => {
            let name = json_quoted(name);
            for row in &rows {
                let key = json_quoted(&row.key);
                put!(
                    out,
                    "{{\"trace\":{name},\"what\":\"{}\",\"key\":{key},",
                    row.what
                );
                put!(out, "\"count\":{},\"at_most\":{}}}\n", row.least, row.most);
            }
        }
    }
}

fn put_text(out: &mut Vec<u8>, name: &str, rows: &[Row]) {
    put!(out, "{name}\n");
    let mut what = "trace";
    for row in rows {
        if row.what != what {
            what = row.what;
            put!(out, "  {what}\n");
        }
        put!(out, "    {:<52} {:>14}", row.key, row.least);
        if row.most > row.least {
            put!(out, " at least, {} at most", row.most);
        }
        put!(out, "\n");
    }
}
