//! `watch --html`: the page against the text report, its form, its length, and the file that it goes to.
mod common;
use common::{command, folder, golden, pipe, run, spoilt, torn, Ran, Random, COMMAND, TORN};
use machhurel::*;
use std::fs;
use std::io::Write;
use std::os::unix::ffi::OsStrExt;
use std::os::unix::fs::{symlink, PermissionsExt};
use std::path::Path;
use std::process::{Command, Stdio};

/// No page is longer.
const LIMIT: usize = 100_000;

/// The page of a trace in a pipe, and what was said.
fn page(trace: &[u8], address: &str, length: &str, more: &[&str]) -> (String, Ran) {
    let place = folder(&format!("html_{:?}", std::thread::current().id()));
    let file = place.join("page.html");
    let mut words = vec!["watch", "-", address, length, "--html"];
    words.push(file.to_str().unwrap());
    words.extend(more);
    let ran = pipe(&words, trace);
    let page = fs::read_to_string(&file).unwrap();
    let there: Vec<_> = fs::read_dir(&place).unwrap().collect();
    assert_eq!(there.len(), 1, "nothing is left beside it");
    fs::remove_dir_all(&place).unwrap();
    (page, ran)
}

/// A tag without its brackets, and what stands before it.
fn tags(page: &str) -> Vec<(&str, &str)> {
    let mut tags = Vec::new();
    let mut left = page;
    while let Some((before, rest)) = left.split_once('<') {
        let (tag, rest) = rest.split_once('>').expect("a tag ends");
        tags.push((before, tag));
        left = rest;
    }
    assert_eq!(left.trim(), "");
    tags
}

/// What a screen reader would read: the text without its tags.
fn text(page: &str) -> String {
    let style = page.find("</style>").unwrap();
    let body = &page[style + "</style>".len()..];
    let words: String = tags(body).iter().map(|(before, _)| *before).collect();
    words
        .replace("&lt;", "<")
        .replace("&gt;", ">")
        .replace("&quot;", "\"")
        .replace("&#39;", "'")
        .replace("&amp;", "&")
}

/// Every tag is closed in its turn, every attribute quoted, every name given once and every reference met; no script,
/// nothing from outside.
fn is_well_formed(page: &str) {
    assert!(page.starts_with("<!doctype html>\n<html lang=\"en\">"));
    assert!(page.len() < LIMIT, "{}", page.len());
    for word in ["<script", "http", "url(", "@import", " src=", " href="] {
        assert!(!page.contains(word), "{word}");
    }
    let mut open = Vec::new();
    let (mut names, mut references) = (Vec::new(), Vec::new());
    for (before, tag) in tags(page) {
        assert!(!before.contains('>') || open.last() == Some(&"style"));
        if let Some(name) = tag.strip_prefix('/') {
            assert_eq!(open.pop(), Some(name), "{tag}");
            continue;
        }
        let name = tag.split(' ').next().unwrap().trim_end_matches('/');
        let attributes = tag[name.len()..].trim_end_matches('/');
        let mut left = attributes;
        while let Some((key, rest)) = left.split_once("=\"") {
            let (value, rest) = rest.split_once('"').expect("a value ends");
            match key.trim() {
                "id" => names.push(value),
                "aria-labelledby" => references.extend(value.split(' ')),
                _ => {}
            }
            left = rest;
        }
        assert!(left.is_empty() || name == "!doctype", "{tag}");
        match name {
            "!doctype" | "meta" => {}
            "path" => assert!(tag.ends_with('/')),
            name => open.push(name),
        }
    }
    assert!(open.is_empty(), "{open:?}");
    let pictures = page.matches("role=\"img\"").count();
    assert_eq!(page.matches("<title id=").count(), pictures);
    assert_eq!(page.matches("<desc id=").count(), pictures);
    assert_eq!(references.len(), 2 * pictures);
    assert!(references.iter().all(|name| names.contains(name)));
    names.sort_unstable();
    let all = names.len();
    names.dedup();
    assert_eq!(names.len(), all);
    assert_eq!(
        page.matches("<table").count(),
        page.matches("<caption").count()
    );
}

/// The number two words before the last place of these words: `no store` is 0, thousands are apart.
fn number(words: &str, behind: &str) -> u64 {
    let at = words.rfind(behind);
    let before = &words[..at.unwrap_or_else(|| panic!("{behind}: {words}"))];
    let word = before.rsplit([' ', '\n']).nth(1).unwrap();
    match word.replace(',', "").as_str() {
        "no" | "No" => 0,
        digits => digits.parse().unwrap_or_else(|_| panic!("{word}: {words}")),
    }
}

/// The lines of a report that count over the whole trace.
fn totals(report: &str) -> String {
    let lines: Vec<&str> = report.lines().collect();
    let is_first = |line: &&str| line.starts_with("the watch of ") || line.starts_with("all ");
    let first = lines.iter().position(|line| is_first(line)).unwrap();
    lines[first..first + 6].join("\n") + "\n"
}

/// The first sentence's numbers are the text report's.
fn agrees(page: &str, report: &str) {
    let words = text(page);
    let mut lines = words.lines();
    let first = lines.find(|line| line.contains(" wrote only part of "));
    let first = first.unwrap().split(". ").next().unwrap();
    let refused = match first.contains(" were refused: ") {
        true => " were refused: ",
        false => " was refused: ",
    };
    for (in_page, in_text) in [
        (" wrote only part of ", " wrote part of it"),
        (" wrote all of ", " wrote all of it"),
        (" went to an unknown address", " went to an unknown address"),
        (refused, " refused\n"),
    ] {
        let (page, text) = (number(first, in_page), number(&totals(report), in_text));
        assert_eq!(page, text, "{first}\n{report}");
    }
    let complete = !report.contains("the answer is not complete");
    assert_eq!(first.contains("the answer is complete"), complete);
    assert_eq!(first.contains("the answer is not complete, "), !complete);
}

#[test]
fn the_sample() {
    let file = folder("html_sample").join("torn.html");
    let ran = run(&[
        "watch",
        TORN,
        "0x1008",
        "8",
        "--html",
        file.to_str().unwrap(),
    ]);
    assert_eq!((ran.status, ran.errors.as_str()), (Some(3), ""));
    golden("torn.watch.text", &ran.output);
    let page = fs::read_to_string(&file).unwrap();
    is_well_formed(&page);
    agrees(&page, &ran.output);
    let version = format!("machhurel {}.", env!("CARGO_PKG_VERSION"));
    assert_eq!(page.matches(&version).count(), 1);
    golden(
        "torn.watch.html",
        &page.replace(&version, "machhurel VERSION."),
    );
}

/// A store or a read at an address, or at an unknown one.
fn access(access: Access, address: Option<u64>, size: u8) -> Record {
    let record = Record::builder(40).memory_size(size);
    match address {
        Some(address) => record
            .operand(Spec::DispU64, access)
            .displacement(address as i64),
        None => record.operand(Spec::Deref, access).base(Register::quad(7)),
    }
    .build()
    .unwrap()
}

/// Under register files with a rip of few: stores of parts and of all of 0x103c, reads, unknown addresses and refused
/// records.
fn mixed(random: &mut Random, records: u64) -> Vec<u8> {
    let mut trace = RegisterFile::new().to_vec();
    for _ in 0..records {
        if random.below(3) == 0 {
            let rip = 0x40_1000 + random.below(40);
            trace.extend_from_slice(&RegisterFile::new().with(Known::Rip, rip)[..]);
        }
        let address = 0x103C_u64.wrapping_add(random.below(24)).wrapping_sub(12);
        let address = Some(address).filter(|_| random.below(30) > 0);
        let size = [1, 2, 4, 8, 16, 64][random.below(6) as usize];
        let what = [Access::Read, Access::Write][random.below(2) as usize];
        let mut record = access(what, address, size).to_vec();
        if random.below(40) == 0 {
            // no size: refused, under any of several opcodes
            record[16] = 0;
            record[1] = 40 + random.below(50) as u8;
        }
        trace.extend(record);
    }
    trace
}

/// How many reads touched the bytes of a variable, from the logs and sets of bytes alone; and how many went nobody knows
/// where.
fn reads(trace: &[u8], address: u64, length: u64) -> (u64, u64) {
    let (mut touched, mut unknown, mut file) = (0, 0, Vec::new());
    for item in Items::new(trace).flatten() {
        if item.class == Class::File {
            if check_file(item.bytes).is_ok() {
                file = item.bytes.to_vec();
            }
            continue;
        }
        let mut log = [0; LOG_BYTES];
        let n = visit(item.bytes, &file, &mut log, 0).unwrap_or(0);
        for event in Events::new(&log[..n]).flatten() {
            match event {
                Event::MemoryRead { address: None, .. } => unknown += 1,
                Event::MemoryRead {
                    address: Some(at),
                    size,
                } => {
                    let mut read = (0..u64::from(size)).map(|i| at.wrapping_add(i));
                    let hit = read.any(|at| (0..length).any(|i| address.wrapping_add(i) == at));
                    touched += u64::from(hit);
                }
                _ => {}
            }
        }
    }
    (touched, unknown)
}

/// The reads that a page tells.
fn told_reads(page: &str) -> (u64, u64) {
    let words = text(page);
    let mut lines = words.lines();
    let line = lines.find(|line| line.contains(" wrote only part of "));
    let line = line.unwrap();
    let far = match line.contains(" and ") && line.contains(" went to an unknown address.") {
        true => number(line, " went to an unknown address."),
        false => 0,
    };
    let (_, reads) = line.rsplit_once(": ").unwrap();
    match reads {
        reads if reads.contains("No read of it") => (0, far),
        reads if reads.contains("It was read once") => (1, far),
        reads => (number(&reads.replace(" times", " times x"), " x"), far),
    }
}

#[test]
fn pages_of_spoilt_and_of_mixed_traces() {
    let mut random = Random(0x7EA5);
    for round in 0..80 {
        let (trace, address) = match round % 2 {
            0 => (spoilt(&mut random), 0x1008),
            _ => {
                let records = random.below(700);
                (mixed(&mut random, records), 0x103C)
            }
        };
        let length = 1 + random.below(8);
        let jobs = ["1", "2", "5"][random.below(3) as usize];
        let words = [address.to_string(), length.to_string()];
        let (made, ran) = page(&trace, &words[0], &words[1], &["--jobs", jobs]);
        is_well_formed(&made);
        agrees(&made, &ran.output);
        assert_eq!(told_reads(&made), reads(&trace, address, length), "{round}");
        let without = pipe(&["watch", "-", &words[0], &words[1]], &trace);
        assert_eq!(without.output, ran.output, "the report is the same");
        assert_eq!((without.status, without.errors), (ran.status, ran.errors));
        let across = address % 64 + length > 64 && !ran.output.contains("\n  0 stores wrote all");
        assert_eq!(ran.output.contains("\nwarning: "), across, "{}", ran.output);
        assert_eq!(made.contains("<b>Warning:</b>"), across);
    }
}

#[test]
fn the_timeline_counts_every_access_once() {
    let mut random = Random(77);
    for records in [5, 319, 400, 5_000] {
        let trace = mixed(&mut random, records);
        let (made, ran) = page(&trace, "0x103c", "8", &[]);
        let table = &made[made.find("<caption>The same in numbers").unwrap()..];
        let table = &table[..table.find("</table>").unwrap()];
        let rows: Vec<Vec<u64>> = table
            .lines()
            .filter(|line| line.starts_with("<tr><td>"))
            .map(|line| {
                let cells = line.split("<td class=\"n\">").skip(1);
                let cell = |cell: &str| cell.split('<').next().unwrap().replace(',', "");
                cells.map(|each| cell(each).parse().unwrap()).collect()
            })
            .collect();
        assert!((1..=16).contains(&rows.len()), "{}", rows.len());
        let sum = |k: usize| rows.iter().map(|row| row[k]).sum::<u64>();
        let hidden = number(&totals(&ran.output), " went to an unknown address")
            + number(&totals(&ran.output), " refused\n");
        let text = [" wrote part of it", " wrote all of it"]
            .map(|words| number(&totals(&ran.output), words));
        let (read, _) = reads(&trace, 0x103C, 8);
        assert_eq!(
            [sum(0), sum(1), sum(2), sum(3)],
            [text[0], text[1], read, hidden]
        );
    }
}

/// The cells of a table's rows, without tags.
fn rows(page: &str, caption: &str) -> Vec<Vec<String>> {
    let from = page.find(&format!("<caption>{caption}")).unwrap();
    let table = &page[from..from + page[from..].find("</table>").unwrap()];
    let cells = |row: &str| {
        let cells = row.split("</td>").filter(|cell| cell.contains("<td"));
        let plain = |cell: &str| {
            tags(&format!("{cell}<b>"))
                .iter()
                .map(|tag| tag.0)
                .collect()
        };
        cells.map(plain).collect()
    };
    let rows = table.lines().filter(|line| line.starts_with("<tr><td"));
    rows.map(cells).collect()
}

/// Stores of a variable by rip, address and size; and which comes after which with how many reads in between: from what
/// the trace was made of.
#[test]
fn writers_and_pauses_against_a_naive_count() {
    let mut random = Random(4);
    let rip = |n: u64| RegisterFile::new().with(Known::Rip, 0x40_1000 + n);
    let variable = 0x1008..0x1010_u64;
    let mut trace = rip(0).to_vec();
    let mut writers: Vec<(String, u64)> = Vec::new();
    let mut pauses: Vec<(String, u64, u64)> = Vec::new();
    let (mut now, mut last, mut reads) = (0, None, 0);
    for _ in 0..3_000 {
        if random.below(2) == 0 {
            now = random.below(3);
            trace.extend_from_slice(&rip(now)[..]);
        }
        let (address, size) =
            [(0x1008, 4), (0x100C, 4), (0x1008, 8), (0x1010, 8)][random.below(4) as usize];
        let is_read = random.below(2) == 0;
        let what = [Access::Write, Access::Read][usize::from(is_read)];
        trace.extend_from_slice(&access(what, Some(address), size)[..]);
        if !variable.contains(&address) {
            continue;
        }
        if is_read {
            reads += 1;
            continue;
        }
        let key = format!("{:#x} 0x{address:016x}, {size} bytes", 0x40_1000 + now);
        match writers.iter_mut().find(|(each, _)| *each == key) {
            Some((_, count)) => *count += 1,
            None => writers.push((key, 1)),
        }
        let bytes = format!(
            "bytes {} to {}",
            address - 0x1008,
            address - 0x1008 + u64::from(size) - 1
        );
        let after = last.unwrap_or_else(|| "none: the trace begins".to_string());
        let key = format!("{after}; {bytes}");
        match pauses.iter_mut().find(|(each, _, _)| *each == key) {
            Some((_, count, read)) => (*count, *read) = (*count + 1, *read + reads),
            // nothing is told of the beginning where nothing was read
            None if after.starts_with("none") && reads == 0 => {}
            None => pauses.push((key, 1, reads)),
        }
        (last, reads) = (Some(bytes), 0);
    }
    if reads > 0 {
        pauses.push((format!("{}; none: the trace ends", last.unwrap()), 1, reads));
    }
    let (made, _) = page(&trace, "0x1008", "8", &[]);
    let told: Vec<(String, u64)> = rows(&made, "Stores that wrote the variable")
        .iter()
        .map(|row| (format!("{} {}", row[0], row[2]), row[5].parse().unwrap()))
        .collect();
    assert_eq!(told, writers);
    let told: Vec<(String, u64, u64)> = rows(&made, "Store after store")
        .iter()
        .map(|row| {
            let number = |k: usize| row[k].replace(',', "").parse().unwrap();
            (format!("{}; {}", row[0], row[1]), number(2), number(4))
        })
        .collect();
    assert_eq!(told, pauses);
}

#[test]
fn a_change_is_told_step_by_step() {
    let store = |address, size| access(Access::Write, Some(address), size);
    let read = access(Access::Read, Some(0x1008), 8);
    let rip = |rip| RegisterFile::new().with(Known::Rip, rip);
    let trace = [
        &rip(0x40_1136)[..],
        &store(0x1008, 4)[..],
        &read[..],
        &access(Access::Write, None, 8)[..],
        &rip(0x40_1139)[..],
        &store(0x100C, 4)[..],
        &read[..],
        &store(0x100C, 2)[..],
    ]
    .concat();
    let (made, ran) = page(&trace, "0x1008", "8", &[]);
    is_well_formed(&made);
    assert_eq!(ran.status, Some(3));
    let words = text(&made);
    for line in [
        "Records 0 to 3: a read met old bytes and new ones",
        "record 0 (next instruction at 0x401136) stores bytes 0 to 3",
        "record 1 (next instruction at 0x401136) reads bytes 0 to 7: bytes 0 to 3 from step 1, bytes 4 to 7 from before",
        "record 2 may have stored any of them: a store at an unknown address",
        "record 3 (next instruction at 0x401139) stores bytes 4 to 7",
        "From record 5 on; the rest was not stored",
    ] {
        assert!(words.lines().any(|each| each == line), "{line}\n{words}");
    }
    // the second read found a change that had ended
    assert_eq!(made.matches("<b class=\"bad\">").count(), 1);
}

#[test]
fn a_long_trace_gives_a_short_page_whatever_the_jobs() {
    let place = folder("html_long");
    let mut random = Random(2026);
    let piece = mixed(&mut random, 20_000);
    let mut out = fs::File::create(place.join("long.trace")).unwrap();
    for _ in 0..52 {
        out.write_all(&piece).unwrap();
    }
    drop(out);
    let mut pages = Vec::new();
    for (jobs, trace) in [("3", "long.trace"), ("1", "-")] {
        let script = "ulimit -v 400000; exec \"$0\" watch \"$1\" 0x103c 8 --jobs \"$2\" --html page.html <long.trace | tail -60";
        let mut shell = Command::new("bash");
        shell.args(["-c", &format!("set -o pipefail; {script}")]);
        shell.args([COMMAND, trace, jobs]).current_dir(&place);
        let ran: Ran = shell.output().unwrap().into();
        assert_eq!((ran.status, ran.errors.as_str()), (Some(3), ""));
        assert!(ran.output.contains("\nall watches of 8 bytes at "));
        let made = fs::read_to_string(place.join("page.html")).unwrap();
        is_well_formed(&made);
        agrees(&made, &ran.output);
        assert!(made.contains("Each column stands for 4,096 records"));
        pages.push(made.replace("standard input", "long.trace"));
    }
    assert!(pages[0] == pages[1]);
    fs::remove_dir_all(&place).unwrap();
}

#[test]
fn names_are_no_markup() {
    let place = folder("html_names");
    for name in ["<script>alert(\"1\")&'.trace", "a\u{1b}[31m\u{202e}b.trace"] {
        fs::write(place.join(name), torn()).unwrap();
        let mut command = command(&["watch", name, "0x1008", "8", "--html", "page.html"]);
        let ran: Ran = command.current_dir(&place).output().unwrap().into();
        assert_eq!(ran.status, Some(3));
        let made = fs::read_to_string(place.join("page.html")).unwrap();
        is_well_formed(&made);
        assert!(!made.contains('\u{1b}') && !made.contains('\u{202e}'));
        let shown = name
            .replace('\u{1b}', "\\u{1b}")
            .replace('\u{202e}', "\\u{202e}");
        assert!(text(&made).contains(&shown), "{shown}");
    }
    // a long name is cut
    let name = format!("{}.trace", "<".repeat(240));
    fs::write(place.join(&name), torn()).unwrap();
    let mut command = command(&["watch", &name, "0x1008", "8", "--html", "page.html"]);
    let ran: Ran = command.current_dir(&place).output().unwrap().into();
    assert_eq!(ran.status, Some(3));
    let made = fs::read_to_string(place.join("page.html")).unwrap();
    is_well_formed(&made);
    assert!(text(&made).contains(&format!("{}…", "<".repeat(200))));
    fs::remove_dir_all(&place).unwrap();
}

/// Where a page cannot go: a line says why, nothing is looked at, and nothing is left.
#[test]
fn a_file_that_cannot_be_written() {
    let place = folder("html_unwritable");
    fs::write(place.join("torn.trace"), torn()).unwrap();
    fs::create_dir(place.join("folder")).unwrap();
    symlink("torn.trace", place.join("same.trace")).unwrap();
    for (name, why) in [
        ("none/page.html", "No such file or directory"),
        ("torn.trace/page.html", "Not a directory"),
        ("folder", "it is no regular file"),
        ("page.html/", "it names a folder"),
        ("/dev/null", "it is no regular file"),
        ("torn.trace", "it is the trace itself"),
        ("same.trace", "it is the trace itself"),
        ("", "it has no name"),
    ] {
        let mut command = command(&["watch", "torn.trace", "0x1008", "8", "--html", name]);
        let ran: Ran = command.current_dir(&place).output().unwrap().into();
        let words = format!("machhurel: {name}: cannot be written: {why}\n");
        assert_eq!((ran.status, ran.output.as_str()), (Some(1), ""), "{name}");
        assert_eq!(ran.errors, words);
        assert_eq!(fs::read_dir(&place).unwrap().count(), 3, "{name}");
        assert_eq!(fs::read_dir(place.join("folder")).unwrap().count(), 0);
        assert_eq!(fs::read(place.join("torn.trace")).unwrap(), torn());
    }
    assert!(Path::new("/dev/null").exists());
    let trace = fs::File::open(place.join("torn.trace")).unwrap();
    let mut command = command(&["watch", "-", "0x1008", "8", "--html", "torn.trace"]);
    let ran: Ran = command
        .current_dir(&place)
        .stdin(trace)
        .output()
        .unwrap()
        .into();
    assert_eq!(ran.status, Some(1));
    assert!(ran.errors.ends_with("it is the trace itself\n"));
    fs::remove_dir_all(&place).unwrap();
}

/// Where it is full the page that was there stays.
#[test]
fn a_page_is_written_whole_or_not_at_all() {
    let place = folder("html_full");
    fs::write(place.join("page.html"), "the page before").unwrap();
    fs::write(place.join("torn.trace"), torn()).unwrap();
    // no file may be longer than a block: the page does not fit
    let script =
        "trap '' XFSZ; ulimit -f 4; exec \"$0\" watch torn.trace 0x1008 8 --html page.html";
    let mut shell = Command::new("bash");
    shell.args(["-c", script, COMMAND]).current_dir(&place);
    let ran: Ran = shell.output().unwrap().into();
    assert_eq!(ran.status, Some(1), "{ran:?}");
    let words = "machhurel: page.html: cannot be written: File too large\n";
    assert_eq!(ran.errors, words);
    assert_eq!(ran.output, run(&["watch", TORN, "0x1008", "8"]).output);
    let kept = fs::read_to_string(place.join("page.html")).unwrap();
    assert_eq!(kept, "the page before");
    assert_eq!(fs::read_dir(&place).unwrap().count(), 2);
    fs::remove_dir_all(&place).unwrap();
}

#[test]
fn the_file_that_is_meant() {
    let place = folder("html_file");
    fs::write(place.join("torn.trace"), torn()).unwrap();
    let made = |name: &std::ffi::OsStr| {
        let mut command = command(&["watch", "torn.trace", "0x1008", "8"]);
        command.arg("--html").arg(name).current_dir(&place);
        let ran: Ran = command.output().unwrap().into();
        assert_eq!((ran.status, ran.errors.as_str()), (Some(3), ""));
        fs::read_to_string(place.join(name)).unwrap()
    };
    // bytes that are no text, and a backslash, are the file's name
    let odd = std::ffi::OsStr::from_bytes(b"a\\b=\xff.html");
    let page = made(odd);
    is_well_formed(&page);
    // a link stays one, and a page is replaced
    fs::write(place.join("old.html"), "x".repeat(200_000)).unwrap();
    symlink("old.html", place.join("link.html")).unwrap();
    assert_eq!(made("link.html".as_ref()), page);
    assert!(place.join("link.html").is_symlink());
    assert_eq!(fs::read_to_string(place.join("old.html")).unwrap(), page);
    let mode = fs::metadata(place.join("old.html")).unwrap().permissions();
    assert_eq!(mode.mode() & 0o444, 0o444 & mode.mode());
    // --html=FILE, and the last one counts
    let mut command = command(&["watch", "torn.trace", "0x1008", "8"]);
    command.args(["--html=first.html", "--html=last=.html"]);
    let ran: Ran = command.current_dir(&place).output().unwrap().into();
    assert_eq!(ran.status, Some(3));
    assert!(!place.join("first.html").exists());
    assert_eq!(fs::read_to_string(place.join("last=.html")).unwrap(), page);
    fs::remove_dir_all(&place).unwrap();
}

#[test]
fn a_reader_that_goes_away_takes_no_page_with_it() {
    let place = folder("html_head");
    fs::write(place.join("long.trace"), torn().repeat(20_000)).unwrap();
    let mut command = command(&["watch", "long.trace", "0x1008", "8", "--html", "page.html"]);
    command.current_dir(&place).stdout(Stdio::piped());
    let mut child = command.stderr(Stdio::piped()).spawn().unwrap();
    drop(child.stdout.take());
    let ended = child.wait_with_output().unwrap();
    assert_eq!(
        (ended.status.code(), ended.stderr.as_slice()),
        (Some(3), &[][..])
    );
    let made = fs::read_to_string(place.join("page.html")).unwrap();
    is_well_formed(&made);
    assert!(made.contains("<b>40,000 stores wrote only part of the 8 bytes"));
    fs::remove_dir_all(&place).unwrap();
}

#[test]
fn a_damaged_trace_is_told_as_one_and_no_trace_gives_no_page() {
    let (made, ran) = page(&torn()[..200], "0x1008", "8", &[]);
    assert_eq!(ran.status, Some(1));
    is_well_formed(&made);
    agrees(&made, &ran.output);
    let words = text(&made);
    assert!(words.contains("and the trace is damaged or cut in 1 place."));
    assert!(words.contains("places of the trace that are damaged or cut"));
    let file = folder("html_none").join("page.html");
    let ran = run(&[
        "watch",
        "no.trace",
        "0x1008",
        "8",
        "--html",
        file.to_str().unwrap(),
    ]);
    assert_eq!((ran.status, file.exists()), (Some(1), false));
}
