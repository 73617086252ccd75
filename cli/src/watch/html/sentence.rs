//! The page's first sentence, and the ones beside it.
use super::super::answer::Answer;
use super::changes::Kept;
use super::picture::Picture;
use super::words::{address, bytes, grouped, many, times};
use machhurel::Watch;

/// So many parts of the variable are named in the sentence.
const PARTS: usize = 4;

/// The variable: `8 bytes at 0x0000000000001008`.
pub(super) fn variable(watch: &Watch) -> String {
    let length = watch.length();
    let name = if length == 1 { "byte" } else { "bytes" };
    format!("{length} {name} at {}", address(watch.address()))
}

/// In how many stores, which bytes, how often, and whether that is all.
pub(super) fn first(watch: &Watch, answer: &Answer, picture: &Picture, damages: u64) -> String {
    let tally = &answer.tally;
    let mut words = many(tally.part, "store");
    if let Some(first) = words.get_mut(..1) {
        first.make_ascii_uppercase();
    }
    words.push_str(&format!(
        " wrote only part of the {}{}, {} wrote all of {}, {} went to an unknown address",
        variable(watch),
        parts(picture),
        many(tally.whole, "store"),
        if watch.length() == 1 { "it" } else { "them" },
        many(tally.unknown, "store"),
    ));
    let was = if answer.refused < 2 { "was" } else { "were" };
    words.push_str(&format!(
        " and {} {was} refused: ",
        many(answer.refused, "record")
    ));
    words.push_str(&match (answer.is_complete(), damages) {
        (true, 0) => "the answer is complete.".to_string(),
        (_, 0) => format!("the answer is not complete, {UNSEEN}."),
        (_, n) => format!(
            "the answer is not complete, {UNSEEN}, and the trace is damaged or cut in {}.",
            many(n, "place")
        ),
    });
    words
}

const UNSEEN: &str = "for the variable may have been written where nobody can tell";

/// ` (once bytes 0 to 3, once bytes 4 to 7)`; nothing where there is none.
fn parts(picture: &Picture) -> String {
    let all = picture.parts();
    let named = all.iter().take(PARTS);
    let mut words: Vec<String> = named
        .map(|(touched, count)| format!("{} {}", times(*count), bytes(*touched)))
        .collect();
    let others: u64 = all.iter().skip(PARTS).map(|(_, count)| *count).sum();
    if others > 0 {
        words.push(format!("{} other bytes", times(others)));
    }
    match words.as_slice() {
        [] => String::new(),
        words => format!(" ({})", words.join(", ")),
    }
}

/// How often the variable was read.
pub(super) fn reads(picture: &Picture) -> String {
    let mut words = match picture.readers.count {
        0 => "No read of it was seen".to_string(),
        1 => "It was read once".to_string(),
        n => format!("It was read {} times", grouped(n)),
    };
    if picture.reads_somewhere > 0 {
        let far = many(picture.reads_somewhere, "read");
        words.push_str(&format!(", and {far} went to an unknown address"));
    }
    words.push('.');
    words
}

/// How many changes in several stores there were, and which of them are shown.
pub(super) fn changes(met: &Kept, others: &Kept) -> String {
    let all = met.count.saturating_add(others.count);
    let mut words = match (met.count, all) {
        (0, _) => format!(
            "There {} {}, and no read met bytes from before beside bytes stored since.",
            are(all),
            many(all, "change")
        ),
        (n, _) => format!(
            "There {} {}; in {} a read met bytes from before beside bytes stored since, and can have shown a value that never existed.",
            are(all),
            many(all, "change"),
            grouped(n)
        ),
    };
    let shown = |kept: &Kept| kept.first.len() as u64;
    if shown(met).saturating_add(shown(others)) < all {
        words.push_str(&match (shown(met), shown(others)) {
            (0, n) => format!(" The first {n} are shown."),
            (n, 0) => format!(" {n} of these are shown."),
            (n, m) => format!(" {n} of these and {m} of the others are shown."),
        });
    }
    words
}

fn are(n: u64) -> &'static str {
    match n {
        1 => "is",
        _ => "are",
    }
}
