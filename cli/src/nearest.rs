//! What somebody may have meant.

/// How many letters are to be put in, left out or changed to make one word of the other.
fn distance(a: &str, b: &str) -> usize {
    let mut row: Vec<usize> = (0..=b.chars().count()).collect();
    for (i, x) in a.chars().enumerate() {
        let mut before = i;
        let mut left = i.saturating_add(1);
        let mut next = vec![left];
        for (y, above) in b.chars().zip(row.iter().skip(1)) {
            let changed = before.saturating_add(usize::from(x != y));
            left = changed
                .min(left.saturating_add(1))
                .min(above.saturating_add(1));
            before = *above;
            next.push(left);
        }
        row = next;
    }
    row.last().copied().unwrap_or(0)
}

/// The word that is nearest to what was typed, where one is near.
pub(crate) fn nearest<'a>(typed: &str, words: impl Iterator<Item = &'a str>) -> Option<&'a str> {
    words
        .map(|word| (distance(typed, word), word))
        .filter(|(far, word)| *far <= 2 && *far < word.trim_start_matches('-').len())
        .min()
        .map(|(_, word)| word)
}

#[cfg(test)]
mod tests {
    use super::*;

    #[test]
    fn near_words() {
        assert_eq!(distance("", "abc"), 3);
        assert_eq!(distance("kitten", "sitting"), 3);
        let words = ["--format", "--writes", "--records"];
        assert_eq!(nearest("--fromat", words.into_iter()), Some("--format"));
        assert_eq!(nearest("--write", words.into_iter()), Some("--writes"));
        assert_eq!(nearest("--colour", words.into_iter()), None);
    }
}
