//! The document, taken apart: sections, the rows of a table, and numbers in them.
const FORMAT: &str = include_str!("../../../../docs/FORMAT.md");

/// The lines of a section.
pub fn section(title: &str) -> Vec<&'static str> {
    let from_title = FORMAT
        .split(&format!("\n## {title}\n"))
        .nth(1)
        .expect(title);
    from_title
        .split("\n## ")
        .next()
        .expect(title)
        .lines()
        .collect()
}

/// The rows of a section's tables that are wanted, as cells.
pub fn table(title: &str, wanted: impl Fn(&[&str]) -> bool) -> Vec<Vec<&'static str>> {
    let cells = |line: &'static str| {
        line.trim_matches('|')
            .split('|')
            .map(str::trim)
            .collect::<Vec<_>>()
    };
    section(title)
        .into_iter()
        .filter(|line| line.starts_with('|'))
        .map(cells)
        .filter(|row| wanted(row))
        .collect()
}

/// The rows of a section's table whose first cell is a number.
pub fn rows(title: &str) -> Vec<Vec<&'static str>> {
    table(title, |row| row[0].parse::<u8>().is_ok())
}

pub fn number(text: &str) -> u64 {
    text.trim()
        .parse()
        .unwrap_or_else(|_| panic!("no number: {text:?}"))
}

/// `FIRST-LAST`.
pub fn range(text: &str) -> (u64, u64) {
    let (first, last) = text.split_once('-').expect(text);
    (number(first), number(last))
}
