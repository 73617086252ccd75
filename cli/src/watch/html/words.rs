//! Words of a page, and how they are made harmless.
pub(super) use super::super::grouped::grouped;
use super::super::touched::runs;

/// A text between tags or in quotes: none of its characters is taken for markup.
pub(super) fn escaped(text: &str) -> String {
    let mut safe = String::with_capacity(text.len());
    for c in text.chars() {
        match c {
            '&' => safe.push_str("&amp;"),
            '<' => safe.push_str("&lt;"),
            '>' => safe.push_str("&gt;"),
            '"' => safe.push_str("&quot;"),
            '\'' => safe.push_str("&#39;"),
            c => safe.push(c),
        }
    }
    safe
}

/// `no store`, `1 store`, `3,000 stores`.
pub(super) fn many(n: u64, one: &str) -> String {
    match n {
        0 => format!("no {one}"),
        1 => format!("1 {one}"),
        n => format!("{} {one}s", grouped(n)),
    }
}

/// `once`, `3,000 times`.
pub(super) fn times(n: u64) -> String {
    match n {
        1 => "once".to_string(),
        n => format!("{} times", grouped(n)),
    }
}

/// `byte 7`, `bytes 0 to 3`.
pub(super) fn bytes(touched: u8) -> String {
    let name = match touched.count_ones() {
        1 => "byte",
        _ => "bytes",
    };
    format!("{name} {}", runs(touched, " to "))
}

/// The address of an access, and of the variable.
pub(super) fn address(address: u64) -> String {
    format!("0x{address:016x}")
}

#[cfg(test)]
mod tests {
    use super::*;

    #[test]
    fn nothing_is_markup() {
        assert_eq!(
            escaped("<a href=\"x\">&'</a>"),
            "&lt;a href=&quot;x&quot;&gt;&amp;&#39;&lt;/a&gt;"
        );
    }

    #[test]
    fn thousands() {
        for (n, words) in [
            (0, "0"),
            (999, "999"),
            (1_000, "1,000"),
            (123_456, "123,456"),
            (1_000_003, "1,000,003"),
            (u64::MAX, "18,446,744,073,709,551,615"),
        ] {
            assert_eq!(grouped(n), words);
        }
        assert_eq!(many(0, "store"), "no store");
        assert_eq!(many(3_000, "store"), "3,000 stores");
    }
}
