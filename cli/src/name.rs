//! Names from outside, shown so that no byte of them reaches a terminal as a command.
use std::ffi::OsStr;
use std::fmt::Write;
use std::os::unix::ffi::OsStrExt;

/// Characters that change the direction of text: with them a name can look like another.
fn turns(c: char) -> bool {
    matches!(c, '\u{200E}' | '\u{200F}' | '\u{202A}'..='\u{202E}' | '\u{2066}'..='\u{2069}')
}

fn put_text(shown: &mut String, text: &str) {
    for c in text.chars() {
        if c.is_control() || turns(c) || c == '\\' {
            shown.extend(c.escape_default());
        } else {
            shown.push(c);
        }
    }
}

/// A name with its control characters, and its bytes that are no text, written out: `\u{1b}[31m`, `\xff`.
pub(crate) fn harmless(name: &OsStr) -> String {
    let mut shown = String::new();
    let mut left = name.as_bytes();
    while !left.is_empty() {
        let good = match std::str::from_utf8(left) {
            Ok(text) => text.len(),
            Err(error) => error.valid_up_to(),
        };
        let (text, rest) = left.split_at(good);
        put_text(&mut shown, &String::from_utf8_lossy(text));
        left = rest;
        if let Some((byte, rest)) = left.split_first() {
            // a String takes any text
            let _ = write!(shown, "\\x{byte:02x}");
            left = rest;
        }
    }
    shown
}

#[cfg(test)]
mod tests {
    use super::*;

    #[test]
    fn every_byte_is_harmless() {
        let all: Vec<u8> = (0..=255).collect();
        let shown = harmless(OsStr::from_bytes(&all));
        assert!(shown.chars().all(|c| !c.is_control()));
        assert_eq!(
            harmless(OsStr::from_bytes(b"a\x1b[31m\xff")),
            "a\\u{1b}[31m\\xff"
        );
        assert_eq!(harmless(OsStr::new("posição ⌘.trace")), "posição ⌘.trace");
        assert_eq!(harmless(OsStr::new("a\u{202e}b\\")), "a\\u{202e}b\\\\");
    }
}
