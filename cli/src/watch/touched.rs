//! Which bytes of a variable a store wrote, as the library answers them: bit i for byte i.

/// The bytes in words: `0-3`, with this between the ends of a run.
pub(super) fn runs(touched: u8, between: &str) -> String {
    let mut runs: Vec<(u32, u32)> = Vec::new();
    for byte in 0..u8::BITS {
        if touched.checked_shr(byte).unwrap_or(0) & 1 == 0 {
            continue;
        }
        match runs.last_mut() {
            Some((_, to)) if to.checked_add(1) == Some(byte) => *to = byte,
            _ => runs.push((byte, byte)),
        }
    }
    let word = |(from, to): &(u32, u32)| match from == to {
        true => from.to_string(),
        false => format!("{from}{between}{to}"),
    };
    let words: Vec<String> = runs.iter().map(word).collect();
    words.join(" and ")
}

#[cfg(test)]
mod tests {
    use super::*;

    #[test]
    fn runs_of_bits() {
        for (touched, words) in [
            (0x0F, "0-3"),
            (0xF0, "4-7"),
            (0x80, "7"),
            (0x01, "0"),
            (0xFF, "0-7"),
            (0xC3, "0-1 and 6-7"),
            (0x00, ""),
        ] {
            assert_eq!(runs(touched, "-"), words);
        }
    }
}
