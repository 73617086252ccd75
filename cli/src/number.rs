//! Numbers and ranges as people type them.

/// A number in decimal, or in hexadecimal behind 0x.
pub(crate) fn number(typed: &str) -> Option<u64> {
    let digits = |text: &str, base| match text.bytes().next()? {
        b'+' => None,
        _ => u64::from_str_radix(text, base).ok(),
    };
    match typed
        .strip_prefix("0x")
        .or_else(|| typed.strip_prefix("0X"))
    {
        Some(hex) => digits(hex, 16),
        None => digits(typed, 10),
    }
}

/// Bytes of memory, from an address on, modulo two to the 64.
#[derive(Clone, Copy, Debug, PartialEq, Eq)]
pub(crate) struct Bytes {
    address: u64,
    length: u64,
}

impl Bytes {
    /// ADDRESS+LENGTH, or ADDRESS for one byte.
    pub(crate) fn parse(typed: &str) -> Option<Bytes> {
        let (address, length) = typed.split_once('+').unwrap_or((typed, "1"));
        let bytes = Bytes {
            address: number(address)?,
            length: number(length)?,
        };
        Some(bytes).filter(|bytes| bytes.length > 0)
    }

    /// Whether an access at an address touches one of these bytes.
    pub(crate) fn touched(self, address: u64, size: u8) -> bool {
        self.address.wrapping_sub(address) < u64::from(size)
            || address.wrapping_sub(self.address) < self.length
    }
}

/// Numbers from one on, up to another and without it.
#[derive(Clone, Copy, Debug, PartialEq, Eq)]
pub(crate) struct Range {
    pub(crate) from: u64,
    pub(crate) to: u64,
}

impl Range {
    pub(crate) const ALL: Range = Range {
        from: 0,
        to: u64::MAX,
    };

    /// A..B, A.., ..B, or A alone.
    pub(crate) fn parse(typed: &str) -> Option<Range> {
        let end = |text: &str, missing| match text {
            "" => Some(missing),
            _ => number(text),
        };
        match typed.split_once("..") {
            None => {
                let from = number(typed)?;
                let to = from.checked_add(1)?;
                Some(Range { from, to })
            }
            Some((from, to)) => Some(Range {
                from: end(from, 0)?,
                to: end(to, u64::MAX)?,
            }),
        }
    }

    pub(crate) fn has(self, n: u64) -> bool {
        self.from <= n && n < self.to
    }

    pub(crate) fn count(self) -> u64 {
        self.to.saturating_sub(self.from)
    }
}

#[cfg(test)]
mod tests {
    use super::*;

    #[test]
    fn numbers() {
        assert_eq!(number("12"), Some(12));
        assert_eq!(number("0x1008"), Some(0x1008));
        assert_eq!(number("18446744073709551615"), Some(u64::MAX));
        for bad in [
            "",
            "0x",
            "-1",
            "+1",
            "0x+1",
            "12 ",
            "1_0",
            "18446744073709551616",
        ] {
            assert_eq!(number(bad), None, "{bad}");
        }
    }

    #[test]
    fn bytes_modulo_two_to_the_64() {
        let position = Bytes::parse("0x1008+8").unwrap();
        for (address, size, touched) in [
            (0x1008, 8, true),
            (0x100F, 1, true),
            (0x1010, 8, false),
            (0x1007, 1, false),
            (0x1007, 2, true),
            (0, 64, false),
        ] {
            assert_eq!(position.touched(address, size), touched, "{address:#x}");
        }
        let last = Bytes::parse("0xFFFFFFFFFFFFFFFF+2").unwrap();
        assert!(last.touched(0, 1) && last.touched(u64::MAX, 1));
        assert!(!last.touched(1, 8) && last.touched(u64::MAX - 7, 8));
        assert!(Bytes::parse("0x1008+0").is_none() && Bytes::parse("8+").is_none());
    }

    #[test]
    fn ranges() {
        let parsed = |typed| Range::parse(typed).map(|range| (range.from, range.to));
        assert_eq!(parsed("100..200"), Some((100, 200)));
        assert_eq!(parsed("100.."), Some((100, u64::MAX)));
        assert_eq!(parsed("..5"), Some((0, 5)));
        assert_eq!(parsed("7"), Some((7, 8)));
        assert_eq!(parsed("7..x"), None);
        assert!(Range::ALL.has(0) && !Range { from: 1, to: 2 }.has(2));
    }
}
