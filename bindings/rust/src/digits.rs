//! Numbers as digits, without a formatter: a long trace in words is mostly numbers.

/// The digits of a number, on the stack.
#[derive(Clone, Copy, Debug)]
pub struct Digits<const N: usize> {
    bytes: [u8; N],
    begin: usize,
}

impl<const N: usize> Digits<N> {
    /// The digits as ASCII.
    pub fn as_bytes(&self) -> &[u8] {
        self.bytes.get(self.begin..).unwrap_or(&[])
    }

    /// The digits as text.
    pub fn as_str(&self) -> &str {
        // every byte is an ASCII digit
        core::str::from_utf8(self.as_bytes()).unwrap_or("")
    }
}

/// A number in decimal.
pub type Decimal = Digits<20>;

impl Decimal {
    /// The number in as few digits as it has.
    ///
    /// ```
    /// use machhurel::digits::Decimal;
    /// assert_eq!(Decimal::of(0).as_str(), "0");
    /// assert_eq!(Decimal::of(u64::MAX).as_str(), "18446744073709551615");
    /// ```
    pub fn of(mut n: u64) -> Decimal {
        let mut bytes = [b'0'; 20];
        let mut begin = 20;
        for byte in bytes.iter_mut().rev() {
            *byte = b'0' + (n % 10) as u8;
            begin -= 1;
            n /= 10;
            if n == 0 {
                break;
            }
        }
        Digits { bytes, begin }
    }
}

/// A number in hexadecimal.
pub type Hex = Digits<16>;

impl Hex {
    /// The number in sixteen digits.
    pub fn of(mut n: u64) -> Hex {
        let mut bytes = [0; 16];
        for byte in bytes.iter_mut().rev() {
            let digit = (n & 15) as u8;
            *byte = digit + if digit < 10 { b'0' } else { b'a' - 10 };
            n >>= 4;
        }
        Digits { bytes, begin: 0 }
    }

    /// The number in as few digits as it has.
    ///
    /// ```
    /// use machhurel::digits::Hex;
    /// assert_eq!(Hex::short(0).as_str(), "0");
    /// assert_eq!(Hex::short(0x401136).as_str(), "401136");
    /// assert_eq!(Hex::of(0x401136).as_str(), "0000000000401136");
    /// ```
    pub fn short(n: u64) -> Hex {
        let zeros = n.leading_zeros() as usize / 4;
        Digits {
            begin: zeros.min(15),
            ..Hex::of(n)
        }
    }
}
