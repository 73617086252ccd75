//! Counts as people read them.

/// A count with its thousands apart: `1,000,003`. (Numbers of records stay as they are typed.)
pub fn grouped(n: u64) -> String {
    let digits = n.to_string();
    let mut out = String::new();
    for (k, digit) in digits.chars().enumerate() {
        let left = digits.len().saturating_sub(k);
        if k > 0 && left.checked_rem(3) == Some(0) {
            out.push(',');
        }
        out.push(digit);
    }
    out
}
