//! How a row is compared.

/// A buffer is so many bytes 0xEE. A call is lent some of them from the front, so that the others are seen to stay.
pub const BUFFER: usize = 200;

/// Whether a buffer has these bytes from the start on, and is unchanged elsewhere.
pub fn holds(buffer: &[u8; BUFFER], start: usize, bytes: &[u8]) -> bool {
    buffer.iter().enumerate().all(|(place, &byte)| {
        let behind = place.checked_sub(start);
        byte == *behind.and_then(|i| bytes.get(i)).unwrap_or(&0xEE)
    })
}

pub fn report(name: &str, right: bool) {
    assert!(right, "{name}");
}
