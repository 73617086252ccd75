//! Where two logs part.
use crate::ffi;
use crate::refusal::Refusal;

/// What two logs that read whole have not in common. The part is one of the second log and lives as long as it.
#[derive(Clone, Copy, Debug, PartialEq, Eq, Hash)]
pub enum Difference<'b> {
    /// The logs are equal, event by event and byte by byte.
    Equal,
    /// The second log from its first event that the first log does not have there; empty where the second ends early.
    From(&'b [u8]),
}

impl<'b> Difference<'b> {
    /// The part of the second log, empty where the logs are equal.
    pub fn part(self) -> &'b [u8] {
        match self {
            Difference::Equal => &[],
            Difference::From(part) => part,
        }
    }
}

/// Where the second log parts from the first. Both are read whole before they are compared; the refusal is the first
/// log's if both are refused.
///
/// ```
/// use machhurel::{difference, Difference, Event, Events, Refusal};
/// let first = [1, 0, 3, 5, 8]; // reads rbx, then 8 bytes at an unknown address
/// let second = [1, 0, 3, 5, 4]; // only 4 bytes
/// let parted = difference(&first, &second)?;
/// assert_eq!(parted, Difference::From(&[5, 4]));
/// let next = Events::new(parted.part()).next();
/// assert_eq!(next, Some(Ok(Event::MemoryRead { address: None, size: 4 })));
///
/// assert_eq!(difference(&first, &first)?, Difference::Equal);
/// assert_eq!(difference(&first, &second[..4]), Err(Refusal::Form)); // an event is cut short
/// # Ok::<(), Refusal>(())
/// ```
///
/// The part lives as long as the second log, however long the first does:
///
/// ```
/// let second = [5, 8, 6, 8];
/// let part = {
///     let first = vec![5, 8];
///     machhurel::difference(&first, &second)?.part()
/// };
/// assert_eq!(part, [6, 8]);
/// # Ok::<(), machhurel::Refusal>(())
/// ```
pub fn difference<'b>(first: &[u8], second: &'b [u8]) -> Result<Difference<'b>, Refusal> {
    let mut at = 0u64;
    // SAFETY: each pointer and length are those of a slice, and `at` is borrowed for writing alone.
    let answer = unsafe {
        ffi::machhurel_difference(
            first.as_ptr(),
            first.len(),
            second.as_ptr(),
            second.len(),
            &mut at,
        )
    };
    if let Some(refusal) = Refusal::of(answer) {
        return Err(refusal);
    }
    Ok(match (answer >> 8) & 1 {
        0 => Difference::Equal,
        _ => Difference::From(&second[at as usize..]),
    })
}
