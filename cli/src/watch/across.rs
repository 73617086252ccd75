//! A variable that lies in two cache lines: then a store of all of it is two accesses for a reader on another core.
use super::answer::Answer;
use machhurel::Watch;
use std::fmt;

/// So many bytes are a cache line.
const LINE: u64 = 64;

/// Stores of all of a variable that lies across the end of a cache line.
#[derive(Clone, Copy, Debug, PartialEq, Eq)]
pub(super) struct Across {
    /// Where the second line begins.
    pub(super) address: u64,
    /// So many of the variable's bytes are in the first line.
    before: u64,
    length: u64,
    pub(super) stores: u64,
}

impl Across {
    /// None where the variable lies in one line, or no store wrote all of it.
    pub(super) fn of(watch: &Watch, answer: &Answer) -> Option<Across> {
        let before = LINE.checked_sub(watch.address().checked_rem(LINE)?)?;
        let stores = answer.tally.whole;
        let across = Across {
            address: watch.address().wrapping_add(before),
            before,
            length: watch.length(),
            stores,
        };
        Some(across).filter(|_| before < watch.length() && stores > 0)
    }
}

impl fmt::Display for Across {
    fn fmt(&self, f: &mut fmt::Formatter<'_>) -> fmt::Result {
        let Across {
            address,
            before,
            length,
            ..
        } = self;
        let tears = match self.stores {
            1 => "the store that wrote all of it tears",
            _ => "each store that wrote all of it tears",
        };
        write!(
            f,
            "the variable lies across the end of a cache line, {before} of its {length} bytes before 0x{address:016x}: {tears} for a reader on \
             another core"
        )
    }
}

#[cfg(test)]
mod tests {
    use super::*;
    use machhurel::Tally;

    #[test]
    fn the_end_of_a_line() {
        for (address, length, before) in [
            (0x1038, 8, None),
            (0x1039, 8, Some(7)),
            (0x103F, 1, None),
            (0x103F, 2, Some(1)),
            (0x1040, 8, None),
            (u64::MAX, 2, Some(1)),
        ] {
            let watch = Watch::new(address, length).unwrap();
            let mut answer = Answer::of(&watch, 0);
            assert_eq!(Across::of(&watch, &answer), None);
            answer.tally = Tally {
                whole: 3,
                ..answer.tally
            };
            let across = Across::of(&watch, &answer);
            assert_eq!(across.map(|across| across.before), before, "{address:#x}");
            let end = address.wrapping_add(before.unwrap_or(0));
            assert!(across.map_or(true, |across| across.address == end && end % LINE == 0));
        }
    }
}
