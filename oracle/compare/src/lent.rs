//! A lent slice between guard bytes. Guards and unwritten bytes hold a pattern that moves from call
//! to call, so that a byte written with what stood there before does not stay unseen.

const GUARD: usize = 64;
const PATTERN_PLACES: usize = 4096;
const PATTERN_LENGTH: usize = 80_000;

pub struct Lent {
    arena: Vec<u8>,
    pattern: Vec<u8>,
    /// Where in the pattern this call's bytes begin.
    place: usize,
    length: usize,
}

impl Lent {
    pub fn new() -> Lent {
        let mut state = 0x2545_F491_4F6C_DD1Du64;
        let mut byte = || {
            state ^= state << 13;
            state ^= state >> 7;
            state ^= state << 17;
            (state >> 32) as u8
        };
        let pattern = (0..PATTERN_LENGTH).map(|_| byte()).collect();
        Lent { arena: vec![0; PATTERN_LENGTH], pattern, place: 0, length: 0 }
    }

    /// Makes it a slice of the pattern's bytes, of this length.
    pub fn fill(&mut self, turn: usize, length: usize) {
        self.place = turn.wrapping_mul(13) % PATTERN_PLACES;
        self.length = length;
        let whole = length + 2 * GUARD;
        self.arena[..whole].copy_from_slice(&self.pattern[self.place..self.place + whole]);
    }

    /// Makes it a slice of these bytes.
    pub fn hold(&mut self, turn: usize, bytes: &[u8]) {
        self.fill(turn, bytes.len());
        self.arena[GUARD..GUARD + bytes.len()].copy_from_slice(bytes);
    }

    pub fn length(&self) -> usize {
        self.length
    }

    pub fn pointer(&self) -> *const u8 {
        self.arena[GUARD..].as_ptr()
    }

    pub fn pointer_mut(&mut self) -> *mut u8 {
        self.arena[GUARD..].as_mut_ptr()
    }

    /// Looks whether `written` stands at `start`, and everything else, guards too, is as it was
    /// filled. If not, says which byte is the first that differs, and how.
    pub fn wrong_byte(&self, start: usize, written: &[u8]) -> Option<String> {
        let whole = self.length + 2 * GUARD;
        let start = if written.is_empty() { GUARD } else { GUARD + start };
        let end = start + written.len();
        let pattern = &self.pattern[self.place..];
        let same = self.arena[..start] == pattern[..start]
            && self.arena[start..end] == *written
            && self.arena[end..whole] == pattern[end..whole];
        if same {
            return None;
        }
        let expected = |at: usize| if (start..end).contains(&at) { written[at - start] } else { pattern[at] };
        let at = (0..whole).find(|&at| self.arena[at] != expected(at))?;
        let (place, found) = (at as isize - GUARD as isize, self.arena[at]);
        Some(format!("byte {place} of {} is 0x{found:02X}, not 0x{:02X}", self.length, expected(at)))
    }
}
