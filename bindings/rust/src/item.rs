//! The items of a trace: register files and records, one after another, in any number.
use crate::{
    BASED_FILE_BYTES, EVERYDAY_RECORD_BYTES, FILE_BYTES, RECORD_BYTES, SEGMENT_RECORD_BYTES,
};

/// What an item is.
#[derive(Clone, Copy, Debug, PartialEq, Eq, Hash)]
pub enum Class {
    /// A record: one decoded instruction.
    Record,
    /// A register file: it stands for the records after it.
    File,
}

impl Class {
    /// What it is called.
    pub const fn name(self) -> &'static str {
        match self {
            Class::Record => "record",
            Class::File => "register file",
        }
    }
}

/// The kinds of items: the byte, what it begins, and how many bytes the item has, its kind among them. A later kind is one more row.
pub const KINDS: [(u8, Class, usize); 5] = [
    (0x10, Class::Record, RECORD_BYTES),
    (0x11, Class::Record, SEGMENT_RECORD_BYTES),
    (0x12, Class::Record, EVERYDAY_RECORD_BYTES),
    (0x20, Class::File, FILE_BYTES),
    (0x21, Class::File, BASED_FILE_BYTES),
];

/// The bytes of an item of a kind, where there is one.
pub(crate) fn length_of(kind: u8) -> Option<usize> {
    let row = KINDS.iter().find(|(known, _, _)| *known == kind)?;
    Some(row.2)
}

/// A whole item.
#[derive(Clone, Copy, Debug, PartialEq, Eq, Hash)]
pub struct Item<'a> {
    /// The byte of the trace at which it begins.
    pub at: u64,
    /// What it is.
    pub class: Class,
    /// Its bytes, the kind first.
    pub bytes: &'a [u8],
}

impl Item<'_> {
    /// The opcode of a record.
    pub fn opcode(&self) -> Option<u16> {
        match (self.class, self.bytes.get(1), self.bytes.get(2)) {
            (Class::Record, Some(low), Some(high)) => Some(u16::from_le_bytes([*low, *high])),
            _ => None,
        }
    }
}

/// Bytes that are no item.
#[derive(Clone, Copy, Debug, PartialEq, Eq, Hash)]
pub enum Broken {
    /// A byte that begins no item. Nothing says where the next one would begin.
    Unknown {
        /// The byte.
        kind: u8,
    },
    /// The trace ends inside an item.
    Cut {
        /// What the item would have been.
        class: Class,
        /// How many bytes it has.
        needed: usize,
        /// How many of them are there.
        there: usize,
    },
}

impl core::fmt::Display for Broken {
    fn fmt(&self, f: &mut core::fmt::Formatter<'_>) -> core::fmt::Result {
        match self {
            Broken::Unknown { kind } => write!(f, "damaged: no item begins with 0x{kind:02x}"),
            Broken::Cut {
                class,
                needed,
                there,
            } => {
                let name = class.name();
                write!(f, "cut: a {name} of {needed} bytes ends after {there}")
            }
        }
    }
}

/// The first item of these bytes, as its class and its length; none where there are no bytes.
pub(crate) fn first(bytes: &[u8]) -> Option<Result<(Class, usize), Broken>> {
    let kind = *bytes.first()?;
    let row = KINDS.iter().find(|(known, _, _)| *known == kind);
    Some(match row {
        None => Err(Broken::Unknown { kind }),
        Some((_, class, needed)) if bytes.len() < *needed => Err(Broken::Cut {
            class: *class,
            needed: *needed,
            there: bytes.len(),
        }),
        Some((_, class, needed)) => Ok((*class, *needed)),
    })
}

/// Walks the items of a trace that is in memory. It ends after the last item, or after the first bytes that are none.
///
/// ```
/// use machhurel::{Broken, Class, Items, RegisterFile};
/// let mut bytes = RegisterFile::new().to_vec();
/// bytes.push(0x7F);
/// let mut items = Items::new(&bytes);
/// assert_eq!(items.next().unwrap().unwrap().class, Class::File);
/// assert_eq!(items.next(), Some(Err(Broken::Unknown { kind: 0x7F })));
/// assert_eq!(items.next(), None);
/// ```
#[derive(Clone, Debug)]
pub struct Items<'a> {
    left: &'a [u8],
    at: u64,
}

impl<'a> Items<'a> {
    /// The items of these bytes.
    pub fn new(bytes: &'a [u8]) -> Self {
        Items { left: bytes, at: 0 }
    }

    /// The byte at which the next item begins.
    pub fn at(&self) -> u64 {
        self.at
    }
}

impl<'a> Iterator for Items<'a> {
    type Item = Result<Item<'a>, Broken>;

    fn next(&mut self) -> Option<Self::Item> {
        match first(self.left)? {
            Err(broken) => {
                self.left = &[];
                Some(Err(broken))
            }
            Ok((class, length)) => {
                let (bytes, left) = self.left.split_at(length);
                let at = self.at;
                self.left = left;
                self.at = at.saturating_add(length as u64);
                Some(Ok(Item { at, class, bytes }))
            }
        }
    }
}

impl core::iter::FusedIterator for Items<'_> {}
