//! The trace reader: the same items however the bytes arrive, and the right place of every damage.
use machhurel::*;
use std::io::{self, Read};

/// Gives its bytes in pieces of changing sizes, and is interrupted now and then.
struct Pieces<'a> {
    left: &'a [u8],
    next: usize,
}

impl Read for Pieces<'_> {
    fn read(&mut self, room: &mut [u8]) -> io::Result<usize> {
        self.next = self.next * 5 % 257 + 1;
        if self.next % 7 == 0 {
            return Err(io::ErrorKind::Interrupted.into());
        }
        let n = self.next.min(self.left.len()).min(room.len());
        room[..n].copy_from_slice(&self.left[..n]);
        self.left = &self.left[n..];
        Ok(n)
    }
}

fn trace(pairs: u64) -> Vec<u8> {
    let record = Record::builder(5).build().unwrap();
    let pair = |k| [&RegisterFile::new().with(Known::Rax, k)[..], &record[..]].concat();
    (0..pairs).flat_map(pair).collect()
}

/// The items that a reader gives, and how it ended.
fn read_all(source: impl Read) -> (Vec<(u64, Vec<u8>)>, Result<(), String>, u64) {
    let mut reader = TraceReader::new(source);
    let mut items = Vec::new();
    loop {
        match reader.next_item() {
            Ok(Some(item)) => items.push((item.at, item.bytes.to_vec())),
            Ok(None) => return (items, Ok(()), reader.at()),
            Err(error) => {
                let words = error.to_string();
                assert!(matches!(reader.next_item(), Ok(None)));
                return (items, Err(words), reader.at());
            }
        }
    }
}

#[test]
fn pieces_give_the_same_items() {
    let bytes = trace(5_000);
    let whole: Vec<_> = Items::new(&bytes)
        .map(|item| item.map(|item| (item.at, item.bytes.to_vec())).unwrap())
        .collect();
    let pieces = Pieces {
        left: &bytes,
        next: 3,
    };
    let (items, ended, at) = read_all(pieces);
    assert_eq!(
        (items.len(), ended, at),
        (10_000, Ok(()), bytes.len() as u64)
    );
    assert!(items == whole);
}

#[test]
fn every_cut_is_told() {
    let bytes = trace(2);
    for n in 0..bytes.len() {
        let (items, ended, at) = read_all(&bytes[..n]);
        let whole = [0, 141, 181, 322]
            .into_iter()
            .rev()
            .find(|end| *end <= n)
            .unwrap();
        assert_eq!(at, whole as u64);
        assert_eq!(ended.is_ok(), n == whole, "{n}");
        assert_eq!(
            items
                .last()
                .map_or(0, |(at, item)| *at as usize + item.len()),
            whole
        );
        let from_slice = Items::new(&bytes[..n]).filter(|item| item.is_err()).count();
        assert_eq!(from_slice, usize::from(n != whole));
    }
    let (_, ended, _) = read_all(&bytes[..160]);
    assert_eq!(
        ended,
        Err("cut: a record of 40 bytes ends after 19".to_string())
    );
}

#[test]
fn an_unknown_kind_ends_it() {
    let mut bytes = trace(1);
    bytes.push(0x7F);
    bytes.extend(trace(1));
    let (items, ended, at) = read_all(&bytes[..]);
    assert_eq!((items.len(), at), (2, 181));
    assert_eq!(ended, Err("damaged: no item begins with 0x7f".to_string()));
}

#[test]
fn a_failing_source_is_told() {
    struct Fails;
    impl Read for Fails {
        fn read(&mut self, _: &mut [u8]) -> io::Result<usize> {
            Err(io::ErrorKind::PermissionDenied.into())
        }
    }
    let (items, ended, _) = read_all(trace(1).chain(Fails));
    assert_eq!(items.len(), 2);
    assert!(ended.unwrap_err().starts_with("cannot be read: "));
}
