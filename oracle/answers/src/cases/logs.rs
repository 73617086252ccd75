//! Logs for the event reader: every kind, cut, register and size.

/// Takes a log and a place in it.
pub type TakeLog<'a> = dyn FnMut(&[u8], usize) + 'a;

/// Reads at all places of a log, and past its end.
pub fn at_all_places(log: &[u8], take: &mut TakeLog) {
    (0..=log.len() + 1).for_each(|at| take(log, at));
    [1 << 16, 1 << 32, (1 << 32) + 1, 1 << 63, usize::MAX - 9, usize::MAX].into_iter().for_each(|at| take(log, at));
}

/// Every kind with every number of body bytes; every register; every size; behind other bytes too.
pub fn every_event(take: &mut TakeLog) {
    for kind in 0..=255u8 {
        for body in 0..=12 {
            for filler in [0, 1, 8, 64, 65, 255] {
                let mut log = vec![filler; 1 + body];
                log[0] = kind;
                take(&log, 0);
                log.splice(0..0, [1, 0, 0]);
                at_all_places(&log, take);
            }
        }
    }
    for bank in 0..=255 {
        for number in 0..=255 {
            take(&[1, bank, number], 0);
            take(&[2, bank, number, 9], 0);
        }
    }
    for size in 0..=255 {
        for kind in 3..=6 {
            take(&[kind, 1, 2, 3, 4, 5, 6, 7, 8, size], 0);
            take(&[kind, size], 0);
            take(&[kind, size, size, size, size, size, size, size, 255, size, size], 0);
        }
    }
}

/// A short choice of `every_event`: every kind and cut, both sides of every limit, places.
pub fn every_event_edge(take: &mut TakeLog) {
    for kind in [0, 1, 2, 3, 4, 5, 6, 7, 255] {
        let event = [kind, 4, 7, 1, 1, 1, 1, 1, 1, 64];
        for length in [1, 2, 3, 9, 10] {
            take(&event[..length], 0);
        }
    }
    for (bank, last) in [15, 15, 15, 15, 7, 31, 31, 31, 7, 0, 0, 0, 31].into_iter().enumerate() {
        take(&[1, bank as u8, last], 0);
        take(&[2, bank as u8, last + 1], 0);
    }
    for bank in [13, 255] {
        take(&[1, bank, 0], 0);
        take(&[2, bank], 0); // cut and a bad register: 1
    }
    for size in [0, 1, 63, 64, 65, 255] {
        for kind in [3, 4] {
            take(&[kind, 0, 0, 0, 0, 0, 0, 0, 255, size], 0);
        }
        for kind in [5, 6] {
            take(&[kind, size], 0);
        }
    }
    // P2's log, then a cut event.
    let log = [2, 11, 0, 1, 0, 3, 3, 8, 16, 0, 0, 0, 0, 0, 0, 8, 1, 0, 3, 6, 8, 4, 1];
    at_all_places(&log, take);
    at_all_places(&[], take);
}
