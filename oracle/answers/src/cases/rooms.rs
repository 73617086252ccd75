//! Lent buffers: how long, and from where.

/// Rooms and starts around a log or listing of `n` bytes.
pub fn around(n: usize) -> Vec<(usize, usize)> {
    let mut rooms = vec![0, 1, n.saturating_sub(1), n, n + 1, 2 * n + 3, 200, 201, 202, 300, 70_000];
    rooms.sort();
    rooms.dedup();
    let mut pairs = Vec::new();
    for room in rooms {
        let mut starts = vec![0, 1, 2, room / 2, room.saturating_sub(1), room, room + 1, room + n];
        starts.extend(room.checked_sub(n)); // exactly full
        starts.extend((room + 1).checked_sub(n)); // one short
                                                  // Starts that lose a part when cut to fewer bits, or that overflow when n is added.
        starts.extend([1 << 8, 1 << 16, 1 << 31, 1 << 32, (1 << 32) + 1, 1 << 63]);
        starts.extend([usize::MAX, usize::MAX - 1, usize::MAX - n, (usize::MAX - n).wrapping_add(1)]);
        starts.sort();
        starts.dedup();
        pairs.extend(starts.into_iter().map(|start| (room, start)));
    }
    pairs
}
