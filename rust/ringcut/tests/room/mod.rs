//! How much a call is lent to write to, for the tests that look at all of it.

use ringcut::room_for_ring;

/// The lengths of the slices that are lent: numbers and origins in scratch, positions, numbers, lengths and origins of output. A
/// ring call has no order slice and none for lengths.
#[derive(Clone, Copy)]
pub struct Room {
    pub scratch: usize,
    pub origin_scratch: usize,
    pub order: usize,
    pub out: usize,
    pub out_lengths: usize,
    pub out_origins: usize,
}

impl Room {
    /// What a slice call asks for rings of these lengths, closing coordinates counted.
    pub fn of_polygon(closed: &[usize]) -> Room {
        let rooms = closed.iter().map(|&n| room_for_ring(n));
        let (largest, sum) = (rooms.clone().max().unwrap(), rooms.sum::<usize>());
        Room {
            scratch: 2 * largest,
            origin_scratch: largest,
            order: largest,
            out: 2 * sum,
            out_lengths: closed.len(),
            out_origins: sum,
        }
    }
}
