//! Rings as calls take them.

/// The ring closed: where its last coordinate does not equal its first, this one is appended.
pub fn closed(ring: &[[f64; 2]]) -> Vec<[f64; 2]> {
    let mut closed = ring.to_vec();
    if closed.first() != closed.last() {
        closed.push(closed[0]);
    }
    closed
}
