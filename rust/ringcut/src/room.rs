//! How much a caller has to lend.

/// The bytes of output that are enough for every frame, which is proved: the law `frame_most` in
/// `crates/frame_bytes/proofs/MostRoom.antt`. So much is asked by rings of one NaN coordinate, which closing makes two: 281 of
/// them, in nine parts.
pub const MOST_FRAME_OUTPUT: usize = 56_259;

/// No cut ring has more coordinates: the longest ring that a call takes has 65,532.
pub(crate) const MOST_CUT: usize = room_for_ring(65_532);

/// Document 01's B: the room, in coordinates, that a ring of `n` coordinates asks for, cut or not. `n` grown by half,
/// rounded down, four times, plus 2; none for 0.
///
/// ```
/// use ringcut::room_for_ring;
///
/// assert_eq!([0, 1, 2, 3, 4, 5].map(room_for_ring), [0, 3, 11, 15, 21, 24]);
/// // An array for a ring of up to 100 coordinates; a coordinate is two numbers.
/// let scratch = [0.0; 2 * room_for_ring(100)];
/// assert_eq!(scratch.len(), 1_014);
/// ```
pub const fn room_for_ring(n: usize) -> usize {
    if n == 0 {
        return 0;
    }
    half_growth(half_growth(half_growth(half_growth(n)))).saturating_add(2)
}

/// Saturates, so that no length overflows: a call refuses far shorter ones.
const fn half_growth(n: usize) -> usize {
    n.saturating_add(n / 2)
}
