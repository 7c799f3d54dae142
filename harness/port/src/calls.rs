//! The calls of crate `ringcut` on the harness's bounds, with their answers as the numbers that cross.

use formats::calls::{RingAfter, SliceAfter};
use formats::Bounds;
/// The count of bytes of the answer, or minus the refusal.
pub use ringcut::raw::frame;
use ringcut::{raw, PolygonBuffers, RingBuffers};

/// The two flags of a slice call as they cross: any number but 0 is set.
#[derive(Clone, Copy, Debug)]
pub struct Flags {
    pub assume_simple: u8,
    pub skip_boundary_fallback: u8,
}

/// The answer's one number, or minus the refusal.
pub fn polygon(
    flags: Flags,
    bounds: &Bounds,
    buffer: f64,
    coords: &[f64],
    lengths: &[u32],
    lent: PolygonBuffers,
) -> i64 {
    let Flags { assume_simple, skip_boundary_fallback } = flags;
    raw::polygon(assume_simple, skip_boundary_fallback, named(bounds), buffer, coords, lengths, lent)
}

/// The slices of a slice call to write to.
pub fn lent(slices: &mut SliceAfter) -> PolygonBuffers<'_> {
    let SliceAfter { answer: _, scratch, origin_scratch, order, out, out_lengths, out_origins } = slices;
    PolygonBuffers { scratch, origin_scratch, order, out, out_lengths, out_origins }
}

/// The count of coordinates of the cut ring, or minus the refusal.
pub fn ring(ring: &[f64], bounds: &Bounds, lent: RingBuffers) -> i64 {
    raw::ring(ring, named(bounds), lent)
}

/// The slices of a ring call to write to.
pub fn lent_to_ring(slices: &mut RingAfter) -> RingBuffers<'_> {
    let RingAfter { answer: _, scratch, origin_scratch, out, out_origins } = slices;
    RingBuffers { scratch, origin_scratch, out, out_origins }
}

pub fn named(&[west, south, east, north]: &Bounds) -> ringcut::Bounds {
    ringcut::Bounds { west, south, east, north }
}
