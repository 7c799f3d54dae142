//! The calls with the numbers that cross: flags as bytes, answers as codes. They are as safe as those of the crate's
//! root, which read these codes; this module is for comparing the codes themselves. `include/ringcut.h` says what each is.

use crate::{Bounds, PolygonBuffers, RingBuffers};

/// The library's own names. A slice crosses as a pointer and a length, in that order.
mod exported {
    extern "C" {
        pub fn ringcut_frame(frame: *const u8, frame_len: usize, out: *mut u8, out_len: usize) -> i64;

        pub fn ringcut_ring(
            ring: *const f64,
            ring_len: usize,
            west: f64,
            south: f64,
            east: f64,
            north: f64,
            scratch: *mut f64,
            scratch_len: usize,
            origin_scratch: *mut u16,
            origin_scratch_len: usize,
            out: *mut f64,
            out_len: usize,
            out_origins: *mut u16,
            out_origins_len: usize,
        ) -> i64;

        pub fn ringcut_polygon(
            assume_simple: u8,
            skip_boundary_fallback: u8,
            west: f64,
            south: f64,
            east: f64,
            north: f64,
            buffer: f64,
            coords: *const f64,
            coords_len: usize,
            lengths: *const u32,
            lengths_len: usize,
            scratch: *mut f64,
            scratch_len: usize,
            origin_scratch: *mut u16,
            origin_scratch_len: usize,
            order: *mut u32,
            order_len: usize,
            out: *mut f64,
            out_len: usize,
            out_lengths: *mut u32,
            out_lengths_len: usize,
            out_origins: *mut u16,
            out_origins_len: usize,
        ) -> i64;

        pub fn ringcut_mend(ring: *const f64, ring_len: usize, out: *mut f64, out_len: usize) -> i64;

        pub fn ringcut_version() -> u32;
    }
}

/// The bytes of the answer, or minus the refusal.
#[inline]
pub fn frame(frame: &[u8], out: &mut [u8]) -> i64 {
    // SAFETY: each pointer and length is that of a slice borrowed for the call, and the call asks nothing else.
    unsafe { exported::ringcut_frame(frame.as_ptr(), frame.len(), out.as_mut_ptr(), out.len()) }
}

/// The coordinates of the cut ring, or minus the refusal.
#[inline]
pub fn ring(ring: &[f64], bounds: Bounds, lent: RingBuffers) -> i64 {
    let Bounds { west, south, east, north } = bounds;
    let RingBuffers { scratch, origin_scratch, out, out_origins } = lent;
    // SAFETY: each pointer and length is that of a slice borrowed for the call, and the call asks nothing else.
    unsafe {
        exported::ringcut_ring(
            ring.as_ptr(),
            ring.len(),
            west,
            south,
            east,
            north,
            scratch.as_mut_ptr(),
            scratch.len(),
            origin_scratch.as_mut_ptr(),
            origin_scratch.len(),
            out.as_mut_ptr(),
            out.len(),
            out_origins.as_mut_ptr(),
            out_origins.len(),
        )
    }
}

/// The answer, 2^8 times an overlay's reason, 2^16 times a cut's rings or an overlay's first position and 2^40 times its second, or
/// minus the refusal. Any number but 0 sets a flag.
#[inline]
pub fn polygon(
    assume_simple: u8,
    skip_boundary_fallback: u8,
    bounds: Bounds,
    buffer: f64,
    coords: &[f64],
    lengths: &[u32],
    lent: PolygonBuffers,
) -> i64 {
    let Bounds { west, south, east, north } = bounds;
    let PolygonBuffers { scratch, origin_scratch, order, out, out_lengths, out_origins } = lent;
    // SAFETY: each pointer and length is that of a slice borrowed for the call, and the call asks nothing else.
    unsafe {
        exported::ringcut_polygon(
            assume_simple,
            skip_boundary_fallback,
            west,
            south,
            east,
            north,
            buffer,
            coords.as_ptr(),
            coords.len(),
            lengths.as_ptr(),
            lengths.len(),
            scratch.as_mut_ptr(),
            scratch.len(),
            origin_scratch.as_mut_ptr(),
            origin_scratch.len(),
            order.as_mut_ptr(),
            order.len(),
            out.as_mut_ptr(),
            out.len(),
            out_lengths.as_mut_ptr(),
            out_lengths.len(),
            out_origins.as_mut_ptr(),
            out_origins.len(),
        )
    }
}

/// The coordinates that are kept of the ring, or minus the refusal.
#[inline]
pub fn mend(ring: &[f64], out: &mut [f64]) -> i64 {
    // SAFETY: each pointer and length is that of a slice borrowed for the call, and the call asks nothing else.
    unsafe { exported::ringcut_mend(ring.as_ptr(), ring.len(), out.as_mut_ptr(), out.len()) }
}

/// A million times the major version, a thousand times the minor one and the patch.
#[inline]
pub fn version() -> u32 {
    // SAFETY: the call takes nothing and asks nothing.
    unsafe { exported::ringcut_version() }
}
