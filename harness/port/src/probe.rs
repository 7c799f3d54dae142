//! Safe calls of the functions that crate `probe` exports. A slice crosses as a pointer and a length, in that order.

use formats::Bounds;
use ringcut::RingBuffers;

mod exported {
    extern "C" {
        pub fn probe_empty(out: *mut f64, out_len: usize);
        pub fn probe_is_valid(bounds: *const f64, len: usize) -> bool;
        pub fn probe_width(bounds: *const f64, len: usize) -> f64;
        pub fn probe_height(bounds: *const f64, len: usize) -> f64;
        pub fn probe_buffered(bounds: *const f64, len: usize, buffer: f64, out: *mut f64, out_len: usize);
        pub fn probe_expand(a: *const f64, a_len: usize, b: *const f64, b_len: usize, out: *mut f64, out_len: usize);
        #[allow(clippy::too_many_arguments)]
        pub fn probe_clip_ring(
            ring: *const f64,
            ring_len: usize,
            bounds: *const f64,
            bounds_len: usize,
            scratch: *mut f64,
            scratch_len: usize,
            origin_scratch: *mut u16,
            origin_scratch_len: usize,
            out: *mut f64,
            out_len: usize,
            out_origins: *mut u16,
            out_origins_len: usize,
        ) -> usize;
        #[allow(clippy::too_many_arguments)]
        pub fn probe_clip_ring_against_edge(
            ring: *const f64,
            ring_len: usize,
            origins: *const u16,
            origins_len: usize,
            edge: u8,
            bounds: *const f64,
            bounds_len: usize,
            out: *mut f64,
            out_len: usize,
            out_origins: *mut u16,
            out_origins_len: usize,
            verdicts: *mut usize,
            verdicts_len: usize,
        ) -> usize;
        pub fn probe_intersect(a: *const f64, a_len: usize, b: *const f64, b_len: usize, out: *mut f64, out_len: usize);
        pub fn probe_find_issue(
            ring: *const f64,
            ring_len: usize,
            assume_simple: u8,
            work: *mut f64,
            work_len: usize,
            order: *mut u32,
            order_len: usize,
        ) -> u64;
        pub fn probe_crosses(pair: *const f64, pair_len: usize) -> bool;
        pub fn probe_may_share_point(pair: *const f64, pair_len: usize) -> bool;
        pub fn probe_check_call(frame: *const u8, frame_len: usize, out_len: usize) -> u8;
        pub fn probe_frame_room(frame: *const u8, frame_len: usize) -> usize;
        pub fn probe_scan_pairs(ring: *const f64, ring_len: usize) -> u64;
        pub fn probe_sweep_pairs(
            ring: *const f64,
            ring_len: usize,
            work: *mut f64,
            work_len: usize,
            order: *mut u32,
            order_len: usize,
        ) -> u64;
    }
}

/// What the issue finder, the scan and the sweep answer where they look for nothing.
pub const NOT_LOOKED_FOR: u64 = u64::MAX;

/// Four numbers lent for an answer; one left unwritten would show as NaN.
const UNWRITTEN: Bounds = [f64::NAN; 4];

pub fn empty() -> Bounds {
    let mut out = UNWRITTEN;
    // SAFETY: pointer and length are those of an array that outlives the call; so in every call below.
    unsafe { exported::probe_empty(out.as_mut_ptr(), out.len()) };
    out
}

pub fn is_valid(bounds: &Bounds) -> bool {
    // SAFETY: as in `empty`.
    unsafe { exported::probe_is_valid(bounds.as_ptr(), bounds.len()) }
}

pub fn width(bounds: &Bounds) -> f64 {
    // SAFETY: as in `empty`.
    unsafe { exported::probe_width(bounds.as_ptr(), bounds.len()) }
}

pub fn height(bounds: &Bounds) -> f64 {
    // SAFETY: as in `empty`.
    unsafe { exported::probe_height(bounds.as_ptr(), bounds.len()) }
}

pub fn buffered(bounds: &Bounds, buffer: f64) -> Bounds {
    let mut out = UNWRITTEN;
    // SAFETY: as in `empty`.
    unsafe { exported::probe_buffered(bounds.as_ptr(), bounds.len(), buffer, out.as_mut_ptr(), out.len()) };
    out
}

pub fn expand(a: &Bounds, b: &Bounds) -> Bounds {
    let mut out = UNWRITTEN;
    // SAFETY: as in `empty`.
    unsafe { exported::probe_expand(a.as_ptr(), a.len(), b.as_ptr(), b.len(), out.as_mut_ptr(), out.len()) };
    out
}

pub fn intersect(a: &Bounds, b: &Bounds) -> Bounds {
    let mut out = UNWRITTEN;
    // SAFETY: as in `empty`.
    unsafe { exported::probe_intersect(a.as_ptr(), a.len(), b.as_ptr(), b.len(), out.as_mut_ptr(), out.len()) };
    out
}

/// The cutter by itself, on a ring that a ring call would not refuse: the count of coordinates, which stand at the front of the
/// output, their origins at the front of theirs. What is left in the scratch slices and past them is open.
pub fn clip_ring(ring: &[f64], bounds: &Bounds, lent: RingBuffers) -> usize {
    let RingBuffers { scratch, origin_scratch, out, out_origins } = lent;
    // SAFETY: as in `empty`.
    unsafe {
        exported::probe_clip_ring(
            ring.as_ptr(),
            ring.len(),
            bounds.as_ptr(),
            bounds.len(),
            scratch.as_mut_ptr(),
            scratch.len(),
            origin_scratch.as_mut_ptr(),
            origin_scratch.len(),
            out.as_mut_ptr(),
            out.len(),
            out_origins.as_mut_ptr(),
            out_origins.len(),
        )
    }
}

/// What is lent to a single pass to write to.
pub struct PassBuffers<'a> {
    pub out: &'a mut [f64],
    pub out_origins: &'a mut [u16],
    pub verdicts: &'a mut [usize],
}

/// One pass of the ring cutter at an edge (0 Left, 1 Right, 2 Bottom, any other Top) over vertices with these origins: the count of
/// vertices, and the count of verdicts as the first of `verdicts`. Where an output is shorter than a pass may need, a vertex lacks its
/// origin, or the vertices are over 524,256: the highest number, and nothing is written.
pub fn clip_ring_against_edge(ring: &[f64], origins: &[u16], edge: u8, bounds: &Bounds, lent: PassBuffers) -> usize {
    let PassBuffers { out, out_origins, verdicts } = lent;
    // SAFETY: as in `empty`.
    unsafe {
        exported::probe_clip_ring_against_edge(
            ring.as_ptr(),
            ring.len(),
            origins.as_ptr(),
            origins.len(),
            edge,
            bounds.as_ptr(),
            bounds.len(),
            out.as_mut_ptr(),
            out.len(),
            out_origins.as_mut_ptr(),
            out_origins.len(),
            verdicts.as_mut_ptr(),
            verdicts.len(),
        )
    }
}

/// The issue of an exterior: 0 sound, 1 short, 2 repeated, 3 crossing, + 2^8 x its first and 2^32 x its second position;
/// `NOT_LOOKED_FOR` where the work slices are too short.
pub fn find_issue(ring: &[f64], assume_simple: bool, work: &mut [f64], order: &mut [u32]) -> u64 {
    // SAFETY: as in `empty`.
    unsafe {
        exported::probe_find_issue(
            ring.as_ptr(),
            ring.len(),
            u8::from(assume_simple),
            work.as_mut_ptr(),
            work.len(),
            order.as_mut_ptr(),
            order.len(),
        )
    }
}

/// The first two edges that cross, by all pairs: 0 for none, 1 + 2^8 x the lower + 2^32 x the higher; `NOT_LOOKED_FOR` for no
/// coordinate.
pub fn scan_pairs(ring: &[f64]) -> u64 {
    // SAFETY: as in `empty`.
    unsafe { exported::probe_scan_pairs(ring.as_ptr(), ring.len()) }
}

/// The same by the sweep; `NOT_LOOKED_FOR` for no coordinate or where the work slices are too short.
pub fn sweep_pairs(ring: &[f64], work: &mut [f64], order: &mut [u32]) -> u64 {
    // SAFETY: as in `empty`.
    unsafe {
        exported::probe_sweep_pairs(
            ring.as_ptr(),
            ring.len(),
            work.as_mut_ptr(),
            work.len(),
            order.as_mut_ptr(),
            order.len(),
        )
    }
}

/// Whether two edges cross, by the eight numbers of their ends; one that is missing is a NaN.
pub fn crosses(pair: &[f64]) -> bool {
    // SAFETY: as in `empty`.
    unsafe { exported::probe_crosses(pair.as_ptr(), pair.len()) }
}

/// Whether two edges share a point, exactly, or a number of theirs is off the grid; one that is missing is.
pub fn may_share_point(pair: &[f64]) -> bool {
    // SAFETY: as in `empty`.
    unsafe { exported::probe_may_share_point(pair.as_ptr(), pair.len()) }
}

/// The refusal that a frame call meets with an output of so many bytes; 0 for none.
pub fn check_call(frame: &[u8], out: usize) -> u8 {
    // SAFETY: as in `empty`.
    unsafe { exported::probe_check_call(frame.as_ptr(), frame.len(), out) }
}

/// The bytes of output that a frame asks for; 0 for one that is refused.
pub fn frame_room(frame: &[u8]) -> usize {
    // SAFETY: as in `empty`.
    unsafe { exported::probe_frame_room(frame.as_ptr(), frame.len()) }
}
