//! Calls that are worked by hand on the bounds 0, 0, 10, 10: one of each answer and of each reason, and those that document 02's
//! points 1, 4 and 12 are most easily misread on.

use formats::calls::{RingCall, SliceCall};
use formats::origins::CutRing;
use formats::reason::Reason;
use formats::room::most_cut;
use formats::{closed_length, flat, Bounds, Coord, Part, Ring};

pub const BOUNDS: Bounds = [0.0, 0.0, 10.0, 10.0];

pub const EVERY_FLAG: &[u8] = &[0, 1, 2, 3];

pub const INSIDE: [Coord; 5] = [(2., 2.), (8., 2.), (8., 8.), (2., 8.), (2., 2.)];
pub const ACROSS_EAST: [Coord; 5] = [(5., 5.), (15., 5.), (15., 8.), (5., 8.), (5., 5.)];
pub const BOW_TIE: [Coord; 5] = [(2., 2.), (8., 8.), (8., 2.), (2., 8.), (2., 2.)];
pub const APART: [Coord; 4] = [(20., 20.), (30., 20.), (30., 30.), (20., 20.)];

/// Not apart by their rectangles, and beyond the bounds: Bottom leaves nothing of the first, Top nothing of the second. Open.
pub const BEYOND_SOUTH_EAST: [Coord; 3] = [(9., -2.), (12., 1.), (12., -2.)];
pub const BEYOND_NORTH_EAST: [Coord; 3] = [(9., 12.), (12., 9.), (12., 12.)];

/// The difference of its second and third vertex overflows. Cut, it begins with a NaN, and so as a polygon's exterior it is closed
/// twice.
pub const OVERFLOWING: [Coord; 4] = [(8., 8.), (1e308, 1e308), (-1.7e308, -1.7e308), (8., 8.)];

/// What it is cut to, with the origins.
pub fn overflowing_cut() -> CutRing {
    let nan = (f64::NAN, 0.);
    CutRing {
        ring: vec![nan, (0., 0.), (8., 8.), (10., 10.), nan, nan, nan],
        origins: vec![BOTTOM, LEFT, 0, RIGHT, BOTTOM, BOTTOM, BOTTOM],
    }
}

/// Document 02's numbers of the lines.
pub const LEFT: u16 = 65_532;
pub const RIGHT: u16 = 65_533;
pub const BOTTOM: u16 = 65_534;
pub const TOP: u16 = 65_535;

/// How much longer each lent slice is than it has to be; a ring call has no order slice and no second length slice.
#[derive(Clone, Copy, Debug, Default)]
pub struct Beside {
    pub scratch: isize,
    pub origin_scratch: isize,
    pub order: isize,
    pub out: isize,
    pub out_lengths: isize,
    pub out_origins: isize,
}

impl Beside {
    pub fn all(beside: isize) -> Beside {
        Beside {
            scratch: beside,
            origin_scratch: beside,
            order: beside,
            out: beside,
            out_lengths: beside,
            out_origins: beside,
        }
    }
}

/// What stands at a place of a lent slice before a call: neighbours differ, and no answer here has such a number.
pub fn unwritten(place: usize) -> f64 {
    1_000.25 + place as f64
}

fn lent(asked: usize, beside: isize) -> Vec<f64> {
    (0..asked.saturating_add_signed(beside)).map(unwritten).collect()
}

fn lent_wholes(asked: usize, beside: isize) -> Vec<u32> {
    (0..asked.saturating_add_signed(beside) as u32).map(|place| 1_000 + place).collect()
}

/// What stands at a place of a lent slice of origins before a call: neighbours differ, and none is 0. No ring that is worked here is
/// so long that it is a position.
pub fn unwritten_origin(place: usize) -> u16 {
    40_000 + (place % 20_000) as u16
}

fn lent_origins(asked: usize, beside: isize) -> Vec<u16> {
    (0..asked.saturating_add_signed(beside)).map(unwritten_origin).collect()
}

pub fn ring_call(ring: &[Coord], beside: Beside) -> RingCall {
    let room = most_cut(ring.len());
    RingCall {
        ring: flat(ring),
        bounds: BOUNDS,
        scratch: lent(2 * room, beside.scratch),
        origin_scratch: lent_origins(room, beside.origin_scratch),
        out: lent(2 * room, beside.out),
        out_origins: lent_origins(room, beside.out_origins),
    }
}

/// A call on these rings with document 01's flags 0 to 3 and buffer 0.
pub fn slice_call(flags: u8, part: &[Ring], beside: Beside) -> SliceCall {
    let rooms: Vec<usize> = part.iter().map(|ring| most_cut(closed_length(ring))).collect();
    let (largest, sum) = (rooms.iter().copied().max().unwrap_or(0), rooms.iter().sum::<usize>());
    SliceCall {
        assume_simple: flags & 1 != 0,
        skip_boundary_fallback: flags & 2 != 0,
        bounds: BOUNDS,
        buffer: 0.0,
        coords: part.iter().flat_map(|ring| flat(ring)).collect(),
        lengths: part.iter().map(|ring| ring.len() as u32).collect(),
        scratch: lent(2 * largest, beside.scratch),
        origin_scratch: lent_origins(largest, beside.origin_scratch),
        order: lent_wholes(largest, beside.order),
        out: lent(2 * sum, beside.out),
        out_lengths: lent_wholes(part.len(), beside.out_lengths),
        out_origins: lent_origins(sum, beside.out_origins),
    }
}

/// One vertex, with an output of seven numbers and four origins: none is left, and six zeros and three are written, B(1) being 3.
pub fn one_vertex() -> RingCall {
    ring_call(&[(5., 5.)], Beside { out: 1, out_origins: 1, ..Beside::default() })
}

/// One coordinate with a NaN, which closed has two: dropped, and 22 zeros and 11 are written, B(2) being 11 and B(1) 3.
pub fn lone_nan() -> SliceCall {
    slice_call(0, &[vec![(f64::NAN, 5.)]], Beside { out: 1, out_origins: 1, ..Beside::default() })
}

/// Rings with the origins of the ring that a ring call cuts them to.
pub fn ring_of_each_origin() -> Vec<(Ring, Vec<u16>)> {
    vec![
        (ACROSS_EAST.to_vec(), vec![0, RIGHT, RIGHT, 3, 0]),
        (INSIDE.to_vec(), vec![0, 1, 2, 3, 0]),
        // Vertices on a line, and crossings that equal them.
        (vec![(10., 2.), (20., 2.), (20., 8.), (10., 8.)], vec![0, RIGHT, RIGHT, 3, 0]),
        // The corner is made by Bottom out of vertices of Left.
        (vec![(-5., -5.), (5., -5.), (5., 5.), (-5., 5.)], vec![BOTTOM, BOTTOM, 2, LEFT, BOTTOM]),
        // The last vertex equals the crossing that the ring then begins with: Bottom leaves it off, and that crossing closes the ring.
        (vec![(15., 5.), (5., 5.), (5., 8.), (10., 5.)], vec![RIGHT, RIGHT, 1, 2, RIGHT]),
        // The last vertex equals the first, but for the sign of a zero: it is left off, and the first closes the ring.
        (vec![(0., 0.), (5., 0.), (5., 5.), (-0., 0.)], vec![0, 1, 2, 0]),
        // Around the bounds: each corner is made by Bottom or Top.
        (vec![(-5., -5.), (15., -5.), (15., 15.), (-5., 15.)], vec![TOP, BOTTOM, BOTTOM, TOP, TOP]),
    ]
}

/// Rings with the counts of coordinates that they are cut to. Of those that are cut to none the first has no vertex, Bottom and
/// Top leave nothing of the next two, and all passes leave too few vertices of the last two.
pub fn ring_of_each_answer() -> Vec<(usize, Ring)> {
    vec![
        (5, ACROSS_EAST.to_vec()),
        (5, vec![(-5., -5.), (5., -5.), (5., 5.), (-5., 5.)]),
        (0, vec![]),
        (0, BEYOND_SOUTH_EAST.to_vec()),
        (0, BEYOND_NORTH_EAST.to_vec()),
        (0, vec![(5., 5.)]),
        (0, vec![(1., 1.), (2., 2.), (1., 1.), (1., 1.)]),
    ]
}

/// Polygons with their flags and a word for the answer. An answer comes before or after the exterior is cut; of the cut's holes
/// some are left out before ones that stay, and the largest ring is a hole.
pub fn polygon_of_each_answer() -> Vec<(&'static str, u8, Part)> {
    let cut_with_holes = vec![
        ACROSS_EAST.to_vec(),
        regular(7, (10., 6.), 1.),
        regular(9, (30., 5.), 2.),
        BEYOND_SOUTH_EAST.to_vec(),
        regular(20, (9.5, 6.5), 1.),
        vec![],
    ];
    let not_finite = vec![INSIDE.to_vec(), vec![(f64::NAN, 1.)]];
    let huge = vec![vec![(2., 2.), (1e150, 2.)], INSIDE.to_vec()];
    let huge_across_east = vec![vec![(5., 5.), (1e150, 5.), (1e150, 8.), (5., 8.)]];
    vec![
        ("nothing", 0, vec![APART.to_vec(), APART.to_vec()]),
        ("nothing", 3, vec![vec![], vec![]]),
        ("nothing", 3, vec![vec![(-50., 5.), (5., 55.), (-50., 55.)]]),
        ("nothing", 0, vec![BEYOND_SOUTH_EAST.to_vec(), INSIDE.to_vec()]),
        ("nothing", 0, vec![BEYOND_NORTH_EAST.to_vec()]),
        ("dropped", 1, not_finite),
        ("dropped", 2, huge),
        ("dropped", 0, huge_across_east),
        ("unchanged", 0, vec![INSIDE.to_vec(), unclosed(regular(50, (5., 5.), 2.))]),
        ("cut", 3, cut_with_holes.clone()),
        ("overlay", 0, cut_with_holes),
        ("overlay", 0, vec![BOW_TIE.to_vec(), INSIDE.to_vec()]),
        ("overlay", 3, vec![vec![(10., 2.), (20., 2.), (20., 8.), (10., 8.)]]),
    ]
}

/// Exteriors with the flags that they are tried with and the reason that an overlay is wanted for.
pub fn exterior_of_each_reason() -> Vec<(Reason, &'static [u8], Ring)> {
    let reason = |number: u8, first: u32, second: u32| Reason { number, first, second };
    let (crossings_told, bridges_told) = (&[0, 2], &[0, 1, 2]);
    let two_crossings = vec![(2., 6.), (3., 7.), (4., 2.), (6., 7.), (3., 5.), (2., 8.), (2., 6.)];
    vec![
        (reason(1, 0, 0), EVERY_FLAG, vec![(2., 2.), (8., 2.), (2., 2.)]),
        // Also near each other, but short comes first.
        (reason(1, 0, 0), EVERY_FLAG, vec![(2., 2.), (2., 2.), (2., 2.)]),
        (reason(7, 0, 0), EVERY_FLAG, vec![(2., 2.), (2., 2.), (8., 2.), (8., 8.), (2., 2.)]),
        (reason(7, 2, 0), EVERY_FLAG, vec![(2., 2.), (8., 2.), (8., 8.), (8., 8.), (2., 8.), (2., 8.), (2., 2.)]),
        // Not closed, so that the last segment is the one that closes it.
        (reason(7, 2, 0), EVERY_FLAG, vec![(2., 2.), (8., 2.), (8., 8.), (8., 8.)]),
        // Edges cross as well, but repeated comes first.
        (reason(7, 3, 0), EVERY_FLAG, vec![(2., 2.), (8., 8.), (8., 2.), (2., 8.), (2., 8.), (2., 2.)]),
        (reason(8, 0, 2), crossings_told, BOW_TIE.to_vec()),
        // Edges 0 and 4 cross, and edges 1 and 3.
        (reason(8, 0, 4), crossings_told, two_crossings.clone()),
        (reason(8, 0, 4), crossings_told, unclosed(two_crossings)),
        // The edge that closes it crosses edge 1, and edges 2 and 4 cross, which have higher numbers.
        (reason(8, 1, 5), crossings_told, vec![(2., 2.), (2., 8.), (6., 4.), (9., 9.), (9., 4.), (5., 9.)]),
        // A corner that touches a bound from outside: the cut has it three times.
        (reason(2, 0, 0), EVERY_FLAG, vec![(5., 10.), (8., 12.), (2., 12.), (5., 10.)]),
        (reason(9, 0, 0), EVERY_FLAG, vec![(10., 2.), (20., 2.), (20., 8.), (10., 8.), (10., 2.)]),
        // The cut has corner 1 twice, where the way out begins on the bound.
        (reason(9, 1, 0), EVERY_FLAG, vec![(2., 2.), (10., 4.), (12., 5.), (2., 8.)]),
        // Corner 3 lies on edge 0; cut at Left, that edge misses it by a rounding.
        (reason(10, 0, 3), crossings_told, vec![(5., 3.), (-4., 6.), (9., 2.), (2., 4.), (5., 3.)]),
        // The same from its last corner on, not closed.
        (reason(10, 1, 4), crossings_told, vec![(2., 4.), (5., 3.), (-4., 6.), (9., 2.)]),
        (reason(3, 0, 0), bridges_told, vec![(5., 5.), (-5., 5.), (-5., 8.), (5., 8.)]),
        (reason(4, 0, 0), bridges_told, ACROSS_EAST.to_vec()),
        (reason(5, 0, 0), bridges_told, vec![(5., 5.), (5., -5.), (8., -5.), (8., 5.)]),
        (reason(6, 0, 0), bridges_told, vec![(5., 5.), (5., 15.), (8., 15.), (8., 5.)]),
    ]
}

/// A ring of as many coordinates as a call may have, closed, whose cut repeats corner 89,999, with flag 1. It is in and out of the east
/// bound at every vertex: vertex 2 k is cut to corner 3 k, and has a corner of the bound on either side. Vertex 60,000 lies on the
/// bound itself.
pub fn late_repeat() -> (Reason, Ring) {
    let across = |k: u32| match k {
        60_000 => 10.,
        _ if k.is_multiple_of(2) => 9.,
        _ => 11.,
    };
    let ring = (0..65_531).map(|k| (across(k), 1. + f64::from(k) / 8_192.)).collect();
    (Reason { number: 9, first: 89_999, second: 0 }, ring)
}

/// A ring whose cut crosses itself at edges 98,283 and 98,286, without flag 1. It is in and out of the north bound at 65,521
/// vertices, the last of which is cut to corner 98,280. Behind that stand two corners on the south bound, and then the ring of reason
/// 10 above with x and y swapped and halved, which changes no rounding, left by a way between two of its edges.
pub fn late_crossing() -> (Reason, Ring) {
    let across = |k: u32| if k.is_multiple_of(2) { 9. } else { 11. };
    let mut ring: Ring = (0..65_521).map(|k| (1. + f64::from(k) / 8_192., across(k))).collect();
    ring.extend([(9.5, -5.), (0.5, -5.), (1.5, 2.5), (3., -2.), (1., 4.5), (2., 1.), (1.22, 3.5), (0.9, 4.5)]);
    (Reason { number: 10, first: 98_283, second: 98_286 }, ring)
}

/// A ring around a centre, closed; no two edges cross.
pub fn regular(coordinates: usize, centre: Coord, radius: f64) -> Ring {
    let edges = coordinates - 1;
    let vertex = |k: usize| {
        let angle = std::f64::consts::TAU * (k % edges) as f64 / edges as f64;
        (centre.0 + radius * angle.cos(), centre.1 + radius * angle.sin())
    };
    (0..coordinates).map(vertex).collect()
}

pub fn unclosed(mut ring: Ring) -> Ring {
    ring.pop();
    ring
}
