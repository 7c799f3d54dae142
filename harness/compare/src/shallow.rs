//! Rings with edges that cross by the rounded test, though not properly: those that document 02's point 5 is most easily misread on.

use formats::reason::Reason;
use formats::{Bounds, Coord, Ring};

/// Two edges that cross by the rounded test: from the first end to the second, and from the third to the fourth.
pub struct Shallow {
    pub name: &'static str,
    pub ends: [Coord; 4],
    pub share_a_point: bool,
    /// How far the arcs that join the edges are bent away from them, and to which side, so that no other edges cross.
    bulges: [f64; 2],
}

/// All numbers are on the grid. No other edges of the four ends, as a ring, cross by the rounded test.
pub const SHALLOW: [Shallow; 4] = [
    Shallow {
        name: "no point",
        ends: [(47.9, 73.), (22.7, 60.4), (73.1, 85.6), (-81.7, 8.2)],
        share_a_point: false,
        bulges: [-0.5, 0.5],
    },
    Shallow {
        name: "a touch",
        ends: [(112.3, 14.8), (12.7, 48.), (61.6, 31.7), (21.1, 45.2)],
        share_a_point: true,
        bulges: [-0.5, 0.5],
    },
    Shallow {
        name: "an overlap",
        ends: [(-25.1, 62.2), (-254.9, -91.), (48.4, 111.2), (-113.9, 3.)],
        share_a_point: true,
        bulges: [-0.5, -0.5],
    },
    Shallow {
        name: "an end on the line of the other",
        ends: [(18.6, 79.2), (-37.2, 42.), (88.8, 126.), (-9., 60.8)],
        share_a_point: false,
        bulges: [-0.5, -0.5],
    },
];

/// Bounds around all rings with these edges.
pub const WIDE: Bounds = [-500., -500., 500., 500.];

impl Shallow {
    /// The two edges joined by arcs of so many vertices each, not closed: they are edges 0 and 2 + `vertices`.
    pub fn ring(&self, vertices: usize) -> Ring {
        let [a, b, c, d] = self.ends;
        let [out, back] = self.bulges;
        [vec![a, b], arc(b, c, out, vertices), vec![c, d], arc(d, a, back, vertices)].concat()
    }

    /// What a call on that ring is answered in wide bounds, where edges are looked at.
    pub fn reason(&self, vertices: usize) -> Option<Reason> {
        self.share_a_point.then_some(Reason { number: 8, first: 0, second: 2 + vertices as u32 })
    }
}

/// Vertices on the way between two others, bent away to one side of it, in 4,096ths, which are on the grid.
fn arc(from: Coord, to: Coord, bulge: f64, vertices: usize) -> Ring {
    let (dx, dy) = (to.0 - from.0, to.1 - from.1);
    let rounded = |number: f64| (4_096. * number).round() / 4_096.;
    let vertex = |k: usize| {
        let way = k as f64 / (vertices + 1) as f64;
        let off = 4. * bulge * way * (1. - way);
        (rounded(from.0 + way * dx - off * dy), rounded(from.1 + way * dy + off * dx))
    };
    (1..=vertices).map(vertex).collect()
}

/// Edges 0 and 2 cross by the rounded test and share no point, whichever of these numbers an end has: so they cross where it is off the
/// grid. Each ring with the numbers on the grid and off it, not closed.
pub fn shallow_by_number() -> Vec<(Ring, bool)> {
    let step = 1. / (1u64 << 48) as f64;
    let near_zero = |x: f64| vec![(x, 99.6), (37.8, 93.), (182.7, 67.7), (-69.3, 111.7)];
    let near_256 = |x: f64| vec![(206.8, 43.8), (38.7, 39.7), (75.6, 40.6), (x, 45.)];
    let mirrored = |ring: Ring| -> Ring { ring.into_iter().map(|(x, y)| (-x, y)).collect() };
    let mut rings = Vec::new();
    for (x, on_grid) in
        [(0., true), (-0., true), (step, true), (3. * step, true), (0.5 * step, false), (1.5 * step, false)]
    {
        rings.extend([(near_zero(x), on_grid), (near_zero(-x), on_grid), (mirrored(near_zero(x)), on_grid)]);
    }
    for (x, on_grid) in [(256., true), (256f64.next_down(), true), (256f64.next_up(), false)] {
        rings.extend([(near_256(x), on_grid), (mirrored(near_256(x)), on_grid)]);
    }
    rings
}

/// A ring whose last vertex reaches over the east bound of `bounds` by 1/2^36, so that the cut has two corners there in its last
/// segment, where they may repeat. The cut moves the edge to that vertex by a rounding: then it crosses edge 2 of the cut by the rounded
/// test, as edge 5, though the two share no point. No edges of the ring itself cross. Not closed.
pub fn shallow_when_cut() -> (Bounds, Ring) {
    let tip = (200.00000000001455, 8.99999999999709);
    let ring = vec![(100., 190.), (96.9, 29.62), (91., 30.8), (-100., 190.), (-91.2, 67.24), tip];
    ([-200., -200., 200., 200.], ring)
}

/// Edges 0 and 7 cross by the rounded test alone; edges 9 and 11 cross. Not closed.
pub fn shallow_before_crossing() -> (Reason, Ring) {
    let mut ring = SHALLOW[0].ring(5);
    ring.swap(10, 11);
    (Reason { number: 8, first: 9, second: 11 }, ring)
}

/// Exteriors with such edges and the bounds that they are tried in, to be replayed without flags: of up to 32 edges, and above.
pub fn shallow_exteriors() -> Vec<(Bounds, Ring)> {
    let mut rings: Vec<Ring> =
        SHALLOW.iter().flat_map(|shallow| [0, 15].map(|vertices| shallow.ring(vertices))).collect();
    rings.extend(shallow_by_number().into_iter().map(|(ring, _)| ring));
    rings.push(shallow_before_crossing().1);
    rings.into_iter().map(|ring| (WIDE, ring)).chain([shallow_when_cut()]).collect()
}
