//! Rings that docs/DIFFERENCES.md names: the smallest of each kind on which the port and the source still differ, and some on which
//! they do not any more, or never did.

use port::probe;

use crate::exact;
use crate::pair::{Coord, Pair};
use crate::wrapper;

/// A ring of four coordinates and what is to be said of it. Its edges 0 and 2 cross in floats, and no two others.
struct Noted {
    name: &'static str,
    ring: [Coord; 4],
    shares_point: bool,
    port_crosses: bool,
    source_crosses: bool,
}

const RINGS: [Noted; 9] = [
    Noted {
        name: "finer than the grid",
        ring: [(0.1, 0.3), (0.6, 0.8), (0.4, 0.6), (0.3, 0.5)],
        shares_point: false,
        port_crosses: true,
        source_crosses: false,
    },
    Noted {
        name: "above 256",
        ring: [(257.4, 9.0), (0.0, 0.0), (57.2, 2.0), (85.8, 3.0)],
        shares_point: false,
        port_crosses: true,
        source_crosses: false,
    },
    Noted {
        name: "products that underflow",
        ring: [(-0.4, 0.0), (0.4, 0.0), (-0.1, -5e-324), (0.1, 5e-324)],
        shares_point: true,
        port_crosses: true,
        source_crosses: false,
    },
    Noted {
        name: "products that overflow",
        ring: [(-1e155, 0.0), (1e155, 0.0), (0.0, 1e155), (0.0, -1e155)],
        shares_point: true,
        port_crosses: true,
        source_crosses: false,
    },
    Noted {
        name: "degrees",
        ring: [
            (-31.568978182155334, -73.81603924119962),
            (52.72819713971501, 55.28700857600569),
            (34.43620047468073, 27.27239822754495),
            (30.842900723745238, 21.76917765348354),
        ],
        shares_point: false,
        port_crosses: false,
        source_crosses: false,
    },
    Noted {
        name: "no point",
        ring: [(47.9, 73.0), (22.7, 60.4), (73.1, 85.6), (-81.7, 8.2)],
        shares_point: false,
        port_crosses: false,
        source_crosses: false,
    },
    Noted {
        name: "a touch",
        ring: [(112.3, 14.8), (12.7, 48.0), (61.6, 31.7), (21.1, 45.2)],
        shares_point: true,
        port_crosses: true,
        source_crosses: true,
    },
    Noted {
        name: "an overlap",
        ring: [(-25.1, 62.2), (-254.9, -91.0), (48.4, 111.2), (-113.9, 3.0)],
        shares_point: true,
        port_crosses: true,
        source_crosses: true,
    },
    Noted {
        name: "an end on the line",
        ring: [(18.6, 79.2), (-37.2, 42.0), (88.8, 126.0), (-9.0, 60.8)],
        shares_point: false,
        port_crosses: false,
        source_crosses: false,
    },
];

/// Stops at the first ring of which something else is true.
pub fn check() -> usize {
    for Noted { name, ring, shares_point, port_crosses, source_crosses } in &RINGS {
        let [a, b, c, d] = *ring;
        let closed = [a, b, c, d, a];
        let crossing = |crosses: bool| crosses.then_some((0, 2));
        assert_eq!(least(&closed, Pair::crosses_in_floats), crossing(true), "{name}: in floats");
        assert_eq!(exact::share_point(&Pair::new([a, b], [c, d])), *shares_point, "{name}: exactly");
        assert_eq!(first_of_port(&closed), crossing(*port_crosses), "{name}: the port");
        assert_eq!(least(&closed, source_crosses_pair), crossing(*source_crosses), "{name}: the source");
    }
    RINGS.len()
}

/// The first two edges of a closed ring that cross, as the port finds them.
fn first_of_port(closed: &[Coord]) -> Option<(usize, usize)> {
    let numbers: Vec<f64> = closed.iter().flat_map(|&(x, y)| [x, y]).collect();
    let found = probe::scan_pairs(&numbers);
    (found != 0).then_some(((found >> 8 & 0xff_ffff) as usize, (found >> 32) as usize))
}

fn source_crosses_pair(pair: &Pair) -> bool {
    pair.crosses_in_floats() && wrapper::finds_point(pair)
}

/// The first two edges of a closed ring that cross by this test, the lower number first.
fn least(closed: &[Coord], crosses: impl Fn(&Pair) -> bool) -> Option<(usize, usize)> {
    let edges: Vec<_> = closed.windows(2).map(|ends| [ends[0], ends[1]]).collect();
    let pairs = (0..edges.len()).flat_map(|lower| (lower + 1..edges.len()).map(move |higher| (lower, higher)));
    pairs.into_iter().find(|&(lower, higher)| crosses(&Pair::new(edges[lower], edges[higher])))
}
