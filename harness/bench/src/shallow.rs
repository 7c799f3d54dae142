//! The issue check on rings with shallow pairs, beside the Rust: edges that cross in floats and share no point, so that the exact test is
//! asked about each of them and the check goes on. In a table of its own, with what the same ring takes without such a pair.

use geo::Coord;

use crate::crossings::crossings;
use crate::issues::Sides;
use crate::table::whole;
use crate::timing::medians;

/// A tooth of a comb: an edge down, a way back up and an edge down to the other end. The first and the third cross in floats, and the third
/// lies strictly on one side of the first. It was looked for; it is so wherever the tooth stands, since moving it by a multiple of the
/// pitch rounds nothing, and upside down. All its numbers are on the grid.
const TOOTH: [(f64, f64); 4] = [
    (0.0, 31.15228462946059),
    (0.012736436584049216, -7.209249820836991),
    (0.008655181610691898, 5.083293876744072),
    (0.01859744958301235, -31.755965996654396),
];

/// From a tooth to the next one, which is wider than a tooth.
const PITCH: f64 = 1.0 / 32.0;

/// Where the comb begins, in the west of the grid, and how deep below the teeth its back lies.
const WEST: f64 = -256.0;
const BACK: f64 = -40.0;

/// The third vertex of a tooth that is not shallow is moved so far: to the one side its edges are apart, to the other they cross.
const ASIDE: f64 = 1.0 / (1 << 20) as f64;

/// Taken times this, which rounds nothing, a tooth is off the grid, and edges cross where they do in floats.
const OFF_GRID: f64 = 1.0 / (1 << 16) as f64;

/// Whether the first and the third edge of a tooth are apart, cross in floats alone, or cross.
enum Tooth {
    Apart,
    Shallow,
    Crossing,
}

/// Which of the teeth are shallow: each so many-th, or none; and whether the one in the middle crosses itself.
struct Case {
    name: &'static str,
    every: Option<usize>,
    has_crossing: bool,
}

const CASES: [Case; 6] = [
    Case { name: "none", every: None, has_crossing: false },
    Case { name: "every 16th tooth", every: Some(16), has_crossing: false },
    Case { name: "every 4th tooth", every: Some(4), has_crossing: false },
    Case { name: "every 2nd tooth", every: Some(2), has_crossing: false },
    Case { name: "each tooth", every: Some(1), has_crossing: false },
    Case { name: "each tooth, and one crosses", every: Some(1), has_crossing: true },
];

/// Whether the edges are numbered from the west, where a sweep begins, or from the east.
const ORDERS: [(&str, bool); 2] = [("west", true), ("east", false)];

pub fn measure() {
    println!("| size | numbered from the | shallow | pairs | Rust | port | ratio | port, over none shallow |");
    println!("|---|---|---|---|---|---|---|---|");
    for edges in [1_024, 65_536] {
        for (order, is_from_west) in ORDERS {
            print_rows(edges, order, is_from_west);
        }
    }
}

fn print_rows(edges: usize, order: &str, is_from_west: bool) {
    let combs = CASES.each_ref().map(|case| comb(edges, is_from_west, case));
    let [mut rust, mut port] = [(); 2].map(|()| combs.each_ref().map(|ring| Sides::new(ring)));
    for (case, sides) in CASES.iter().zip(&mut port) {
        assert_eq!(sides.found() != 0, case.has_crossing, "{edges} edges from the {order}, {}", case.name);
    }
    let mut of_rust = rust.each_mut().map(|sides| || sides.rust());
    let mut of_port = port.each_mut().map(|sides| || sides.port());
    let rust_tasks = of_rust.iter_mut().map(|check| check as &mut dyn FnMut());
    let port_tasks = of_port.iter_mut().map(|check| check as &mut dyn FnMut());
    let times = medians(&mut rust_tasks.chain(port_tasks).collect::<Vec<_>>());
    let (rust, port) = times.split_at(CASES.len());
    for (k, case) in CASES.iter().enumerate() {
        let pairs = shallow_pairs(&combs[k], usize::from(case.has_crossing));
        let [size, pairs, of_rust, of_port] = [edges as f64, pairs as f64, rust[k], port[k]].map(whole);
        let (ratio, over_none) = (port[k] / rust[k], port[k] / port[0]);
        println!(
            "| {size} edges | {order} | {} | {pairs} | {of_rust} | {of_port} | {ratio:.2} | {over_none:.2} |",
            case.name
        );
    }
}

fn tooth_at(case: &Case, k: usize, teeth: usize) -> Tooth {
    match case.every {
        _ if case.has_crossing && k == teeth / 2 => Tooth::Crossing,
        Some(every) if k.is_multiple_of(every) => Tooth::Shallow,
        _ => Tooth::Apart,
    }
}

/// Teeth side by side, every second one upside down, so that each begins where the one before ends, and the way back below them.
fn comb(edges: usize, is_from_west: bool, case: &Case) -> Vec<Coord<f64>> {
    let teeth = edges / 4 - 1;
    let east = WEST + PITCH * teeth as f64;
    let back = [(east, BACK), (east / 2.0 + WEST / 2.0, BACK - 1.0), (WEST + PITCH, BACK - 1.0), (WEST, BACK)];
    let placed = |k: usize| {
        let aside = match tooth_at(case, k, teeth) {
            Tooth::Apart => -ASIDE,
            Tooth::Shallow => 0.0,
            Tooth::Crossing => ASIDE,
        };
        let mut tooth = TOOTH;
        tooth[2].0 += aside;
        tooth.map(|(x, y)| (WEST + PITCH * k as f64 + x, if k.is_multiple_of(2) { y } else { -y }))
    };
    let turned = |(x, y): (f64, f64)| Coord { x: if is_from_west { x } else { -x }, y };
    (0..teeth).flat_map(placed).chain(back).map(turned).collect()
}

/// The pairs of edges that cross in floats and not exactly, where so many cross exactly.
fn shallow_pairs(ring: &[Coord<f64>], exactly: usize) -> usize {
    assert_eq!(crossings(ring), exactly);
    let shrunk: Vec<_> = ring.iter().map(|c| Coord { x: OFF_GRID * c.x, y: OFF_GRID * c.y }).collect();
    crossings(&shrunk) - exactly
}
