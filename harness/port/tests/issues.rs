//! The issue finder, scan and sweep of the port against the Rust, the share that every test run takes.

use compare::shallow::{shallow_before_crossing, shallow_by_number, SHALLOW};
use port::probe::NOT_LOOKED_FOR;
use port::{issues, probe};

#[test]
fn issues_agree() {
    issues::compare(1, 8_000).assert_agreed(11 * 8_000);
}

/// A regular polygon of so many edges, closed; simple, so that every pair is looked at.
fn regular(edges: usize) -> Vec<(f64, f64)> {
    let vertex = |k: usize| {
        let angle = std::f64::consts::TAU * (k % edges) as f64 / edges as f64;
        (angle.cos(), angle.sin())
    };
    (0..=edges).map(vertex).collect()
}

#[test]
fn every_length_about_the_scan_limit_agrees() {
    for edges in 3..70 {
        let mut ring = regular(edges);
        assert_eq!(issues::check(&ring), Ok("sound"), "{edges} edges");
        if edges >= 5 {
            ring.swap(1, 2);
            assert_eq!(issues::check(&ring), Ok("crossing"), "{edges} edges, two vertices swapped");
        }
    }
}

/// One pair of neighbours swapped, from the first vertex to the last, and then many behind it: whatever the sweep
/// meets first, the pair with the lowest numbers is told.
#[test]
fn crossings_at_any_place_of_a_long_ring_agree() {
    for edges in [33, 64, 317, 1_024, 3_000] {
        for swapped in [1, edges / 4, edges / 2, 3 * edges / 4, edges - 2] {
            let mut ring = regular(edges);
            ring.swap(swapped, swapped + 1);
            assert_eq!(issues::check(&ring), Ok("crossing"), "{edges} edges, {swapped} swapped");
            for further in (swapped + 2..edges - 1).step_by(2).take(edges / 4) {
                ring.swap(further, further + 1);
            }
            assert_eq!(issues::check(&ring), Ok("crossing"), "{edges} edges, many swapped from {swapped} on");
        }
    }
}

/// Lower edges about the four whose further pairs are left to a scan, about the scan limit, and high.
const LOWER: [usize; 9] = [0, 1, 3, 4, 5, 31, 32, 33, 1_000];

/// A long edge of this number, no edge before it crossing any; as many edges as are asked for stay on its one side, and then 300
/// cross it, at places that are `stride` apart. Of these the first has to be told, wherever from west to east it is.
fn with_edge_crossed(lower: usize, aside: usize, stride: usize) -> Vec<(f64, f64)> {
    let before = (1..=lower).rev().map(|k| (-(k as f64), (k * k) as f64));
    let long = [(0., 0.), (302., 0.)];
    let beside = (0..aside).map(|k| (301., 2. + k as f64));
    let across = (0..300).map(|k| (1. + (k * stride % 300) as f64, if k % 2 == 0 { -1. } else { 1. }));
    let mut ring: Vec<_> = before.chain(long).chain(beside).chain(across).collect();
    ring.push(ring[0]);
    ring
}

#[test]
fn of_many_edges_that_cross_one_the_lowest_is_told() {
    for lower in LOWER {
        for aside in [1, 2, 40] {
            for stride in [1, 7, 137, 299] {
                let ring = with_edge_crossed(lower, aside, stride);
                let case = format!("edge {lower}, {aside} aside, {stride} apart");
                assert_eq!(oracle::first_crossing(&ring), Some((lower, lower + aside + 1)), "{case}");
                assert_eq!(issues::check(&ring), Ok("crossing"), "{case}");
            }
        }
    }
}

#[test]
fn one_crossing_is_told_whatever_its_lower_edge() {
    for lower in LOWER {
        let mut ring = regular(1_024);
        ring.swap(lower + 1, lower + 2);
        assert_eq!(oracle::first_crossing(&ring), Some((lower, lower + 2)));
        assert_eq!(issues::check(&ring), Ok("crossing"), "edge {lower}");
    }
}

/// Of document 02's point 5. Finder, scan and sweep ask for a shared point, whatever the length.
#[test]
fn shallow_pairs_cross_only_where_they_share_a_point() {
    for shallow in SHALLOW {
        for vertices in [0, 1, 5, 14, 15, 30, 500] {
            let ring = shallow.ring(vertices);
            let pair = shallow.share_a_point.then_some((0, 2 + vertices));
            let case = format!("{}, {vertices} vertices", shallow.name);
            assert_eq!(oracle::first_crossing(&[&ring[..], &ring[..1]].concat()), pair, "{case}");
            let label = if shallow.share_a_point { "crossing" } else { "sound" };
            assert_eq!(issues::check(&ring), Ok(label), "{case}");
        }
    }
    for (ring, on_grid) in shallow_by_number() {
        assert_eq!(issues::check(&ring), Ok(if on_grid { "sound" } else { "crossing" }), "{ring:?}");
    }
    let (reason, ring) = shallow_before_crossing();
    let pair = Some((reason.first as usize, reason.second as usize));
    assert_eq!(oracle::first_crossing(&[&ring[..], &ring[..1]].concat()), pair);
    assert_eq!(issues::check(&ring), Ok("crossing"));
}

#[test]
fn work_slices_one_short_are_not_used() {
    let numbers: Vec<f64> = regular(40).iter().flat_map(|&(x, y)| [x, y]).collect();
    assert_eq!(probe::find_issue(&numbers, false, &mut [0.0; 81], &mut [0; 41]), NOT_LOOKED_FOR);
    assert_eq!(probe::find_issue(&numbers, false, &mut [0.0; 82], &mut [0; 40]), NOT_LOOKED_FOR);
    assert_eq!(probe::find_issue(&numbers, false, &mut [0.0; 82], &mut [0; 41]), 0);
}
