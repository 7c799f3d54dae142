//! The tests of origins on coordinates alone can fail: each thing that does not hold is seen.

use compare::origins::{broken, broken_rings};
use formats::origins::CutRing;
use formats::{Bounds, Ring};

const BOUNDS: Bounds = [0.0, 0.0, 10.0, 10.0];
const RIGHT: u16 = 65_533;

/// A square across the east bound, and its cut.
fn square() -> (Ring, CutRing) {
    let ring = vec![(5., 5.), (15., 5.), (15., 8.), (5., 8.)];
    let cut = vec![(5., 5.), (10., 5.), (10., 8.), (5., 8.), (5., 5.)];
    (ring, CutRing { ring: cut, origins: vec![0, RIGHT, RIGHT, 3, 0] })
}

fn broken_by(change: fn(&mut CutRing)) -> Option<&'static str> {
    let (ring, mut cut) = square();
    change(&mut cut);
    broken(&BOUNDS, &ring, &cut)
}

#[test]
fn broken_origins_are_seen() {
    assert_eq!(broken_by(|_| {}), None);
    assert_eq!(broken_by(|cut| cut.origins.truncate(4)), Some("not as many origins as vertices"));
    assert_eq!(broken_by(|cut| cut.origins[0] = 1), Some("another vertex stands at a position"));
    assert_eq!(broken_by(|cut| cut.origins[4] = 4), Some("another vertex stands at a position"));
    assert_eq!(broken_by(|cut| cut.ring[0].0 = 5_f64.next_up()), Some("another vertex stands at a position"));
    assert_eq!(broken_by(|cut| cut.origins[1] = 65_532), Some("a vertex of a line is not on it"));
    assert_eq!(broken_by(|cut| cut.origins[3] = RIGHT), Some("a vertex of a line is not on it"));
    assert_eq!(broken_by(|cut| cut.ring[1].0 = 10_f64.next_down()), Some("a vertex of a line is not on it"));
    let twice = |cut: &mut CutRing| {
        cut.ring.push(cut.ring[0]);
        cut.origins.push(0);
    };
    assert_eq!(broken_by(twice), Some("positions don't rise"));
    let reversed = |cut: &mut CutRing| {
        cut.ring.rotate_left(3);
        cut.origins.rotate_left(3);
    };
    assert_eq!(broken_by(reversed), Some("positions don't rise"));
    let without_last = |cut: &mut CutRing| {
        cut.ring.drain(..1);
        cut.origins.drain(..1);
    };
    assert_eq!(broken_by(without_last), Some("positions don't rise"));
    let without_both = |cut: &mut CutRing| {
        let right = cut.vertices().filter(|(_, origin)| *origin == RIGHT).collect();
        *cut = right;
    };
    assert_eq!(broken_by(without_both), Some("a vertex inside is missing"));
}

/// The zeros of a bound and of a position have their own signs.
#[test]
fn zeros_have_signs() {
    let ring = vec![(-5., 5.), (5., 5.), (5., 8.)];
    let cut = |zero: f64| CutRing {
        ring: vec![(zero, 5.), (5., 5.), (5., 8.), (zero, 6.5), (zero, 5.)],
        origins: vec![65_532, 1, 2, 65_532, 65_532],
    };
    assert_eq!(broken(&BOUNDS, &ring, &cut(0.0)), None);
    assert_eq!(broken(&BOUNDS, &ring, &cut(-0.0)), Some("a vertex of a line is not on it"));
    assert_eq!(broken(&[-0.0, 0.0, 10.0, 10.0], &ring, &cut(-0.0)), None);
}

/// Of a polygon's ring whose first coordinate holds a NaN two vertices close it.
#[test]
fn a_ring_that_begins_with_a_nan_closes_twice() {
    let nan = (f64::NAN, 0.);
    let ring = vec![(8., 8.), (1e308, 1e308), (-1.7e308, -1.7e308), (8., 8.)];
    let cut = CutRing {
        ring: vec![nan, (0., 0.), (8., 8.), (10., 10.), nan, nan, nan],
        origins: vec![65_534, 65_532, 0, RIGHT, 65_534, 65_534, 65_534],
    };
    assert_eq!(broken_rings(&BOUNDS, &vec![ring], &[cut]), None);
}

#[test]
fn holes_are_held_to_holes_in_their_order() {
    let (square, cut) = square();
    let inner: Ring = vec![(6., 6.), (12., 6.), (12., 7.), (6., 7.)];
    let cut_inner = CutRing {
        ring: vec![(6., 6.), (10., 6.), (10., 7.), (6., 7.), (6., 6.)],
        origins: vec![0, RIGHT, RIGHT, 3, 0],
    };
    let outside: Ring = vec![(20., 6.), (22., 6.), (22., 7.)];
    let part = vec![square.clone(), outside, inner, square.clone()];
    let broken = |rings: &[CutRing]| broken_rings(&BOUNDS, &part, rings);
    assert_eq!(broken(&[]), None);
    assert_eq!(broken(&[cut.clone(), cut_inner.clone(), cut.clone()]), None);
    assert_eq!(broken(&[cut.clone(), cut.clone()]), None);
    let of_none = Some("a cut hole is of no hole that was lent");
    assert_eq!(broken(&[cut.clone(), cut.clone(), cut_inner.clone()]), of_none);
    assert_eq!(broken(&[cut.clone(), cut_inner.clone(), cut_inner.clone()]), of_none);
    assert_eq!(broken(&[cut_inner]), Some("another vertex stands at a position"));
}
