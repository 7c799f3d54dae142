//! The test of demand 3 can fail: each broken promise is seen, and the overrun is measured exactly.

use port::promise::broken;

const BOUNDS: [f64; 4] = [0.0, 0.0, 10.0, 10.0];
const RING: [f64; 6] = [1.0, 1.0, 2.0, 1.0, 2.0, 2.0];
const OVERRUN: f64 = 1.0 / (1u64 << 42) as f64;

#[test]
fn broken_promises_are_seen() {
    let cut = [1.0, 1.0, 2.0, 1.0, 2.0, 2.0, 1.0, 1.0];
    assert_eq!(broken(&BOUNDS, &RING, &cut), None);
    assert_eq!(broken(&BOUNDS, &RING, &[]), None);
    assert_eq!(broken(&BOUNDS, &RING, &cut[..4]), Some("one or two vertices"));
    assert_eq!(broken(&BOUNDS, &RING, &[1.0; 40]), Some("too many vertices"));
    for latitude in [-1.0, f64::NAN, 10.1, f64::INFINITY] {
        let cut = [1.0, latitude, 2.0, 1.0, 2.0, 2.0];
        assert_eq!(broken(&BOUNDS, &RING, &cut), Some("a latitude not from south to north"), "{latitude}");
    }
    for longitude in [f64::NAN, f64::INFINITY, -1.0, 11.0] {
        let cut = [longitude, 1.0, 2.0, 1.0, 2.0, 2.0];
        assert_eq!(broken(&BOUNDS, &RING, &cut), Some("a longitude too far out"), "{longitude}");
    }
}

#[test]
fn the_overrun_is_measured_exactly() {
    let at_most =
        |east: f64, longitude: f64| broken(&[0.0, 0.0, east, 10.0], &RING, &[longitude, 1.0, 0.5, 1.0, 0.5, 2.0]);
    assert_eq!(at_most(1.0, 1.0 + OVERRUN), None);
    assert_eq!(at_most(1.0, f64::from_bits((1.0 + OVERRUN).to_bits() + 1)), Some("a longitude too far out"));
    // The difference rounds to the overrun, and is longer.
    assert_eq!(at_most(1.0 - f64::EPSILON / 2.0, 1.0 + OVERRUN), Some("a longitude too far out"));
}
