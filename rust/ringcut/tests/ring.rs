//! The ring call: document 01's worked ring, every refusal, and the lent slices exact, one short and larger, with what a
//! call leaves in them.

use ringcut::{cut_ring, room_for_ring, Bounds, Edge, Origin, Refusal, RingBuffers};

const BOUNDS: Bounds = Bounds { west: 0., south: 0., east: 10., north: 10. };
const ACROSS_EAST: &[f64] = &[5., 5., 15., 5., 15., 8., 5., 8.];

/// What a lent number that no call has written holds here, by its bits: a NaN, of whose bits no contract says that they stay.
const UNWRITTEN: u64 = 0xfff4_dead_beef_0001;
/// The same of a lent origin.
const UNWRITTEN_ORIGIN: u16 = 777;

/// How long the lent slices are: numbers and origins of scratch, numbers and origins of output.
type Room = [usize; 4];

/// What is asked for a ring of `n` coordinates.
fn exact(n: usize) -> Room {
    let room = room_for_ring(n);
    [2 * room, room, 2 * room, room]
}

/// A cut ring as x, y numbers, and the origin of each coordinate.
type Cut = (Vec<f64>, Vec<Origin>);

/// The cut ring, in slices of these lengths; what the call must clear or leave as it was is looked at.
fn cut(ring: &[f64], room: Room) -> Result<Cut, Refusal> {
    cut_to(BOUNDS, ring, room)
}

fn cut_to(bounds: Bounds, ring: &[f64], [scratch, origin_scratch, out, out_origins]: Room) -> Result<Cut, Refusal> {
    let [mut scratch, mut out] = [scratch, out].map(|length| vec![f64::from_bits(UNWRITTEN); length]);
    let [mut origin_scratch, mut out_origins] =
        [origin_scratch, out_origins].map(|length| vec![UNWRITTEN_ORIGIN; length]);
    let lent = RingBuffers {
        scratch: &mut scratch,
        origin_scratch: &mut origin_scratch,
        out: &mut out,
        out_origins: &mut out_origins,
    };
    let coordinates = match cut_ring(ring, bounds, lent) {
        Ok(coordinates) => coordinates,
        Err(refusal) => {
            assert!(scratch.iter().chain(&out).all(|number| number.to_bits() == UNWRITTEN));
            assert!(origin_scratch.iter().chain(&out_origins).all(|&origin| origin == UNWRITTEN_ORIGIN));
            return Err(refusal);
        }
    };
    assert!(scratch.iter().all(|number| number.to_bits() == 0));
    assert!(origin_scratch.iter().all(|&origin| origin == 0));
    let asked = room_for_ring(ring.len() / 2);
    let (beyond, origins_beyond) = (out.split_off(2 * asked), out_origins.split_off(asked));
    assert!(beyond.iter().all(|number| number.to_bits() == UNWRITTEN));
    assert!(origins_beyond.iter().all(|&origin| origin == UNWRITTEN_ORIGIN));
    let (past, origins_past) = (out.split_off(2 * coordinates), out_origins.split_off(coordinates));
    assert!(past.iter().all(|number| number.to_bits() == 0));
    assert!(origins_past.iter().all(|&origin| origin == 0));
    Ok((out, out_origins.into_iter().map(Origin::from).collect()))
}

#[test]
fn worked_rings() {
    let exact_for_4 = exact(4);
    let right = Origin::Line(Edge::Right);
    let origins = vec![Origin::Position(0), right, right, Origin::Position(3), Origin::Position(0)];
    assert_eq!(cut(&[1., 1., 2., 2., 1., 1., 1., 1.], exact_for_4), Ok((vec![], vec![])));
    assert_eq!(cut(ACROSS_EAST, exact_for_4), Ok((vec![5., 5., 10., 5., 10., 8., 5., 8., 5., 5.], origins)));
    assert_eq!(cut(&[], exact(0)), Ok((vec![], vec![])));
}

#[test]
fn each_bound_is_its_own() {
    let bounds = Bounds { west: 1., south: 2., east: 30., north: 40. };
    let around = [-50., -50., 50., -50., 50., 50., -50., 50.];
    let (ring, origins) = cut_to(bounds, &around, exact(4)).unwrap();
    assert_eq!(ring, [1., 40., 1., 2., 30., 2., 30., 40., 1., 40.]);
    assert_eq!(origins, [Edge::Top, Edge::Bottom, Edge::Bottom, Edge::Top, Edge::Top].map(Origin::Line));
}

#[test]
fn slices_are_exact_one_short_and_larger() {
    let expected = cut(ACROSS_EAST, exact(4));
    assert!(expected.is_ok());
    for (slice, refusal) in
        [Refusal::Scratch, Refusal::Scratch, Refusal::Output, Refusal::Output].into_iter().enumerate()
    {
        let mut one_short = exact(4);
        one_short[slice] -= 1;
        assert_eq!(cut(ACROSS_EAST, one_short), Err(refusal));
        let mut one_larger = exact(4);
        one_larger[slice] += 1;
        assert_eq!(cut(ACROSS_EAST, one_larger), expected);
    }
    assert_eq!(cut(ACROSS_EAST, exact(4).map(|length| length + 3)), expected);
}

/// Its last position is the highest that there is.
#[test]
fn the_longest_ring() {
    let most = 65_532;
    let room = exact(most);
    assert_eq!(room[3], 331_757);
    let mut ring = vec![5.; 2 * most + 2];
    ring[3] = 6.;
    let (longest, origins) = cut(&ring[2..], room).unwrap();
    assert_eq!(longest.len(), 2 * most + 2);
    assert_eq!(origins[most - 1..], [65_531, 0].map(Origin::Position));
    assert_eq!(cut(&ring, room), Err(Refusal::Coordinates));
    assert_eq!(cut(&ring[1..], room), Err(Refusal::Lengths));
}
