//! Where the coordinates of a cut came from: worked rings, what holds of every origin on rings of many shapes, and the rule by which a
//! caller leaves the tile's edge out where it draws borders.

use ringcut::{cut_ring, is_along_tile, room_for_ring, Bounds, Edge, Origin, RingBuffers, Vertex};

const BOUNDS: Bounds = Bounds { west: 0., south: 0., east: 10., north: 10. };

const LEFT: Origin = Origin::Line(Edge::Left);
const RIGHT: Origin = Origin::Line(Edge::Right);
const BOTTOM: Origin = Origin::Line(Edge::Bottom);
const TOP: Origin = Origin::Line(Edge::Top);

fn cut(ring: &[f64]) -> Vec<Vertex> {
    let room = room_for_ring(ring.len() / 2);
    let (mut scratch, mut origin_scratch) = (vec![0.; 2 * room], vec![0; room]);
    let (mut out, mut out_origins) = (vec![0.; 2 * room], vec![0; room]);
    let lent = RingBuffers {
        scratch: &mut scratch,
        origin_scratch: &mut origin_scratch,
        out: &mut out,
        out_origins: &mut out_origins,
    };
    let coordinates = cut_ring(ring, BOUNDS, lent).unwrap();
    let vertex = |(pair, &origin): (&[f64], &u16)| Vertex { x: pair[0], y: pair[1], origin: origin.into() };
    out.chunks(2).zip(&out_origins).take(coordinates).map(vertex).collect()
}

fn origins(ring: &[f64]) -> Vec<Origin> {
    cut(ring).iter().map(|vertex| vertex.origin).collect()
}

/// The edges that have a length and by the rule are borders of what was lent, by the numbers of their first coordinates.
fn borders(ring: &[f64]) -> Vec<usize> {
    let cut = cut(ring);
    let is_border = |[a, b]: [Vertex; 2]| (a.x, a.y) != (b.x, b.y) && !is_along_tile(BOUNDS, a, b);
    (1..cut.len()).map(|to| to - 1).filter(|&from| is_border([cut[from], cut[from + 1]])).collect()
}

/// Numbers that look random, from 0 up to 1.
struct Numbers(u64);

impl Numbers {
    fn next(&mut self) -> f64 {
        self.0 ^= self.0 << 13;
        self.0 ^= self.0 >> 7;
        self.0 ^= self.0 << 17;
        (self.0 >> 11) as f64 / (1_u64 << 53) as f64
    }

    fn below(&mut self, limit: usize) -> usize {
        (self.next() * limit as f64) as usize
    }

    /// A ring of 3 to 14 coordinates, with numbers by `number`.
    fn ring(&mut self, number: fn(&mut Numbers) -> f64) -> Vec<f64> {
        let n = 3 + self.below(12);
        (0..2 * n).map(|_| number(self)).collect()
    }
}

/// Anywhere in the tile and around it, and on no bound.
fn anywhere(numbers: &mut Numbers) -> f64 {
    26. * numbers.next() - 8.
}

/// One of a few numbers, so that many vertices lie on a bound and many are equal.
fn on_a_grid(numbers: &mut Numbers) -> f64 {
    [-5., -0., 0., 3., 5., 10., 10., 15.][numbers.below(8)]
}

#[test]
fn worked_rings() {
    let position = Origin::Position;
    // On a line is inside: corners 0 and 3 are kept, and the crossings beside them are the line's.
    let beside = [10., 2., 20., 2., 20., 8., 10., 8.];
    assert_eq!(origins(&beside), [position(0), RIGHT, RIGHT, position(3), position(0)]);
    // The tile's corner is made by the later of its two lines.
    let over_a_corner = [-5., -5., 5., -5., 5., 5., -5., 5.];
    assert_eq!(origins(&over_a_corner), [BOTTOM, BOTTOM, position(2), LEFT, BOTTOM]);
    // A pass leaves off the last vertex where it equals the first, though that is another's.
    let last_on_the_line = [15., 5., 5., 5., 5., 8., 10., 5.];
    assert_eq!(origins(&last_on_the_line), [RIGHT, RIGHT, position(1), position(2), RIGHT]);
    // A zero equals one of the other sign, so corner 3 is left off as the closing one.
    let closed_by_minus_zero = [0., 0., 5., 0., 5., 5., -0., 0.];
    assert_eq!(origins(&closed_by_minus_zero), [position(0), position(1), position(2), position(0)]);
    // Inside as it is, closed and open.
    let square = [2., 2., 8., 2., 8., 8., 2., 8., 2., 2.];
    for ring in [&square[..], &square[..8]] {
        assert_eq!(origins(ring), [0, 1, 2, 3, 0].map(position));
    }
    // Around the tile.
    let around = [-50., -50., 50., -50., 50., 50., -50., 50.];
    assert_eq!(origins(&around), [TOP, BOTTOM, BOTTOM, TOP, TOP]);
}

/// Where an origin is a position, the coordinate is the one that was lent there, bit for bit; where it is a line, the line's bound
/// stands there; and positions rise up to the closing one.
#[test]
fn every_origin_tells_the_truth() {
    let mut numbers = Numbers(0x9e37_79b9_7f4a_7c15);
    for number in [anywhere as fn(&mut Numbers) -> f64, on_a_grid] {
        for _ in 0..5_000 {
            let mut ring = numbers.ring(number);
            for _ in 0..numbers.below(3) {
                ring.extend_from_within(..2);
            }
            let cut = cut(&ring);
            let mut least = 0;
            for (at, &Vertex { x, y, origin }) in cut.iter().enumerate() {
                match origin {
                    Origin::Position(position) => {
                        let lent = &ring[2 * usize::from(position)..];
                        assert_eq!([x, y].map(f64::to_bits), [lent[0], lent[1]].map(f64::to_bits), "{ring:?}");
                        if at + 1 < cut.len() {
                            assert!(position >= least, "{ring:?}");
                            least = position + 1;
                        }
                    }
                    Origin::Line(Edge::Left) => assert_eq!(x, BOUNDS.west, "{ring:?}"),
                    Origin::Line(Edge::Right) => assert_eq!(x, BOUNDS.east, "{ring:?}"),
                    Origin::Line(Edge::Bottom) => assert_eq!(y, BOUNDS.south, "{ring:?}"),
                    Origin::Line(Edge::Top) => assert_eq!(y, BOUNDS.north, "{ring:?}"),
                }
            }
        }
    }
}

/// No edge of these rings runs along a bound, so that an edge of a cut which does runs along the tile's edge, and no other.
#[test]
fn the_rule_finds_the_tiles_edge() {
    let is_on_a_bound = |a: Vertex, b: Vertex| {
        let both_x = [BOUNDS.west, BOUNDS.east].iter().any(|&bound| a.x == bound && b.x == bound);
        both_x || [BOUNDS.south, BOUNDS.north].iter().any(|&bound| a.y == bound && b.y == bound)
    };
    let mut numbers = Numbers(0x2545_f491_4f6c_dd1d);
    let (mut along, mut others) = (0, 0);
    for _ in 0..10_000 {
        let ring = numbers.ring(anywhere);
        for edge in cut(&ring).windows(2).filter(|edge| (edge[0].x, edge[0].y) != (edge[1].x, edge[1].y)) {
            assert_eq!(is_along_tile(BOUNDS, edge[0], edge[1]), is_on_a_bound(edge[0], edge[1]), "{ring:?}");
            *if is_along_tile(BOUNDS, edge[0], edge[1]) { &mut along } else { &mut others } += 1;
        }
    }
    assert!(along > 10_000 && others > 10_000, "{along} along the tile, {others} others");
}

/// Edges that were lent on a bound.
#[test]
fn a_border_on_a_bound_stays_a_border() {
    // The west side of a square that lies beyond the tile.
    assert_eq!(borders(&[10., 2., 20., 2., 20., 8., 10., 8.]), [3]);
    // The sides of a square that is the tile.
    assert_eq!(borders(&[0., 0., 10., 0., 10., 10., 0., 10.]), [0, 1, 2, 3]);
    // From the east beyond the tile along its south or north side to the west beyond it, and on.
    for y in [0., 10.] {
        assert_eq!(borders(&[-5., y, 15., y, 15., 5., -5., 5.]).len(), 2, "at {y}");
    }
    // The first corner lies outside and the last on the bound, which so is left off for the crossing beside it.
    assert_eq!(borders(&[5., -5., 5., -2., -5., -2., -5., 0., 5., 0.]).len(), 1);
}

/// As README.md has it.
#[test]
fn where_the_rule_errs() {
    // A side along the east bound, beyond the tile at both ends, gives the same cut as one that lies further out.
    let along_east = [5., -5., 10., -5., 10., 15., 5., 15.];
    let further_out = [5., -5., 20., -5., 20., 15., 5., 15.];
    let [one, other] = [&along_east, &further_out].map(|ring| cut(ring));
    assert!(one.iter().map(|v| (v.x, v.y, v.origin)).eq(other.iter().map(|v| (v.x, v.y, v.origin))));
    assert_eq!(borders(&along_east).len(), 1);
    // The closing corner, lent twice, lies on the west bound, where the cut ends.
    let closed = [0., 5., 5., 5., 5., 8., -5., 8., -5., 5., 0., 5.];
    let closed_twice = [&closed[..], &closed[..2]].concat();
    assert_eq!([borders(&closed).len(), borders(&closed_twice).len()], [3, 4]);
}
