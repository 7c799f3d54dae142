//! The slice call: document 01's worked polygons, every reason with its positions, every refusal, and the lent slices exact, one
//! short and larger, with what a call leaves in them.

mod room;

use ringcut::{cut_polygon, Answer, Bounds, Edge, Flags, Issue, Origin, PolygonBuffers, Reason, Refusal};
use room::Room;

const BOUNDS: Bounds = Bounds { west: 0., south: 0., east: 10., north: 10. };

/// What a lent number that no call has written holds here, by its bits: a NaN, of whose bits no contract says that they stay.
const UNWRITTEN: u64 = 0xfff4_dead_beef_0001;
/// The same of a lent whole number, and of a lent origin.
const WHOLE_UNWRITTEN: u32 = 77;
const ORIGIN_UNWRITTEN: u16 = 777;

/// A cut's ring as x, y numbers, and the origin of each coordinate.
type Ring = (Vec<f64>, Vec<Origin>);

/// What is answered, and a cut's rings.
type Answered = Result<(Answer, Vec<Ring>), Refusal>;

fn flags(number: u8) -> Flags {
    Flags { assume_simple: number & 1 != 0, skip_boundary_fallback: number & 2 != 0 }
}

/// The answer and a cut's rings; what the call must clear or leave as it was is looked at.
fn cut(flags: Flags, coords: &[f64], lengths: &[u32], room: Room) -> Answered {
    cut_to(BOUNDS, 0., flags, coords, lengths, room)
}

fn cut_to(bounds: Bounds, buffer: f64, flags: Flags, coords: &[f64], lengths: &[u32], room: Room) -> Answered {
    let unwritten = f64::from_bits(UNWRITTEN);
    let (mut scratch, mut order) = (vec![unwritten; room.scratch], vec![WHOLE_UNWRITTEN; room.order]);
    let (mut out, mut out_lengths) = (vec![unwritten; room.out], vec![WHOLE_UNWRITTEN; room.out_lengths]);
    let [mut origin_scratch, mut out_origins] =
        [room.origin_scratch, room.out_origins].map(|length| vec![ORIGIN_UNWRITTEN; length]);
    let lent = PolygonBuffers {
        scratch: &mut scratch,
        origin_scratch: &mut origin_scratch,
        order: &mut order,
        out: &mut out,
        out_lengths: &mut out_lengths,
        out_origins: &mut out_origins,
    };
    let answered = cut_polygon(flags, bounds, buffer, coords, lengths, lent);

    let Ok(answer) = answered else {
        assert!(scratch.iter().chain(&out).all(|number| number.to_bits() == UNWRITTEN));
        assert!(order.iter().chain(&out_lengths).all(|&number| number == WHOLE_UNWRITTEN));
        assert!(origin_scratch.iter().chain(&out_origins).all(|&origin| origin == ORIGIN_UNWRITTEN));
        return answered.map(|answer| (answer, vec![]));
    };
    assert!(scratch.iter().all(|number| number.to_bits() == 0));
    assert!(origin_scratch.iter().all(|&origin| origin == 0));
    assert!(order.iter().all(|&position| position == 0));
    let count = if let Answer::Cut { rings } = answer { rings } else { 0 };
    let (written, beyond) = out_lengths.split_at(count);
    assert!(beyond.iter().all(|&length| length == WHOLE_UNWRITTEN));
    let asked = Room::of_polygon(&closed(coords, lengths));
    let (mut rest, beyond) = out.split_at(asked.out);
    assert!(beyond.iter().all(|number| number.to_bits() == UNWRITTEN));
    let (mut origins_rest, beyond) = out_origins.split_at(asked.out_origins);
    assert!(beyond.iter().all(|&origin| origin == ORIGIN_UNWRITTEN));
    let mut rings = Vec::new();
    for &length in written {
        let (ring, behind) = rest.split_at(2 * length as usize);
        let (origins, origins_behind) = origins_rest.split_at(length as usize);
        rings.push((ring.to_vec(), origins.iter().copied().map(Origin::from).collect()));
        (rest, origins_rest) = (behind, origins_behind);
    }
    assert!(rest.iter().all(|number| number.to_bits() == 0));
    assert!(origins_rest.iter().all(|&origin| origin == 0));
    Ok((answer, rings))
}

/// The origins that these numbers stand for.
fn origins<const N: usize>(numbers: [u16; N]) -> Vec<Origin> {
    numbers.map(Origin::from).to_vec()
}

/// The numbers of the lines, as `origins` takes them.
const RIGHT: u16 = 65_533;
const BOTTOM: u16 = 65_534;
const TOP: u16 = 65_535;

/// How many coordinates each ring has when it is closed.
fn closed(coords: &[f64], lengths: &[u32]) -> Vec<usize> {
    let mut rest = coords;
    let mut counts = Vec::new();
    for &length in lengths {
        let (ring, behind) = rest.split_at(2 * length as usize);
        // A NaN equals nothing, not even itself in a ring of one coordinate.
        let is_open = !ring.is_empty() && ring[..2] != ring[ring.len() - 2..];
        counts.push(length as usize + usize::from(is_open));
        rest = behind;
    }
    counts
}

/// One closed ring in slices that are exactly as long as it asks.
fn answer(number: u8, ring: &[f64]) -> Answer {
    let n = ring.len() / 2;
    cut(flags(number), ring, &[n as u32], Room::of_polygon(&[n])).unwrap().0
}

#[test]
fn worked_polygons() {
    let across_east = [5., 5., 15., 5., 15., 8., 5., 8., 5., 5.];
    let bow_tie = [2., 2., 8., 8., 8., 2., 2., 8., 2., 2.];
    let input = |issue| Answer::Overlay(Reason::Input(issue));
    let repeated = Issue::Repeated { corner: 0 };
    for number in 0..4 {
        assert_eq!(answer(number, &[2., 2., 8., 2., 8., 8., 2., 8., 2., 2.]), Answer::Unchanged);
        assert_eq!(answer(number, &[2., 2., 8., 2., 2., 2.]), input(Issue::Short));
        assert_eq!(answer(number, &[2., 2., 2., 2., 8., 2., 8., 8., 2., 2.]), input(repeated));
        assert_eq!(answer(number, &[2., 2., 8., 2., 8., 8., 2., 2., 2., 2.]), Answer::Unchanged);
        assert_eq!(
            answer(number, &[10., 2., 20., 2., 20., 8., 10., 8., 10., 2.]),
            Answer::Overlay(Reason::Cut(repeated))
        );
        assert_eq!(answer(number, &[2., 2., 1e150, 2., 2., 2.]), Answer::Dropped);
        assert_eq!(answer(number, &[2., 2., 9e149, 2., 2., 2.]), input(Issue::Short));
        assert_eq!(answer(number, &[20., 20., 30., 20., 30., 30., 20., 20.]), Answer::Nothing);
    }
    for at in 0..8 {
        let mut apart = [20., 20., 30., 20., 30., 30., 20., 20.];
        apart[at] = f64::NAN;
        // A NaN in the first or the last coordinate leaves the ring open: it is closed to five.
        assert_eq!(cut(flags(0), &apart, &[4], Room::of_polygon(&[5])), Ok((Answer::Dropped, vec![])));
    }
    for number in 0..3 {
        assert_eq!(answer(number, &across_east), Answer::Overlay(Reason::Bridge(Edge::Right)));
    }
    let rings = vec![(vec![5., 5., 10., 5., 10., 8., 5., 8., 5., 5.], origins([0, RIGHT, RIGHT, 3, 0]))];
    assert_eq!(cut(flags(3), &across_east, &[5], Room::of_polygon(&[5])), Ok((Answer::Cut { rings: 1 }, rings)));
    assert_eq!(answer(0, &bow_tie), input(Issue::Crossing { lower: 0, higher: 2 }));
    assert_eq!(answer(1, &bow_tie), Answer::Unchanged);
}

/// One ring, closed or not, in slices that are as long as it asks or longer.
fn reason(number: u8, ring: &[f64]) -> Reason {
    let n = ring.len() / 2;
    match cut(flags(number), ring, &[n as u32], Room::of_polygon(&[n + 1])) {
        Ok((Answer::Overlay(reason), _)) => reason,
        other => panic!("flags {number}, {ring:?}: {other:?}"),
    }
}

#[test]
fn a_repeated_corner_is_the_first_of_the_earliest_pair() {
    let repeated = |corner| Reason::Input(Issue::Repeated { corner });
    for number in 0..4 {
        assert_eq!(reason(number, &[2., 2., 8., 2., 8., 2., 8., 8., 2., 8., 2., 8., 2., 2.]), repeated(1));
        // Closed by the call: the repeat is not in the last edge, which may be as short.
        assert_eq!(reason(number, &[2., 2., 8., 2., 8., 8., 2., 8., 2., 8.]), repeated(3));
        // Two repeats of one corner.
        assert_eq!(reason(number, &[2., 2., 8., 2., 8., 8., 8., 8., 8., 8., 2., 2.]), repeated(2));
        assert_eq!(
            reason(number, &[10., 2., 20., 2., 20., 8., 10., 8., 10., 2.]),
            Reason::Cut(Issue::Repeated { corner: 0 })
        );
    }
}

#[test]
fn a_crossing_is_the_first_of_all_pairs_by_its_lower_and_then_its_higher_edge() {
    let crossing = |lower, higher| Issue::Crossing { lower, higher };
    // Edges 1 and 3 cross too.
    let two = [2., 6., 3., 7., 4., 2., 6., 7., 3., 5., 2., 8., 2., 6.];
    for number in [0, 2] {
        assert_eq!(reason(number, &two), Reason::Input(crossing(0, 4)));
        assert_eq!(reason(number, &two[..12]), Reason::Input(crossing(0, 4)));
        // Nothing crosses until the bounds cut it.
        assert_eq!(reason(number, &[5., 3., -4., 6., 9., 2., 2., 4., 5., 3.]), Reason::Cut(crossing(0, 3)));
    }
    for number in [1, 3] {
        assert_eq!(answer(number, &two), Answer::Unchanged);
    }
}

#[test]
fn short_comes_before_repeated_and_repeated_before_crossing() {
    let bow_tie_with_a_repeat = [2., 2., 8., 8., 8., 2., 2., 8., 2., 8., 2., 2.];
    for number in 0..4 {
        assert_eq!(reason(number, &[5., 5., 5., 5., 5., 5.]), Reason::Input(Issue::Short));
        assert_eq!(reason(number, &bow_tie_with_a_repeat), Reason::Input(Issue::Repeated { corner: 3 }));
        // A triangle that touches the north bound: its cut is the corner there, three times.
        assert_eq!(reason(number, &[4., 15., 6., 15., 5., 10., 4., 15.]), Reason::Cut(Issue::Short));
    }
}

/// A zigzag over the west bound, whose cut has three corners for each tooth, and behind it a spike, whose cut goes to the bound and back.
#[test]
fn a_position_can_take_more_than_16_bits() {
    let teeth = 30_000;
    let mut ring = Vec::new();
    for tooth in 0..teeth {
        let y = 1. + 8. * tooth as f64 / teeth as f64;
        ring.extend([5., y, -5., y + 4. / teeth as f64]);
    }
    ring.extend([5., 9.5, -5., 9.5, 5., 9.5, 8., 9.5, 8., 1.]);
    for number in [1, 3] {
        assert_eq!(reason(number, &ring), Reason::Cut(Issue::Repeated { corner: 3 * teeth + 1 }));
    }
}

#[test]
fn a_bridge_names_its_edge() {
    for (edge, ring) in [
        (Edge::Left, [-5., 5., 5., 5., 5., 8., -5., 8., -5., 5.]),
        (Edge::Right, [5., 5., 15., 5., 15., 8., 5., 8., 5., 5.]),
        (Edge::Bottom, [5., -5., 8., -5., 8., 5., 5., 5., 5., -5.]),
        (Edge::Top, [5., 5., 8., 5., 8., 15., 5., 15., 5., 5.]),
    ] {
        assert_eq!(answer(0, &ring), Answer::Overlay(Reason::Bridge(edge)));
    }
}

#[test]
fn each_bound_is_its_own_and_the_buffer_widens_all() {
    let bounds = Bounds { west: 1., south: 2., east: 30., north: 40. };
    let around = [-50., -50., 50., -50., 50., 50., -50., 50., -50., -50.];
    let ring = vec![0.5, 40.5, 0.5, 1.5, 30.5, 1.5, 30.5, 40.5, 0.5, 40.5];
    let rings = vec![(ring, origins([TOP, BOTTOM, BOTTOM, TOP, TOP]))];
    let cut = cut_to(bounds, 0.5, flags(3), &around, &[5], Room::of_polygon(&[5]));
    assert_eq!(cut, Ok((Answer::Cut { rings: 1 }, rings)));
}

/// The square across the east bound with a hole across it and one inside, and between them one outside, which is left out. Each has
/// positions of its own.
#[test]
fn holes_are_cut_too() {
    let coords = [
        5., 5., 15., 5., 15., 8., 5., 8., 5., 5., // exterior
        12., 6., 12., 7., 9., 7., 9., 6., 12., 6., // across
        11., 6., 12., 6., 12., 7., 11., 6., // outside
        6., 6., 7., 6., 7., 7., 6., 6., // inside
    ];
    let rings = vec![
        (vec![5., 5., 10., 5., 10., 8., 5., 8., 5., 5.], origins([0, RIGHT, RIGHT, 3, 0])),
        (vec![10., 6., 10., 7., 9., 7., 9., 6., 10., 6.], origins([RIGHT, RIGHT, 2, 3, RIGHT])),
        (vec![6., 6., 7., 6., 7., 7., 6., 6.], origins([0, 1, 2, 0])),
    ];
    let (lengths, room) = ([5, 5, 4, 4], Room::of_polygon(&[5, 5, 4, 4]));
    assert_eq!(cut(flags(3), &coords, &lengths, room), Ok((Answer::Cut { rings: 3 }, rings)));
}

#[test]
fn slices_are_exact_one_short_and_larger() {
    let coords = [5., 5., 15., 5., 15., 8., 5., 8., 9., 6., 12., 6., 12., 7., 9., 6.];
    // The exterior is lent unclosed and counts one more.
    let (lengths, exact) = ([4, 4], Room::of_polygon(&[5, 4]));
    let expected = cut(flags(3), &coords, &lengths, exact);
    assert!(matches!(expected, Ok((Answer::Cut { rings: 2 }, _))));
    let with = |change: &dyn Fn(&mut Room)| {
        let mut room = exact;
        change(&mut room);
        cut(flags(3), &coords, &lengths, room)
    };
    assert_eq!(with(&|room| room.scratch -= 1), Err(Refusal::Scratch));
    assert_eq!(with(&|room| room.origin_scratch -= 1), Err(Refusal::Scratch));
    assert_eq!(with(&|room| room.order -= 1), Err(Refusal::Scratch));
    assert_eq!(with(&|room| room.out -= 1), Err(Refusal::Output));
    assert_eq!(with(&|room| room.out_lengths -= 1), Err(Refusal::Output));
    assert_eq!(with(&|room| room.out_origins -= 1), Err(Refusal::Output));
    let larger = |room: &mut Room| {
        for length in [&mut room.scratch, &mut room.origin_scratch, &mut room.order] {
            *length += 3;
        }
        for length in [&mut room.out, &mut room.out_lengths, &mut room.out_origins] {
            *length += 3;
        }
    };
    assert_eq!(with(&larger), expected);
}

#[test]
fn lengths_that_do_not_fit_are_refused() {
    let room = Room::of_polygon(&[5; 65]);
    let refused = |coords: &[f64], lengths: &[u32]| cut(flags(0), coords, lengths, room).unwrap_err();
    assert_eq!(refused(&[], &[]), Refusal::Lengths);
    assert_eq!(refused(&[], &[0; 65]), Refusal::Lengths);
    assert_eq!(refused(&[1.], &[0]), Refusal::Lengths);
    assert_eq!(refused(&[1., 1.], &[2]), Refusal::Lengths);
    assert_eq!(refused(&[1., 1.], &[u32::MAX, 2]), Refusal::Lengths);
    assert_eq!(refused(&vec![1.; 2 * 65_533], &[65_533]), Refusal::Coordinates);
    assert_eq!(cut(flags(0), &[], &[0; 64], room), Ok((Answer::Nothing, vec![])));
}

/// All rings count, and the coordinates that close them.
#[test]
fn the_most_coordinates() {
    let one = |first: f64, n: usize| [vec![first], vec![1.; 2 * n - 1]].concat();
    let answered = |coords: &[f64], lengths: &[u32]| {
        let room = Room::of_polygon(&lengths.iter().map(|&length| length as usize + 1).collect::<Vec<_>>());
        cut(flags(0), coords, lengths, room).map(|(answer, _)| answer)
    };
    let repeated = |corner| Ok(Answer::Overlay(Reason::Input(Issue::Repeated { corner })));
    assert_eq!(answered(&one(1., 65_532), &[65_532]), repeated(0));
    assert_eq!(answered(&one(2., 65_531), &[65_531]), repeated(1));
    assert_eq!(answered(&one(2., 65_532), &[65_532]), Err(Refusal::Coordinates));
    assert_eq!(answered(&one(1., 65_532), &[65_528, 4]), repeated(0));
    assert_eq!(answered(&one(1., 65_533), &[65_529, 4]), Err(Refusal::Coordinates));
}
