//! What a call leaves in all that it was lent, number by number and origin by origin. An answer, whatever it is, has zeros behind it
//! up to the room that the call asks of the two outputs, and beyond that room stands what was there; a refusal leaves everything as it
//! was.

mod room;

use ringcut::{
    cut_polygon, cut_ring, room_for_ring, Answer, Bounds, Edge, Flags, Issue, PolygonBuffers, Reason, Refusal,
    RingBuffers,
};
use room::Room;

const BOUNDS: Bounds = Bounds { west: 0., south: 0., east: 10., north: 10. };

/// By how much slices are longer than a call asks: not at all, by one, by many.
const LONGER: [usize; 3] = [0, 1, 1_000];

/// The numbers of the lines, as they stand in a slice for origins.
const LEFT: u16 = 65_532;
const RIGHT: u16 = 65_533;
const BOTTOM: u16 = 65_534;
const TOP: u16 = 65_535;

/// What a ring call asks for a ring of `n` coordinates.
fn room_of_ring(n: usize) -> Room {
    room_of(room_for_ring(n), 0)
}

/// What a call asks that has a single ring with this room, in coordinates: a ring call, or a slice call with one place for lengths.
fn room_of(coordinates: usize, out_lengths: usize) -> Room {
    Room {
        scratch: 2 * coordinates,
        origin_scratch: coordinates,
        order: coordinates * out_lengths,
        out: 2 * coordinates,
        out_lengths,
        out_origins: coordinates,
    }
}

/// The slices that are lent.
struct Lent {
    scratch: Vec<f64>,
    origin_scratch: Vec<u16>,
    order: Vec<u32>,
    out: Vec<f64>,
    out_lengths: Vec<u32>,
    out_origins: Vec<u16>,
}

impl Lent {
    /// Slices that no call has written. Each place has another NaN or number than its neighbours, so that one that was moved is
    /// seen too; of the bits of a NaN no contract says that they stay. No origin is 0.
    fn unwritten(room: Room) -> Lent {
        let numbers = |length| (0xfff4_dead_beef_0001..).map(f64::from_bits).take(length).collect();
        let whole_numbers = |length| (0xdead_0001..).take(length).collect();
        let origins = |length| (1..u16::MAX).cycle().take(length).collect();
        Lent {
            scratch: numbers(room.scratch),
            origin_scratch: origins(room.origin_scratch),
            order: whole_numbers(room.order),
            out: numbers(room.out),
            out_lengths: whole_numbers(room.out_lengths),
            out_origins: origins(room.out_origins),
        }
    }

    /// What is to stand in these slices after an answer that has these numbers, lengths and origins, by a call that asks for this
    /// much.
    fn answered(mut self, numbers: &[f64], lengths: &[u32], origins: &[u16], asked: Room) -> Lent {
        self.scratch.fill(0.);
        self.origin_scratch.fill(0);
        self.order.fill(0);
        self.out[..asked.out].fill(0.);
        self.out[..numbers.len()].copy_from_slice(numbers);
        self.out_lengths[..lengths.len()].copy_from_slice(lengths);
        self.out_origins[..asked.out_origins].fill(0);
        self.out_origins[..origins.len()].copy_from_slice(origins);
        self
    }

    fn cut_ring(&mut self, ring: &[f64]) -> Result<usize, Refusal> {
        let Lent { scratch, origin_scratch, out, out_origins, .. } = self;
        cut_ring(ring, BOUNDS, RingBuffers { scratch, origin_scratch, out, out_origins })
    }

    fn cut_polygon(&mut self, flags: u8, coords: &[f64], lengths: &[u32]) -> Result<Answer, Refusal> {
        let flags = Flags { assume_simple: flags & 1 != 0, skip_boundary_fallback: flags & 2 != 0 };
        let Lent { scratch, origin_scratch, order, out, out_lengths, out_origins } = self;
        let lent = PolygonBuffers { scratch, origin_scratch, order, out, out_lengths, out_origins };
        cut_polygon(flags, BOUNDS, 0., coords, lengths, lent)
    }

    /// Compares numbers by their bits, so +0.0 is another number than -0.0.
    fn assert_is(&self, expected: &Lent, call: &str) {
        let numbers = |numbers: &[f64]| numbers.iter().map(|number| number.to_bits()).collect::<Vec<_>>();
        let whole_numbers = |numbers: &[u32]| numbers.iter().map(|&number| number.into()).collect::<Vec<_>>();
        let origins = |origins: &[u16]| origins.iter().map(|&origin| origin.into()).collect::<Vec<_>>();
        for (slice, left, expected) in [
            ("scratch", numbers(&self.scratch), numbers(&expected.scratch)),
            ("origin_scratch", origins(&self.origin_scratch), origins(&expected.origin_scratch)),
            ("order", whole_numbers(&self.order), whole_numbers(&expected.order)),
            ("out", numbers(&self.out), numbers(&expected.out)),
            ("out_lengths", whole_numbers(&self.out_lengths), whole_numbers(&expected.out_lengths)),
            ("out_origins", origins(&self.out_origins), origins(&expected.out_origins)),
        ] {
            let wrong = left.iter().zip(&expected).position(|(left, expected)| left != expected);
            assert_eq!(wrong, None, "{call}: the first wrong place of {slice}");
        }
    }
}

/// What it is, a ring as x, y numbers, what it is cut to, and the origins.
type RingCase<'a> = (&'a str, &'a [f64], &'a [f64], &'a [u16]);

#[test]
fn a_ring_call_leaves_zeros_behind_its_ring() {
    let square: &[f64] = &[2., 2., 8., 2., 8., 8., 2., 8., 2., 2.];
    let cases: [RingCase; 12] = [
        ("no numbers", &[], &[], &[]),
        ("apart", &[20., 20., 30., 20., 30., 30.], &[], &[]),
        // The ring passes by a corner of the bounds: the last pass is the first that leaves nothing.
        ("cut to none by the last pass", &[8., 14., 14., 8., 14., 14.], &[], &[]),
        ("one vertex, given up at the end", &[5., 5.], &[], &[]),
        ("two vertices, given up at the end", &[5., 5., 6., 6.], &[], &[]),
        ("two passes leave off a vertex, given up at the end", &[1., 1., 2., 2., 1., 1., 1., 1.], &[], &[]),
        ("a spike", &[5., 9., 5., 15.], &[5., 10., 5., 9., 5., 10.], &[TOP, 0, TOP]),
        ("stays", square, square, &[0, 1, 2, 3, 0]),
        ("stays, and is closed", &square[..8], square, &[0, 1, 2, 3, 0]),
        (
            "across",
            &[5., 5., 15., 5., 15., 8., 5., 8.],
            &[5., 5., 10., 5., 10., 8., 5., 8., 5., 5.],
            &[0, RIGHT, RIGHT, 3, 0],
        ),
        (
            "over a corner",
            &[-5., -5., 5., -5., 5., 5., -5., 5.],
            &[0., 0., 5., 0., 5., 5., 0., 5., 0., 0.],
            &[BOTTOM, BOTTOM, 2, LEFT, BOTTOM],
        ),
        (
            "around",
            &[-50., -50., 50., -50., 50., 50., -50., 50.],
            &[0., 10., 0., 0., 10., 0., 10., 10., 0., 10.],
            &[TOP, BOTTOM, BOTTOM, TOP, TOP],
        ),
    ];
    for (case, ring, cut, origins) in cases {
        let asked = room_of_ring(ring.len() / 2);
        for longer in LONGER {
            let room = Room {
                scratch: asked.scratch + longer,
                origin_scratch: asked.origin_scratch + longer,
                out: asked.out + longer,
                out_origins: asked.out_origins + longer,
                ..asked
            };
            let mut lent = Lent::unwritten(room);
            let call = format!("{case}, {longer} longer");
            assert_eq!(lent.cut_ring(ring), Ok(cut.len() / 2), "{call}");
            lent.assert_is(&Lent::unwritten(room).answered(cut, &[], origins, asked), &call);
        }
    }
}

/// A polygon's rings, exterior first, each as x, y numbers.
type Rings<'a> = &'a [&'a [f64]];

/// The rings' numbers, ring behind ring, and their lengths.
fn joined(rings: Rings) -> (Vec<f64>, Vec<u32>) {
    (rings.concat(), rings.iter().map(|ring| ring.len() as u32 / 2).collect())
}

/// Makes the slice call on these rings, whose lengths are `closed` with their closing coordinates. The answer has the rings of `cut`,
/// and their origins, ring behind ring.
fn assert_left(case: &str, flags: u8, rings: Rings, closed: &[usize], answer: Answer, cut: Rings, origins: &[u16]) {
    let ((coords, lengths), (out, out_lengths)) = (joined(rings), joined(cut));
    assert_eq!(out.len(), 2 * origins.len(), "{case}");
    let asked = Room::of_polygon(closed);
    for longer in LONGER {
        let room = Room {
            scratch: asked.scratch + longer,
            origin_scratch: asked.origin_scratch + longer,
            order: asked.order + longer,
            out: asked.out + longer,
            out_lengths: asked.out_lengths + longer,
            out_origins: asked.out_origins + longer,
        };
        let mut lent = Lent::unwritten(room);
        let call = format!("{case}, {longer} longer");
        assert_eq!(lent.cut_polygon(flags, &coords, &lengths), Ok(answer), "{call}");
        lent.assert_is(&Lent::unwritten(room).answered(&out, &out_lengths, origins, asked), &call);
    }
}

#[test]
fn an_answer_without_rings_leaves_zeros_from_the_front() {
    let square: &[f64] = &[2., 2., 8., 2., 8., 8., 2., 8., 2., 2.];
    let bow_tie: &[f64] = &[2., 2., 8., 8., 8., 2., 2., 8., 2., 2.];
    let crossing = Answer::Overlay(Reason::Input(Issue::Crossing { lower: 0, higher: 2 }));
    let repeated_in_cut = Answer::Overlay(Reason::Cut(Issue::Repeated { corner: 0 }));
    let along = |edge| Answer::Overlay(Reason::Bridge(edge));
    let cases: [(&str, u8, Rings, &[usize], Answer); 18] = [
        ("no coordinate", 0, &[&[], &[]], &[0, 0], Answer::Nothing),
        ("apart", 0, &[&[20., 20., 30., 20., 30., 30., 20., 20.]], &[4], Answer::Nothing),
        // These too pass by a corner of the bounds.
        ("cut to none", 0, &[&[8., 14., 14., 8., 14., 14., 8., 14.]], &[4], Answer::Nothing),
        ("open and cut to none", 0, &[&[8., 14., 14., 8., 14., 14.]], &[4], Answer::Nothing),
        ("not finite", 0, &[&[20., 20., 30., f64::INFINITY, 30., 30., 20., 20.]], &[4], Answer::Dropped),
        ("a hole not finite", 0, &[square, &[5., f64::NAN]], &[5, 2], Answer::Dropped),
        ("an issue, and too large", 0, &[&[2., 2., 1e150, 2.]], &[3], Answer::Dropped),
        ("cut along a bound, and too large", 0, &[&[5., 5., 1e150, 5., 1e150, 8., 5., 8.]], &[5], Answer::Dropped),
        ("inside", 0, &[square], &[5], Answer::Unchanged),
        ("open and inside", 0, &[&square[..8]], &[5], Answer::Unchanged),
        ("inside with a hole", 0, &[square, &[3., 3., 4., 3., 4., 4.]], &[5, 4], Answer::Unchanged),
        ("an issue", 0, &[bow_tie], &[5], crossing),
        ("open, an issue", 0, &[&bow_tie[..8]], &[5], crossing),
        ("an issue of the cut", 3, &[&[10., 2., 20., 2., 20., 8., 10., 8., 10., 2.]], &[5], repeated_in_cut),
        ("cut along Left", 0, &[&[-5., 5., 5., 5., 5., 8., -5., 8.]], &[5], along(Edge::Left)),
        ("cut along Right", 0, &[&[5., 5., 15., 5., 15., 8., 5., 8., 5., 5.]], &[5], along(Edge::Right)),
        ("cut along Bottom", 1, &[&[5., -5., 8., -5., 8., 5., 5., 5.]], &[5], along(Edge::Bottom)),
        (
            "cut along Top",
            2,
            &[&[5., 5., 8., 5., 8., 15., 5., 15.], &[6., 6., 7., 6., 7., 7.]],
            &[5, 4],
            along(Edge::Top),
        ),
    ];
    for (case, flags, rings, closed, answer) in cases {
        assert_left(case, flags, rings, closed, answer, &[], &[]);
    }
}

/// What it is, the flags, a polygon's rings, their lengths with their closing coordinates, what it is cut to, and the origins.
type CutCase<'a> = (&'a str, u8, Rings<'a>, &'a [usize], Rings<'a>, &'a [u16]);

#[test]
fn a_cut_leaves_zeros_behind_its_rings() {
    let across: &[f64] = &[5., 5., 15., 5., 15., 8., 5., 8., 5., 5.];
    let across_cut: &[f64] = &[5., 5., 10., 5., 10., 8., 5., 8., 5., 5.];
    // A spike's cut is (5,10)(5,9)(5,10): too short for a hole, which shows when all passes have written it.
    let spike: &[f64] = &[5., 9., 5., 15., 5., 9.];
    let across_origins = [0, RIGHT, RIGHT, 3, 0];
    let cases: [CutCase; 5] = [
        ("one ring", 3, &[across], &[5], &[across_cut], &across_origins),
        ("one ring, open", 3, &[&across[..8]], &[5], &[across_cut], &across_origins),
        (
            "a hole across",
            0,
            &[&[2., 2., 8., 2., 8., 8., 2., 8.], &[6., 6., 12., 6., 12., 7., 6., 7., 6., 6.]],
            &[5, 5],
            &[&[2., 2., 8., 2., 8., 8., 2., 8., 2., 2.], &[6., 6., 10., 6., 10., 7., 6., 7., 6., 6.]],
            &[0, 1, 2, 3, 0, 0, RIGHT, RIGHT, 3, 0],
        ),
        ("the only hole left out", 3, &[across, spike], &[5, 3], &[across_cut], &across_origins),
        (
            "holes left out before, between and behind others",
            3,
            &[
                &[2., 2., 15., 2., 15., 12., 2., 12.],
                &[11., 3., 13., 3., 13., 5., 11., 3.],
                &[9., 3., 12., 3., 12., 5., 9., 5., 9., 3.],
                spike,
                &[3., 3., 4., 3., 4., 4.],
                &[3., 11., 4., 11., 4., 12., 3., 11.],
            ],
            &[5, 4, 5, 3, 4, 4],
            &[
                &[2., 10., 2., 2., 10., 2., 10., 10., 2., 10.],
                &[9., 3., 10., 3., 10., 5., 9., 5., 9., 3.],
                &[3., 3., 4., 3., 4., 4., 3., 3.],
            ],
            &[TOP, 0, RIGHT, TOP, TOP, 0, RIGHT, RIGHT, 3, 0, 0, 1, 2, 0],
        ),
    ];
    for (case, flags, rings, closed, cut, origins) in cases {
        assert_left(case, flags, rings, closed, Answer::Cut { rings: cut.len() }, cut, origins);
    }
}

/// A ring call takes a ring's length as it is lent, a slice call as it is closed. How many numbers and origins of scratch and output
/// each asks for stands here as it follows from document 01: B(1) is 3, B(2) 11, B(4) 21 and B(5) 24.
#[test]
fn the_zeros_end_where_the_room_does() {
    let cases: [(&[f64], usize, usize, Answer); 4] = [
        (&[5., 5.], 3, 3, Answer::Overlay(Reason::Input(Issue::Short))),
        // A NaN equals nothing, not even itself: closed, a ring of this one coordinate has two.
        (&[f64::NAN, 5.], 3, 11, Answer::Dropped),
        (&[20., 2., 28., 2., 28., 8., 20., 8.], 21, 24, Answer::Nothing),
        // A zero equals one of the other sign: this ring is closed as it is lent.
        (&[20., 0., 28., 2., 28., 8., 20., -0.], 21, 21, Answer::Nothing),
    ];
    for (ring, of_ring, of_polygon, answer) in cases {
        let asked = room_of(of_ring, 0);
        let room = with_one_more(asked);
        let mut lent = Lent::unwritten(room);
        assert_eq!(lent.cut_ring(ring), Ok(0));
        lent.assert_is(&Lent::unwritten(room).answered(&[], &[], &[], asked), &format!("a ring call on {ring:?}"));
        for short in with_one_less(asked) {
            assert_eq!(Lent::unwritten(short).cut_ring(ring), Err(Refusal::Output));
        }

        let lengths = [ring.len() as u32 / 2];
        let asked = room_of(of_polygon, 1);
        let room = with_one_more(asked);
        let mut lent = Lent::unwritten(room);
        assert_eq!(lent.cut_polygon(0, ring, &lengths), Ok(answer));
        lent.assert_is(&Lent::unwritten(room).answered(&[], &[], &[], asked), &format!("a slice call on {ring:?}"));
        for short in with_one_less(asked) {
            assert_eq!(Lent::unwritten(short).cut_polygon(0, ring, &lengths), Err(Refusal::Output));
        }
    }
}

/// Either output longer by one.
fn with_one_more(room: Room) -> Room {
    Room { out: room.out + 1, out_origins: room.out_origins + 1, ..room }
}

/// One of the outputs shorter by one.
fn with_one_less(room: Room) -> [Room; 2] {
    [Room { out: room.out - 1, ..room }, Room { out_origins: room.out_origins - 1, ..room }]
}

#[test]
fn a_refused_ring_call_leaves_everything_as_it_was() {
    let across = [5., 5., 15., 5., 15., 8., 5., 8.];
    let too_many = vec![5.; 2 * 65_533];
    let exact = room_of_ring(4);
    let (scratch, origin_scratch) = (exact.scratch - 1, exact.origin_scratch - 1);
    let (out, out_origins) = (exact.out - 1, exact.out_origins - 1);
    assert_eq!(Lent::unwritten(exact).cut_ring(&across), Ok(5));
    let cases: [(&[f64], Room, Refusal); 13] = [
        (&across[1..], exact, Refusal::Lengths),
        (&across[1..], Room { origin_scratch: 0, out_origins: 0, ..exact }, Refusal::Lengths),
        (&too_many, room_of_ring(65_533), Refusal::Coordinates),
        (&across, Room { scratch, ..exact }, Refusal::Scratch),
        (&across, Room { scratch: 0, ..exact }, Refusal::Scratch),
        (&across, Room { scratch, out, ..exact }, Refusal::Scratch),
        (&across, Room { origin_scratch, ..exact }, Refusal::Scratch),
        (&across, Room { origin_scratch: 0, ..exact }, Refusal::Scratch),
        (&across, Room { origin_scratch, out, out_origins, ..exact }, Refusal::Scratch),
        (&across, Room { out, ..exact }, Refusal::Output),
        (&across, Room { out: 0, ..exact }, Refusal::Output),
        (&across, Room { out_origins, ..exact }, Refusal::Output),
        (&across, Room { out_origins: 0, ..exact }, Refusal::Output),
    ];
    for (ring, room, refusal) in cases {
        let mut lent = Lent::unwritten(room);
        assert_eq!(lent.cut_ring(ring), Err(refusal));
        lent.assert_is(&Lent::unwritten(room), &refusal.to_string());
    }
}

#[test]
fn a_refused_slice_call_leaves_everything_as_it_was() {
    let across = [5., 5., 15., 5., 15., 8., 5., 8., 9., 6., 12., 6., 12., 7., 9., 6.];
    let too_many = vec![5.; 2 * 65_533];
    let exact = Room::of_polygon(&[5, 4]);
    let Room { scratch, origin_scratch, order, out, out_lengths, out_origins } = exact;
    assert_eq!(Lent::unwritten(exact).cut_polygon(3, &across, &[4, 4]), Ok(Answer::Cut { rings: 2 }));
    let cases: [(&[f64], &[u32], Room, Refusal); 13] = [
        (&[], &[], exact, Refusal::Lengths),
        (&across, &[4, 5], exact, Refusal::Lengths),
        (&across[1..], &[4, 4], exact, Refusal::Lengths),
        (&too_many, &[65_533], Room::of_polygon(&[65_533]), Refusal::Coordinates),
        (&across, &[4, 4], Room { scratch: scratch - 1, ..exact }, Refusal::Scratch),
        (&across, &[4, 4], Room { origin_scratch: origin_scratch - 1, ..exact }, Refusal::Scratch),
        (&across, &[4, 4], Room { origin_scratch: 0, out_origins: 0, ..exact }, Refusal::Scratch),
        (&across, &[4, 4], Room { order: order - 1, ..exact }, Refusal::Scratch),
        (&across, &[4, 4], Room { order: order - 1, out: out - 1, ..exact }, Refusal::Scratch),
        (&across, &[4, 4], Room { out: out - 1, ..exact }, Refusal::Output),
        (&across, &[4, 4], Room { out_lengths: out_lengths - 1, ..exact }, Refusal::Output),
        (&across, &[4, 4], Room { out_origins: out_origins - 1, ..exact }, Refusal::Output),
        (&across, &[4, 4], Room { out_origins: 0, ..exact }, Refusal::Output),
    ];
    for (coords, lengths, room, refusal) in cases {
        for flags in 0..4 {
            let mut lent = Lent::unwritten(room);
            assert_eq!(lent.cut_polygon(flags, coords, lengths), Err(refusal));
            lent.assert_is(&Lent::unwritten(room), &refusal.to_string());
        }
    }
}
