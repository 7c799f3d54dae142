//! The mending call: worked rings, every refusal in its order, outputs exact, one short and larger, with what a call leaves in them; what
//! holds of mended rings of many shapes; and that the slice call finds no repeated corner in them.

mod hexadecimal;

use hexadecimal::{bytes_of, lines_of};
use ringcut::{cut_polygon, mend, raw, room_for_ring, Answer, Bounds, Flags, Issue, PolygonBuffers, Reason, Refusal};

const BOUNDS: Bounds = Bounds { west: 0., south: 0., east: 10., north: 10. };

/// By how much an output is longer than the call asks: not at all, by one, by many.
const LONGER: [usize; 3] = [0, 1, 1_000];

/// The largest number below 1e-10.
const BELOW: f64 = 9.999999999999999e-11;

/// An output that no call has written. Each place has another NaN than its neighbours, so that one that was moved is seen too; of the
/// bits of a NaN no contract says that they stay.
fn unwritten(length: usize) -> Vec<f64> {
    (0xfff4_dead_beef_0001..).map(f64::from_bits).take(length).collect()
}

/// Numbers are compared by their bits, so +0.0 is another number than -0.0.
fn bits(numbers: &[f64]) -> Vec<u64> {
    numbers.iter().map(|number| number.to_bits()).collect()
}

/// The same, but which bits a NaN has is left open, as it is of what a call writes.
fn values(numbers: &[f64]) -> Vec<u64> {
    numbers.iter().map(|number| if number.is_nan() { f64::NAN } else { *number }.to_bits()).collect()
}

/// The mended ring, in an output of this length. What the call must leave as it was is looked at, and so is the code that crosses.
fn mended(ring: &[f64], length: usize) -> Result<Vec<f64>, Refusal> {
    let (mut out, mut out_of_raw) = (unwritten(length), unwritten(length));
    let answered = mend(ring, &mut out);
    let code = answered.map_or_else(|refusal| -i64::from(refusal.number()), |kept| kept as i64);
    assert_eq!(raw::mend(ring, &mut out_of_raw), code);
    assert_eq!(bits(&out), bits(&out_of_raw));
    let kept = 2 * answered.unwrap_or(0);
    assert_eq!(bits(&out[kept..]), bits(&unwritten(length)[kept..]));
    out.truncate(kept);
    answered.map(|_| out)
}

/// In an output that is always enough.
fn mended_alone(ring: &[f64]) -> Result<Vec<f64>, Refusal> {
    mended(ring, ring.len() + 2)
}

type Coord = [f64; 2];

/// The ring's coordinates, with the first appended unless the last equals it. A NaN equals nothing, not even itself.
fn closed(ring: &[f64]) -> Vec<Coord> {
    let mut coords: Vec<Coord> = ring.chunks(2).map(|pair| [pair[0], pair[1]]).collect();
    if coords.first() != coords.last() {
        coords.push(coords[0]);
    }
    coords
}

fn is_near([x, y]: Coord, [other_x, other_y]: Coord) -> bool {
    (x - other_x).abs() < 1e-10 && (y - other_y).abs() < 1e-10
}

/// Which coordinates of a closed ring that is not empty are kept, as the papers have it.
fn kept(closed: &[Coord]) -> Vec<usize> {
    let closing = closed.len() - 1;
    let mut kept: Vec<usize> = Vec::new();
    for at in 0..closing {
        if !kept.last().is_some_and(|&last| is_near(closed[last], closed[at])) {
            kept.push(at);
        }
    }
    kept.push(closing);
    kept
}

#[test]
fn worked_rings() {
    let square: &[f64] = &[2., 2., 8., 2., 8., 8., 2., 8., 2., 2.];
    let cases: [(&str, &[f64], &[f64]); 16] = [
        ("nothing is repeated", square, square),
        ("open", &square[..8], square),
        ("a corner twice", &[2., 2., 8., 2., 8., 2., 8., 8., 2., 8., 2., 2.], square),
        ("a corner three times", &[2., 2., 8., 2., 8., 8., 8., 8., 8., 8., 2., 8., 2., 2.], square),
        (
            "the first twice, and the last before the closing one",
            &[2., 2., 2., 2., 8., 2., 8., 8., 2., 8., 2., 8., 2., 2.],
            square,
        ),
        ("open, the last twice", &[2., 2., 8., 2., 8., 8., 2., 8., 2., 8.], square),
        // The ring that stands in the output goes by the first of each pair.
        ("not quite the same", &[0., 2., BELOW, 2., 8., 2., 8., 8., 0., 2.], &[0., 2., 8., 2., 8., 8., 0., 2.]),
        ("1e-10 apart", &[0., 2., 1e-10, 2., 8., 2., 8., 8., 0., 2.], &[0., 2., 1e-10, 2., 8., 2., 8., 8., 0., 2.]),
        ("near in x alone", &[2., 2., 2., 3., 8., 3., 2., 2.], &[2., 2., 2., 3., 8., 3., 2., 2.]),
        ("near in y alone", &[2., 2., 3., 2., 8., 3., 2., 2.], &[2., 2., 3., 2., 8., 3., 2., 2.]),
        // The third is near the second, which is dropped, and not near the first. So it stays.
        (
            "compared with the last one kept",
            &[0., 0., 6e-11, 0., 1.2e-10, 0., 5., 0., 5., 5.],
            &[0., 0., 1.2e-10, 0., 5., 0., 5., 5., 0., 0.],
        ),
        ("the closing one stays", &[2., 2., 8., 2., 8., 8., 2., 2., 2., 2.], &[2., 2., 8., 2., 8., 8., 2., 2., 2., 2.]),
        (
            "closed three times",
            &[2., 2., 8., 2., 8., 8., 2., 2., 2., 2., 2., 2.],
            &[2., 2., 8., 2., 8., 8., 2., 2., 2., 2.],
        ),
        // A zero equals one of the other sign, so nothing is appended.
        ("closed by a minus zero", &[0., 0., 5., 0., 5., 5., -0., 0.], &[0., 0., 5., 0., 5., 5., -0., 0.]),
        ("a plus zero is dropped", &[-0., 0., 0., 0., 5., 0., 5., 5.], &[-0., 0., 5., 0., 5., 5., -0., 0.]),
        // Their difference is a NaN.
        (
            "infinities are near nothing",
            &[f64::INFINITY, 1., f64::INFINITY, 1., 2., 2.],
            &[f64::INFINITY, 1., f64::INFINITY, 1., 2., 2., f64::INFINITY, 1.],
        ),
    ];
    for (case, ring, expected) in cases {
        let mended = mended_alone(ring).unwrap();
        assert_eq!(values(&mended), values(expected), "{case}");
        // Mending it again drops none.
        assert_eq!(mended_alone(&mended), Ok(mended), "{case}");
    }
}

/// A ring that begins with a NaN is closed at each call, and so grows.
#[test]
fn a_nan_is_near_nothing_and_equals_nothing() {
    let ring = [f64::NAN, 5., f64::NAN, 5., f64::NAN, 5.];
    let mended = mended_alone(&ring).unwrap();
    assert_eq!(values(&mended), values(&[&ring[..], &ring[..2]].concat()));
    assert_eq!(values(&mended_alone(&mended).unwrap()), values(&[&mended[..], &ring[..2]].concat()));
    assert_eq!(mended_alone(&ring[..2]), Err(Refusal::Short));
}

#[test]
fn refusals_come_in_their_order() {
    let square = [2., 2., 8., 2., 8., 8., 2., 8.];
    let too_many = vec![5.; 2 * 65_533 + 1];
    // A ring, how long the output is, and the first refusal that holds.
    let cases: [(&[f64], usize, Refusal); 15] = [
        (&square[1..], 10, Refusal::Lengths),
        (&[5.], 0, Refusal::Lengths),
        (&too_many, 0, Refusal::Lengths),
        (&too_many[1..], 0, Refusal::Coordinates),
        (&too_many[1..], 2 * 65_533, Refusal::Coordinates),
        (&square, 9, Refusal::Output),
        (&square, 0, Refusal::Output),
        // By the closed ring, and not by the coordinates that are kept.
        (&[2., 2., 8., 2., 8., 2., 8., 8., 2., 8., 2., 2.], 11, Refusal::Output),
        (&[5., 5.], 1, Refusal::Output),
        (&[f64::NAN, 5.], 3, Refusal::Output),
        (&[5., 5., 5., 5., 5., 5.], 5, Refusal::Output),
        (&[], 0, Refusal::Short),
        (&[5., 5.], 2, Refusal::Short),
        (&[2., 2., 8., 2.], 6, Refusal::Short),
        (&[2., 2., 8., 2., 8., 2., 2., 2.], 8, Refusal::Short),
    ];
    for (ring, length, refusal) in cases {
        assert_eq!(mended(ring, length), Err(refusal), "{} numbers, {length} of output", ring.len());
    }
}

#[test]
fn the_output_is_exact_one_short_or_longer() {
    let square = [2., 2., 8., 2., 8., 8., 2., 8., 2., 2.];
    let repeated = [2., 2., 8., 2., 8., 2., 8., 8., 2., 8., 2., 8., 2., 2.];
    for (ring, asked) in [(&square[..], 10), (&square[..8], 10), (&repeated, 14), (&repeated[..12], 14)] {
        assert_eq!(mended(ring, asked - 1), Err(Refusal::Output));
        for longer in LONGER {
            assert_eq!(mended(ring, asked + longer).unwrap(), square);
        }
    }
}

/// The coordinates that close rings count.
#[test]
fn the_longest_ring() {
    let most = 65_532;
    let mut ring: Vec<f64> = (0..2 * most).map(|number| f64::from(number as u32)).collect();
    assert_eq!(mended_alone(&ring), Err(Refusal::Coordinates));
    let longest = mended_alone(&ring[2..]).unwrap();
    assert_eq!(longest, [&ring[2..], &ring[2..4]].concat());
    assert_eq!(mended(&longest, 2 * most), Ok(longest));
    // The first corner 65,529 times, and two others.
    ring.fill(5.);
    ring[2 * most - 4..].copy_from_slice(&[6., 5., 6., 6.]);
    assert_eq!(mended_alone(&ring[2..]).unwrap(), [5., 5., 6., 5., 6., 6., 5., 5.]);
    // One that begins with a NaN is as long as can be once it is mended: closed again it is too long.
    ring[2] = f64::NAN;
    ring[4..].iter_mut().enumerate().for_each(|(number, to)| *to = number as f64);
    let longest = mended_alone(&ring[2..]).unwrap();
    assert_eq!(longest.len(), 2 * most);
    assert_eq!(mended_alone(&longest), Err(Refusal::Coordinates));
}

/// Numbers that look random.
struct Numbers(u64);

impl Numbers {
    fn below(&mut self, limit: usize) -> usize {
        self.0 ^= self.0 << 13;
        self.0 ^= self.0 >> 7;
        self.0 ^= self.0 << 17;
        (self.0 >> 33) as usize % limit
    }

    /// Many are near each other, and some are not though both are near a third. Minus zero leaves the sign of a zero as it is.
    fn number(&mut self) -> f64 {
        let whole = [-0., 0., 2., 8., 11.][self.below(5)];
        whole + [-0., -0., -0., BELOW, 1e-10, 6e-11, -6e-11][self.below(7)]
    }

    /// A ring of up to 14 coordinates, some of them the one before once more.
    fn ring(&mut self) -> Vec<f64> {
        let mut ring = Vec::new();
        for _ in 0..self.below(15) {
            if self.below(3) > 0 || ring.is_empty() {
                ring.extend([self.number(), self.number()]);
            } else {
                ring.extend_from_within(ring.len() - 2..);
            }
        }
        ring
    }
}

#[test]
fn rings_of_many_shapes() {
    let mut numbers = Numbers(0x9e37_79b9_7f4a_7c15);
    let (mut dropped, mut refused) = (0, 0);
    for _ in 0..20_000 {
        let ring = numbers.ring();
        let closed = closed(&ring);
        let answered = mended(&ring, 2 * closed.len());
        if ring.is_empty() || kept(&closed).len() < 4 {
            assert_eq!(answered, Err(Refusal::Short), "{ring:?}");
            refused += 1;
            continue;
        }
        let mended = answered.unwrap();
        let kept = kept(&closed);
        let expected: Vec<f64> = kept.iter().flat_map(|&at| closed[at]).collect();
        assert_eq!(values(&mended), values(&expected), "{ring:?}");
        dropped += closed.len() - kept.len();

        // Where each but the closing one stands in the ring as it was, by README.md's way to keep count.
        let mut behind = 0;
        for (coordinate, &at) in mended.chunks(2).zip(&kept[..kept.len() - 1]) {
            let found = behind + ring[2 * behind..].chunks(2).position(|lent| lent == coordinate).unwrap();
            assert_eq!(found, at, "{ring:?}");
            behind = found + 1;
        }
        assert_eq!(mended_alone(&mended), Ok(mended), "{ring:?}");
    }
    assert!(dropped > 20_000 && refused > 1_000, "{dropped} dropped, {refused} refused");
}

/// What the slice call answers of a polygon of one ring.
fn answer(ring: &[f64]) -> Answer {
    let room = room_for_ring(ring.len() / 2 + 1);
    let lent = PolygonBuffers {
        scratch: &mut vec![0.; 2 * room],
        origin_scratch: &mut vec![0; room],
        order: &mut vec![0; room],
        out: &mut vec![0.; 2 * room],
        out_lengths: &mut [0],
        out_origins: &mut vec![0; room],
    };
    let flags = Flags { assume_simple: true, skip_boundary_fallback: true };
    cut_polygon(flags, BOUNDS, 0., ring, &[ring.len() as u32 / 2], lent).unwrap()
}

#[test]
fn no_exterior_wants_an_overlay_for_a_repeated_corner_once_it_is_mended() {
    let mut numbers = Numbers(0x2545_f491_4f6c_dd1d);
    let is_repeated = |answer| matches!(answer, Answer::Overlay(Reason::Input(Issue::Repeated { .. })));
    let (mut repeated, mut cut) = (0, 0);
    for _ in 0..20_000 {
        let ring = numbers.ring();
        let Ok(mended) = mended_alone(&ring) else { continue };
        let answer_to_mended = answer(&mended);
        assert!(!is_repeated(answer_to_mended), "{ring:?}");
        if is_repeated(answer(&ring)) {
            repeated += 1;
            cut += usize::from(matches!(answer_to_mended, Answer::Cut { .. }));
        }
    }
    assert!(repeated > 5_000 && cut > 500, "{repeated} with a repeated corner, {cut} of them cut once mended");
}

/// The exterior of a frame that has one ring, and the bytes before its count of coordinates.
fn exterior(line: usize) -> (Vec<u8>, Vec<f64>) {
    let mut bytes = bytes_of(&lines_of("frames.hex")[line - 1]).unwrap();
    let ring: Vec<f64> = bytes[48..].chunks(8).map(|number| f64::from_le_bytes(number.try_into().unwrap())).collect();
    assert_eq!(bytes[46..48], (ring.len() as u16 / 2).to_le_bytes());
    bytes.truncate(46);
    (bytes, ring)
}

#[test]
fn the_examples_before_and_after_mending() {
    let ((before, sent), (after, mended)) = (exterior(44), exterior(45));
    assert_eq!(before, after);
    assert_eq!(mended_alone(&sent), Ok(mended.clone()));
    assert_eq!(answer(&sent), Answer::Overlay(Reason::Input(Issue::Repeated { corner: 1 })));
    assert_eq!(answer(&mended), Answer::Cut { rings: 1 });
}
