//! Rings to mend that are worked by hand, one at least for each deliberate mistake that shows in them.

use formats::calls::MOST_COORDINATES;
use formats::mends::MendCall;
use formats::{closed_length, flat, Coord, Refusal, Ring};
use reading::Mistake;

use crate::worked::unwritten;

/// A call, the coordinates that it keeps or its refusal, and the mistake that it tells.
pub struct Worked {
    pub mistake: Mistake,
    pub call: MendCall,
    pub right: Result<Ring, Refusal>,
}

/// A call whose output has so many numbers more than 22 asks for.
pub fn call(ring: &[Coord], beside: isize) -> MendCall {
    let room = (2 * closed_length(ring)).saturating_add_signed(beside);
    MendCall { ring: flat(ring), out: (0..room).map(unwritten).collect() }
}

pub const TRIANGLE: [Coord; 4] = [(2., 2.), (8., 2.), (8., 8.), (2., 2.)];
pub const SQUARE: [Coord; 5] = [(2., 2.), (8., 2.), (8., 8.), (2., 8.), (2., 2.)];

/// The triangle with its first corner repeated.
pub const TRIANGLE_WITH_REPEAT: [Coord; 5] = [(2., 2.), (2., 2.), (8., 2.), (8., 8.), (2., 2.)];

/// Each is under 1e-10 from the one before it, and every second one is not from the last kept.
pub const CREEPING: [Coord; 6] = [(0., 0.), (6e-11, 0.), (12e-11, 0.), (5., 0.), (5., 5.), (0., 0.)];
pub const CREEPING_MENDED: [Coord; 5] = [(0., 0.), (12e-11, 0.), (5., 0.), (5., 5.), (0., 0.)];

/// Closed already, as floats compare.
pub const CLOSED_BY_OTHER_ZERO: [Coord; 4] = [(0., 0.), (5., 0.), (5., 5.), (-0.0, 0.)];

/// Ends as it begins, and is open all the same.
pub const BEGINS_WITH_NAN: [Coord; 4] = [(f64::NAN, 2.), (8., 2.), (8., 8.), (f64::NAN, 2.)];

/// So many coordinates of a pattern without repeats, the last one the first again where it is closed.
pub fn pattern(coordinates: usize, is_closed: bool) -> Ring {
    let mut ring: Ring = (0..coordinates).map(|k| ((k % 7) as f64, (k % 5) as f64)).collect();
    ring[coordinates - 1] = if is_closed { ring[0] } else { (8., 8.) };
    ring
}

pub fn worked() -> Vec<Worked> {
    let open_square = &SQUARE[..4];
    let at_first = |second: Coord| vec![(0., 0.), second, (5., 0.), (5., 5.), (0., 0.)];
    let kept = |ring: &[Coord]| Ok(ring.to_vec());
    let four_kept = || Ok(vec![(0., 0.), (5., 0.), (5., 5.), (0., 0.)]);
    let unchanged = |mistake: Mistake, ring: &[Coord]| (mistake, call(ring, 0), kept(ring));
    let infinite = [(f64::INFINITY, 2.), (f64::INFINITY, 2.), (8., 2.), (8., 8.), (f64::INFINITY, 2.)];
    let with_nan = [(2., 2.), (f64::NAN, 2.), (8., 2.), (8., 8.), (2., 2.)];
    let begins_with_nan_closed = [&BEGINS_WITH_NAN[..], &BEGINS_WITH_NAN[..1]].concat();
    let longest = pattern(MOST_COORDINATES, true);
    let too_long = pattern(MOST_COORDINATES + 1, true);
    vec![
        // Which coordinates are kept. There and back again, what is kept wrongly is near the last kept.
        (Mistake::ComparesWithLastSeen, call(&CREEPING, 0), kept(&CREEPING_MENDED)),
        (
            Mistake::ComparesWithLastSeen,
            call(&[(0., 0.), (9e-11, 0.), (-2e-11, 0.), (5., 0.), (5., 5.), (0., 0.)], 0),
            four_kept(),
        ),
        (Mistake::KeepsLastOfRun, call(&[(2., 2.), (8., 2.), (8., 2.00000000005), (8., 8.)], 0), kept(&TRIANGLE)),
        unchanged(Mistake::DropsClosing, &[(2., 2.), (8., 2.), (8., 8.), (2., 2.), (2., 2.)]),
        unchanged(Mistake::BeginsWithSecond, &SQUARE),
        unchanged(Mistake::DropsFirstNearLast, &[(2., 2.), (8., 2.), (8., 8.), (2., 2.00000000005), (2., 2.)]),
        // What is near.
        unchanged(Mistake::NearInOneAxis, &SQUARE),
        (Mistake::NearByDistance, call(&at_first((9e-11, 9e-11)), 0), four_kept()),
        (Mistake::NearIsEqual, call(&at_first((9e-11, 0.)), 0), four_kept()),
        unchanged(Mistake::NearAtLimit, &at_first((0., 1e-10))),
        unchanged(Mistake::NanIsNear, &with_nan),
        unchanged(Mistake::EqualIsNear, &infinite),
        unchanged(Mistake::DifferenceUnrounded, &[(1e-30, 0.), (1e-10, 0.), (5., 0.), (5., 5.), (1e-30, 0.)]),
        // How the ring is closed.
        (Mistake::LeavesOpen, call(open_square, 0), kept(&SQUARE)),
        (Mistake::MendsBeforeClosing, call(&[(2., 2.), (8., 2.), (8., 8.), (8., 8.)], 0), kept(&TRIANGLE)),
        (Mistake::NanEqualsNan, call(&BEGINS_WITH_NAN, 0), kept(&begins_with_nan_closed)),
        (Mistake::ClosesMendedAgain, call(&BEGINS_WITH_NAN, 2), kept(&begins_with_nan_closed)),
        unchanged(Mistake::ClosesWithFirst, &CLOSED_BY_OTHER_ZERO),
        unchanged(Mistake::ZeroSignsKeepOpen, &CLOSED_BY_OTHER_ZERO),
        // The refusals.
        (Mistake::OddLast, MendCall { ring: vec![2.], out: Vec::new() }, Err(19)),
        (Mistake::LimitUnclosed, call(&pattern(MOST_COORDINATES, false), 0), Err(20)),
        (Mistake::LimitByKept, call(&[(1., 1.); MOST_COORDINATES + 1], 0), Err(20)),
        unchanged(Mistake::LimitIsTooMany, &longest),
        (Mistake::FormerLimit, call(&too_long, 0), Err(20)),
        (Mistake::RoomBeforeLimit, call(&too_long, -1), Err(20)),
        (Mistake::RoomByKept, call(&TRIANGLE_WITH_REPEAT, -2), Err(22)),
        (Mistake::RoomUnclosed, call(&[(2., 2.), (8., 2.), (8., 2.), (8., 8.)], -2), Err(22)),
        (Mistake::NanSingleStaysOne, call(&[(f64::NAN, 2.)], -2), Err(22)),
        (Mistake::ShortBeforeRoom, call(&[(2., 2.)], -1), Err(22)),
        (Mistake::ThreeAreEnough, call(&[(2., 2.), (8., 2.), (2., 2.)], 0), Err(26)),
        unchanged(Mistake::FourBesidesClosing, &TRIANGLE),
        (Mistake::NoneOfNone, call(&[], 0), Err(26)),
        (Mistake::WritesBeforeShort, call(&[(2., 2.), (8., 2.), (2., 2.)], 0), Err(26)),
        // The answer and the output.
        unchanged(Mistake::AnswersNumbers, &SQUARE),
        (Mistake::ClearsPastKept, call(&TRIANGLE_WITH_REPEAT, 0), kept(&TRIANGLE)),
        (Mistake::LeavesCopyPastKept, call(&TRIANGLE_WITH_REPEAT, 0), kept(&TRIANGLE)),
    ]
    .into_iter()
    .map(|(mistake, call, right)| Worked { mistake, call, right })
    .collect()
}
