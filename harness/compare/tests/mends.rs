//! Mended rings: the second reading on rings worked by hand, the judge that holds any answer to what must be true of it, which mistakes are
//! told by the Rust's own word and which by the judge alone, and what the generator meets.

use std::collections::BTreeMap;

use compare::mends::{broken, mend, RUST_FINDS_REPEAT};
use compare::worked_mends::{call, worked, Worked, CREEPING, CREEPING_MENDED, SQUARE, TRIANGLE};
use formats::calls::MOST_COORDINATES;
use formats::mends::{MendAfter, MendCall};
use formats::{flat, pairs, same_bits, Coord};
use generator::MendKind;
use reading::{Mistake, Place, Reading};

fn mistakes() -> Vec<Mistake> {
    Mistake::ALL.iter().copied().filter(|mistake| mistake.places().contains(&Place::Mends)).collect()
}

#[test]
fn worked_rings_are_mended_as_they_are_by_hand() {
    for Worked { mistake, call, right } in worked() {
        let after = mend(&Reading::RIGHT, &call);
        assert_eq!(after.difference(&call.after(&right)), None, "{mistake:?}, {call}");
        assert_eq!(broken(&call, &after), None, "{mistake:?}, {call}");
    }
}

#[test]
fn every_mistake_is_told_by_a_worked_ring() {
    let worked = worked();
    for mistake in mistakes() {
        assert!(worked.iter().any(|worked| worked.mistake == mistake), "{mistake:?} has no worked ring");
    }
    for Worked { mistake, call, right } in worked {
        let mistaken = mend(&Reading::with(mistake), &call);
        assert!(mistaken.difference(&call.after(&right)).is_some(), "{mistake:?}, {call}");
        assert!(broken(&call, &mistaken).is_some(), "{mistake:?}, {call}");
    }
}

/// `count` calls of each kind.
fn specimens(count: u64) -> impl Iterator<Item = (MendKind, MendCall)> {
    let of_kind = move |kind| (0..count).map(move |index| (kind, generator::mend(kind, 1, index)));
    MendKind::ALL.into_iter().flat_map(of_kind)
}

/// The others are told by the judge alone, as they leave no corner repeated. Where the first coordinate is dropped the closing one is no
/// longer the last, since `Polygon::new` closes the ring once more; and where too many are counted what stood behind them counts.
#[test]
fn the_rust_itself_tells_some_mistakes() {
    let worked = worked().into_iter().map(|worked| worked.call);
    let calls: Vec<MendCall> = worked.chain(specimens(1_000).map(|(_, call)| call)).collect();
    let is_told_by_the_rust = |mistake: &Mistake| {
        let reading = Reading::with(*mistake);
        calls.iter().any(|call| {
            let after = mend(&reading, call);
            let mended = after.mended().map(pairs).filter(|mended| mended.len() >= 4);
            mended.is_some_and(|mended| oracle::has_repeated(&mended))
        })
    };
    let told: Vec<Mistake> = mistakes().into_iter().filter(is_told_by_the_rust).collect();
    assert_eq!(
        told,
        [
            Mistake::ComparesWithLastSeen,
            Mistake::KeepsLastOfRun,
            Mistake::BeginsWithSecond,
            Mistake::DropsFirstNearLast,
            Mistake::NearByDistance,
            Mistake::NearIsEqual,
            Mistake::LeavesOpen,
            Mistake::MendsBeforeClosing,
            Mistake::AnswersNumbers,
        ]
    );
}

fn after(call: &MendCall, kept: &[Coord]) -> MendAfter {
    call.after(&Ok(kept.to_vec()))
}

#[test]
fn what_is_broken_is_said() {
    let square = call(&SQUARE, 3);
    let said = |kept: &[Coord]| broken(&square, &after(&square, kept));
    assert_eq!(said(&SQUARE), None);
    assert_eq!(said(&SQUARE[..3]), Some("fewer than four coordinates"));
    assert_eq!(said(&SQUARE[..4]), Some("another closing coordinate"));
    assert_eq!(said(&SQUARE[1..]), Some("another first coordinate"));
    assert_eq!(said(&TRIANGLE), Some("not the closed ring without coordinates that are near the last kept"));
    let turned = [SQUARE[0], SQUARE[2], SQUARE[1], SQUARE[3], SQUARE[4]];
    assert_eq!(said(&turned), Some("not the closed ring without coordinates that are near the last kept"));
    let with_more = [SQUARE[0], SQUARE[1], SQUARE[2], SQUARE[3], (5., 5.), SQUARE[4]];
    assert_eq!(said(&with_more), Some("not the closed ring without coordinates that are near the last kept"));
    let repeated = [SQUARE[0], SQUARE[1], SQUARE[1], SQUARE[2], SQUARE[3], SQUARE[4]];
    assert_eq!(said(&repeated), Some(RUST_FINDS_REPEAT));
    for refusal in [19, 20, 22, 26] {
        let refused = broken(&square, &square.after(&Err(refusal)));
        assert_eq!(refused, Some("refused where no refusal applies, or more coordinates than the output has"));
    }
    for answer in [7, i64::MAX] {
        let too_many = MendAfter { answer, out: square.out.clone() };
        assert!(broken(&square, &too_many).is_some(), "{answer}");
    }
}

/// Of the creeping ring each answer that lacks or has one more of the coordinates that creep is seen, and so is one that is moved.
#[test]
fn another_choice_of_creeping_coordinates_is_seen() {
    let creeping = call(&CREEPING, 0);
    assert_eq!(broken(&creeping, &after(&creeping, &CREEPING_MENDED)), None);
    assert_eq!(broken(&creeping, &after(&creeping, &CREEPING)), Some(RUST_FINDS_REPEAT));
    let without = |place: usize| [&CREEPING[..place], &CREEPING[place + 1..]].concat();
    assert!((0..CREEPING.len())
        .filter(|&place| place != 1)
        .all(|k| broken(&creeping, &after(&creeping, &without(k))).is_some()));
    for place in 0..CREEPING_MENDED.len() {
        for moved in [|(x, y): Coord| (x + 1e-12, y), |(x, y): Coord| (x, y - 1e-12), |(x, y): Coord| (x, -y)] {
            let mut mended = CREEPING_MENDED;
            mended[place] = moved(mended[place]);
            let same = flat(&mended).iter().map(|n| n.to_bits()).eq(flat(&CREEPING_MENDED).iter().map(|n| n.to_bits()));
            assert_eq!(broken(&creeping, &after(&creeping, &mended)).is_none(), same, "{mended:?}");
        }
    }
}

/// Bit for bit, a NaN's bits too.
#[test]
fn a_number_written_past_the_answer_or_by_a_refusal_is_seen() {
    let nans = |length: usize| -> Vec<f64> { (0x7ff4_dead_beef_0001..).map(f64::from_bits).take(length).collect() };
    let mended = MendCall { ring: flat(&SQUARE), out: nans(14) };
    let refused = MendCall { ring: flat(&TRIANGLE[..2]), out: nans(9) };
    for (call, right, from) in [(mended, Ok(SQUARE.to_vec()), 10), (refused, Err(26), 0)] {
        let after = call.after(&right);
        assert_eq!(broken(&call, &after), None);
        for place in from..call.out.len() {
            for number in [0.0, f64::NAN, f64::from_bits(after.out[place].to_bits() + 1)] {
                let mut written = after.clone();
                written.out[place] = number;
                let said = if right.is_ok() { "written past the answer" } else { "a refusal has written" };
                assert_eq!(broken(&call, &written), Some(said), "place {place}, {number:?}");
            }
        }
    }
}

/// 19, then 20, then 22, then 26: where several apply, each but the first is refused by the judge.
#[test]
fn only_the_first_refusal_that_applies_is_taken() {
    let point = vec![3.0; 2 * (MOST_COORDINATES + 1)];
    let odd = [&point[..], &[3.0]].concat();
    let call = |ring: &[f64], room: usize| MendCall { ring: ring.to_vec(), out: vec![7.0; room] };
    for (call, first) in [
        (call(&odd, 0), 19),
        (call(&[3.0], 0), 19),
        (call(&point, 0), 20),
        (call(&point, point.len()), 20),
        (call(&point[2..], point.len() - 3), 22),
        (call(&point[2..], point.len() - 2), 26),
        (call(&[3.0, 3.0], 1), 22),
        (call(&[3.0, 3.0], 2), 26),
        (call(&[f64::NAN, 3.0], 3), 22),
        (call(&[f64::NAN, 3.0], 4), 26),
        (call(&[2.0, 2.0, 8.0, 2.0, 8.0, 2.0, 2.0, 2.0], 8), 26),
        (call(&[2.0, 2.0, 2.0, 2.0, 8.0, 2.0, 8.0, 2.0], 10), 26),
        (call(&[], 0), 26),
    ] {
        for refusal in [19, 20, 21, 22, 26] {
            let said = (refusal != first).then_some("another answer than the first refusal that applies");
            assert_eq!(broken(&call, &call.after(&Err(refusal))), said, "{refusal} for {first}, {call}");
        }
        let none = MendAfter { answer: 0, out: call.out.clone() };
        assert!(broken(&call, &none).is_some(), "0 for {first}, {call}");
    }
}

#[test]
fn the_generator_meets_every_shape() {
    let mut met = BTreeMap::new();
    for (_, call) in specimens(3_000) {
        for (shape, has) in shapes(&call) {
            *met.entry(shape).or_insert(false) |= has;
        }
    }
    let missed: Vec<_> = met.iter().filter(|(_, is_met)| !**is_met).collect();
    assert_eq!(missed, []);
}

/// Whether a call has each of these.
fn shapes(call: &MendCall) -> Vec<(&'static str, bool)> {
    let (lent, room) = (pairs(&call.ring), call.out.len());
    let (closed, n) = (oracle::closed(&lent), lent.len());
    let asked = 2 * closed.len();
    let before_closing = &closed[..closed.len().saturating_sub(1)];
    let near = |a: usize, b: usize| oracle::are_near(before_closing[a], before_closing[b]);
    let last = before_closing.len().saturating_sub(1);
    let mended = mend(&Reading::RIGHT, &MendCall { ring: flat(&lent), out: vec![7.0; asked] });
    let kept = 2 * mended.answer.max(0) as usize;
    let has_nan = |&(x, y): &Coord| x.is_nan() || y.is_nan();
    let begins_with_nan = lent.first().is_some_and(has_nan);
    let numbers = || call.ring.iter().copied();
    let is_short = n < 1_000;
    let creeps = is_short && (0..last).any(|k| k > 1 && near(k, k - 1) && near(k - 1, k - 2) && !near(k, k - 2));
    let comes_back = is_short && (0..last).any(|k| k > 1 && !near(k, k - 1) && near(k - 1, k - 2) && near(k, k - 2));
    vec![
        ("no number", call.ring.is_empty()),
        ("one number", call.ring.len() == 1),
        ("one coordinate", n == 1 && !begins_with_nan),
        ("one coordinate with a NaN", n == 1 && begins_with_nan),
        ("two coordinates", n == 2),
        ("three coordinates", n == 3),
        ("an odd count", call.ring.len() % 2 == 1),
        ("open", n > 3 && closed.len() > n),
        ("closed bit for bit", n > 3 && closed.len() == n && call.ring[..2] == call.ring[2 * n - 2..2 * n]),
        (
            "closed by zeros of the other sign",
            n > 3 && closed.len() == n && !same_bits(&flat(&closed[..1]), &flat(&closed[n - 1..])),
        ),
        (
            "a NaN first, and the same bits last",
            n > 3 && begins_with_nan && same_bits(&flat(&lent[..1]), &flat(&lent[n - 1..])),
        ),
        ("a repeat at the front", last > 2 && near(0, 1)),
        ("a repeat in the middle", last > 4 && near(last / 2, last / 2 + 1)),
        ("a repeat before the closing one", last > 2 && near(last, last - 1)),
        ("the closing one near the one before", last > 2 && near(last, 0) && !near(last, last - 1)),
        ("a run of ten", last > 12 && is_short && (0..last - 9).any(|k| (1..10).all(|j| near(k, k + j)))),
        ("creeping on", creeps),
        ("creeping back", comes_back),
        ("all near the first", last > 3 && is_short && (1..=last).all(|k| near(0, k))),
        ("no repeat", last > 3 && is_short && (0..last).all(|k| !near(k, k + 1))),
        ("a signalling NaN", numbers().any(|number| number.is_nan() && number.to_bits() >> 51 & 1 == 0)),
        ("an infinity", numbers().any(f64::is_infinite)),
        ("a subnormal number", numbers().any(f64::is_subnormal)),
        ("the largest number", numbers().any(|number| number == f64::MAX)),
        ("three remain", mended.answer == -26 && n > 2 && !near(0, 1) && last == 1),
        ("four remain", mended.answer == 4),
        ("the most coordinates", closed.len() == MOST_COORDINATES && mended.answer > 0),
        ("one too many", closed.len() == MOST_COORDINATES + 1),
        ("one too many by its closing one", closed.len() == MOST_COORDINATES + 1 && n == MOST_COORDINATES),
        ("a NaN first, and as many as there may be", begins_with_nan && closed.len() == MOST_COORDINATES),
        ("room to the number", room == asked && mended.answer > 0),
        ("one number short", room + 1 == asked && mended.answer > 0),
        ("one number more", room == asked + 1 && mended.answer > 0),
        ("many more", room > asked + 99 && mended.answer > 0),
        ("no room", room == 0 && mended.answer > 0),
        ("room for what was lent alone", room == 2 * n && asked > room && mended.answer > 0),
        ("room for what is kept alone", room == kept && asked > room && mended.answer > 0),
        ("no room for what is kept", room + 1 == kept && asked > room && mended.answer > 0),
    ]
}

/// What every ring of a kind has, and what most of them have.
#[test]
fn rings_are_of_their_kind() {
    const COUNT: u64 = 3_000;
    let mut marked = BTreeMap::new();
    for (kind, call) in specimens(COUNT) {
        let ring = pairs(&call.ring);
        assert!(is_of_kind(kind, &ring), "{}: {call}", kind.name());
        *marked.entry(kind.name()).or_insert(0) += u64::from(has_mark(kind, &ring));
    }
    for kind in MendKind::ALL {
        let percent = 100 * marked[kind.name()] / COUNT;
        assert!(percent >= least_percent(kind), "{}: {percent} of a hundred", kind.name());
    }
}

/// Whether two coordinates are so far apart at most in each axis.
fn are_within(limit: f64, a: Coord, b: Coord) -> bool {
    (a.0 - b.0).abs() <= limit && (a.1 - b.1).abs() <= limit
}

/// The ring without what stands at its end and is the first again, or beside it.
fn without_end(ring: &[Coord]) -> &[Coord] {
    let is_first_again = |&coord: &Coord| are_within(1e-9, coord, ring[0]);
    let kept = ring.iter().rposition(|coord| !is_first_again(coord)).map_or(1, |last| last + 1);
    &ring[..kept.min(ring.len())]
}

/// Whether a ring has what every one of its kind has.
fn is_of_kind(kind: MendKind, ring: &[Coord]) -> bool {
    let numbers = flat(ring);
    let all = |is_such: fn(f64) -> bool| numbers.iter().all(|&number| is_such(number));
    match kind {
        MendKind::Runs => ring.len() > 2 && all(|number| number.abs() < 8.0),
        MendKind::Distinct => without_end(ring).windows(2).all(|ends| !are_within(1e-9, ends[0], ends[1])),
        MendKind::OnePoint => {
            let elsewhere = |point: Coord| without_end(ring).iter().filter(|&&c| !are_within(3e-10, c, point)).count();
            ring.iter().any(|&point| elsewhere(point) <= 3)
        }
        MendKind::Creeping => {
            let creeps = |ends: &[Coord]| ends[0] != ends[1] && are_within(1.02e-10, ends[0], ends[1]);
            let jumps = ring.windows(2).filter(|ends| !are_within(1.02e-10, ends[0], ends[1])).count();
            ring[..3].windows(2).all(creeps) && jumps <= 5
        }
        MendKind::Steps => all(|number| (number - number.round()).abs() < 5e-10),
        MendKind::Rounded => all(|number| number.abs() < 5e-10 || number.abs() > 262_143.0),
        MendKind::Bits => ring.len() < 40,
        MendKind::NotFinite => ring.len() < 40 && all(|number| !number.is_finite() || number.abs() < 8.0),
        MendKind::Zeros => all(|number| number.abs() < 3.0),
        MendKind::Few => ring.len() <= 3,
        MendKind::ThreeOrFour => {
            let call = MendCall { ring: numbers.clone(), out: vec![7.0; numbers.len() + 2] };
            ring.len() > 1 && matches!(mend(&Reading::RIGHT, &call).answer, -26 | 4)
        }
        MendKind::Long => ring.len() >= 100,
    }
}

/// Whether it has what most of its kind have.
fn has_mark(kind: MendKind, ring: &[Coord]) -> bool {
    let numbers = flat(ring);
    let any = |is_such: fn(f64) -> bool| numbers.iter().any(|&number| is_such(number));
    let before_end = without_end(ring);
    match kind {
        MendKind::Runs => {
            let near = before_end.windows(2).filter(|ends| oracle::are_near(ends[0], ends[1])).count();
            near > 0 && near + 2 < before_end.len()
        }
        MendKind::Distinct => before_end.len() > 3,
        MendKind::OnePoint => ring.windows(2).any(|ends| oracle::are_near(ends[0], ends[1])),
        MendKind::Creeping => {
            let creeping = ring.windows(2).take_while(|ends| are_within(1.02e-10, ends[0], ends[1]));
            creeping.last().is_some_and(|ends| !oracle::are_near(ring[0], ends[1]))
        }
        MendKind::Steps => {
            any(|number| [-1, 0, 1].contains(&(number.abs().to_bits() as i64 - 1e-10_f64.to_bits() as i64)))
        }
        MendKind::Rounded => any(|number| number == 1e-10 || number > 262_143.0),
        MendKind::Bits => any(|number| number.abs() > 1e10 || number.is_subnormal()),
        MendKind::NotFinite => any(|number| !number.is_finite()),
        MendKind::Zeros => {
            any(|number| number.to_bits() == 0) && any(|number| number.to_bits() == (-0.0_f64).to_bits())
        }
        MendKind::Few => !ring.is_empty(),
        MendKind::ThreeOrFour => ring.windows(2).any(|ends| oracle::are_near(ends[0], ends[1])),
        MendKind::Long => ring.len() < 1_000,
    }
}

/// How many of a hundred rings have it at least.
fn least_percent(kind: MendKind) -> u64 {
    match kind {
        MendKind::Runs | MendKind::Distinct | MendKind::Steps | MendKind::Rounded | MendKind::Long => 90,
        MendKind::OnePoint | MendKind::Bits | MendKind::ThreeOrFour => 80,
        MendKind::Creeping | MendKind::NotFinite | MendKind::Few => 70,
        MendKind::Zeros => 60,
    }
}
