//! One pair after the other: the port's test against the float test and exact arithmetic, and against the source's rule, which is the
//! float test and `line_intersection`.

use std::fmt;

use port::probe;

use crate::exact::{self, Meeting};
use crate::pair::{Pair, HIGHEST, STEPS};
use crate::wrapper;

/// From here on `orient2d` may overflow. Document 01 drops an overlay of such numbers.
const HUGE: f64 = 1e150;

/// Below this, unless 0, products in `orient2d` may have digits that no double has.
const TINY: f64 = 1e-145;

/// Of pairs off the grid that do not cross in floats, one of so many is reckoned exactly.
const SAMPLED: u64 = 64;

/// Pairs on the grid, by where they meet. The port and the source say the same of each of them.
#[derive(Default)]
pub struct OnGrid {
    nowhere: Met,
    at_end: Met,
    within: Met,
    in_line: Met,
}

/// How many pairs, and how many of them cross in floats.
#[derive(Default)]
struct Met {
    pairs: u64,
    in_floats: u64,
}

impl OnGrid {
    /// The difference, where there is one: of the port's test and the rule, of the port's exact test and exact arithmetic, or of
    /// `line_intersection` and exact arithmetic.
    pub fn compare(&mut self, pair: &Pair) -> Result<(), String> {
        let (in_floats, meeting) = (pair.crosses_in_floats(), exact::meeting(pair));
        let shared = meeting != Meeting::Nowhere;
        expect("the port's test", probe::crosses(&pair.0), in_floats && shared, pair)?;
        expect("the port's exact test", probe::may_share_point(&pair.0), shared, pair)?;
        expect("line_intersection", wrapper::finds_point(pair), shared, pair)?;
        let met = match meeting {
            Meeting::Nowhere => &mut self.nowhere,
            Meeting::AtEnd => &mut self.at_end,
            Meeting::Within => &mut self.within,
            Meeting::InLine => &mut self.in_line,
        };
        met.pairs += 1;
        met.in_floats += u64::from(in_floats);
        Ok(())
    }
}

impl fmt::Display for OnGrid {
    fn fmt(&self, f: &mut fmt::Formatter) -> fmt::Result {
        let OnGrid { nowhere, at_end, within, in_line } = self;
        let [pairs, in_floats] = [|met: &Met| met.pairs, |met: &Met| met.in_floats]
            .map(|count| [nowhere, at_end, within, in_line].into_iter().map(count).sum::<u64>());
        writeln!(f, "on the grid: {pairs} pairs, {in_floats} cross in floats; the port and the source differ on none")?;
        let rows = [
            ("share no point", nowhere),
            ("meet at an end", at_end),
            ("meet within both", within),
            ("meet on one line", in_line),
        ];
        for (name, Met { pairs, in_floats }) in rows {
            writeln!(f, "  {pairs} {name}, {in_floats} of them cross in floats")?;
        }
        Ok(())
    }
}

/// Why a pair is off the grid.
#[derive(Clone, Copy)]
enum Reason {
    Finer,
    Above,
    Tiny,
    Huge,
    NotFinite,
}

impl Reason {
    const NAMES: [&str; 5] = ["finer than 1/2^48", "above 256", "below 1e-145", "from 1e150 on", "not finite"];

    fn of(pair: &Pair) -> Reason {
        let any = |is: fn(f64) -> bool| pair.0.iter().any(|&number| is(number.abs()));
        if !pair.is_finite() {
            Reason::NotFinite
        } else if any(|number| number >= HUGE) {
            Reason::Huge
        } else if any(|number| number != 0.0 && number < TINY) {
            Reason::Tiny
        } else if any(|number| number <= HIGHEST && (number * STEPS).fract() != 0.0) {
            Reason::Finer
        } else {
            Reason::Above
        }
    }
}

/// Pairs off the grid, those that cross in floats by the reason: how many there are, and on how many the port and the source differ, as
/// the source finds no point.
#[derive(Default)]
pub struct OffGrid {
    pairs: u64,
    reasons: [Found; 5],
    sampled: Found,
}

/// By whether `line_intersection` finds a point, and whether one is shared.
#[derive(Default)]
struct Found {
    both: u64,
    neither: u64,
    shared_not_found: u64,
    found_not_shared: u64,
}

impl Found {
    fn count(&mut self, found: bool, shared: bool) {
        let counted = match (found, shared) {
            (true, true) => &mut self.both,
            (false, false) => &mut self.neither,
            (false, true) => &mut self.shared_not_found,
            (true, false) => &mut self.found_not_shared,
        };
        *counted += 1;
    }

    fn total(&self) -> u64 {
        self.both + self.neither + self.shared_not_found + self.found_not_shared
    }
}

impl OffGrid {
    /// The difference of the port's test and the float test, where there is one.
    pub fn compare(&mut self, pair: &Pair) -> Result<(), String> {
        let in_floats = pair.crosses_in_floats();
        expect("the port's test", probe::crosses(&pair.0), in_floats, pair)?;
        expect("the port's exact test", probe::may_share_point(&pair.0), true, pair)?;
        self.pairs += 1;
        if in_floats {
            let found = wrapper::finds_point(pair);
            // Exact arithmetic has no word on what is not finite: such a pair counts as sharing what is found.
            let shared = if pair.is_finite() { exact::share_point(pair) } else { found };
            self.reasons[Reason::of(pair) as usize].count(found, shared);
        } else if pair.is_finite() && self.pairs.is_multiple_of(SAMPLED) {
            self.sampled.count(wrapper::finds_point(pair), exact::share_point(pair));
        }
        Ok(())
    }
}

impl fmt::Display for OffGrid {
    fn fmt(&self, f: &mut fmt::Formatter) -> fmt::Result {
        let OffGrid { pairs, reasons, sampled } = self;
        let in_floats: u64 = reasons.iter().map(Found::total).sum();
        let differ: u64 = reasons.iter().map(|found| found.neither + found.shared_not_found).sum();
        writeln!(f, "off the grid: {pairs} pairs; {in_floats} cross in floats, the port and the source differ on {differ} of them")?;
        for (name, found) in Reason::NAMES.iter().zip(reasons) {
            writeln!(f, "  {name}: {} cross in floats; {found}", found.total())?;
        }
        writeln!(f, "  of the others {} were reckoned exactly; {sampled}", sampled.total())
    }
}

impl fmt::Display for Found {
    fn fmt(&self, f: &mut fmt::Formatter) -> fmt::Result {
        let Found { both, neither, shared_not_found, found_not_shared } = self;
        write!(f, "a point is shared and found in {both}, neither in {neither}, ")?;
        write!(f, "shared and not found in {shared_not_found}, found and not shared in {found_not_shared}")
    }
}

fn expect(what: &str, answer: bool, expected: bool, pair: &Pair) -> Result<(), String> {
    if answer == expected {
        return Ok(());
    }
    Err(format!("{what} says {answer} and not {expected} of {:?}", pair.0))
}
