//! Single cuts: what document 02's point 8 says of a crossing, judged in the second reading's fractions.

use formats::cuts::Cut;
use formats::{same_number, Coord};
use generator::CutKind;
use reading::{Distance, Reading, Side, Vertex, PROMISED};

/// What is proved of the free coordinate is a quarter of what point 8 asks for: at most 1/2^42 from the exact crossing.
pub const PROVED: u32 = 42;

/// The kinds of cuts, with their names.
pub fn kinds() -> [(&'static str, CutKind); CutKind::ALL.len()] {
    CutKind::ALL.map(|kind| (kind.name(), kind))
}

/// How far a crossing is from the exact one by this reading, or what is wrong with it: its fixed coordinate is not the bound itself, or the
/// free one is not finite, or not as near as is promised and proved.
pub fn judge(reading: &Reading, cut: &Cut, crossing: Coord) -> Result<Distance, String> {
    let asked = read(cut);
    if !asked.is_covered() {
        return Err(format!("{cut}: point 8 doesn't speak of it"));
    }
    let (fixed, free) = cut.fixed_and_free(crossing);
    if !same_number(fixed, cut.bound) {
        return Err(format!("{cut}: the fixed coordinate is {fixed:?}"));
    }
    let Some(distance) = reading.distance(&asked, vertex(crossing)) else {
        return Err(format!("{cut}: the free coordinate is {free:?}"));
    };
    match [PROMISED, PROVED].into_iter().find(|&k| !distance.is_at_most(k)) {
        Some(k) => Err(format!("{cut}: {free:?} is {} times 1/2^{k} from the exact crossing", distance.times(k))),
        None => Ok(distance),
    }
}

/// The crossing as this reading computes it.
pub fn crossing(reading: &Reading, cut: &Cut) -> Coord {
    let Vertex { x, y } = reading.crossing(&read(cut));
    (x, y)
}

/// The cut as the second reading is asked about it.
fn read(cut: &Cut) -> reading::Cut {
    let [start, end] = [cut.start, cut.end].map(vertex);
    reading::Cut { side: Side::ORDER[cut.edge as usize], bound: cut.bound, start, end }
}

fn vertex((x, y): Coord) -> Vertex {
    Vertex { x, y }
}
