//! Document 01's added formats as the oracle reads them: frames, ring calls and slice calls, their refusals, and what a
//! call leaves in the slices lent to it; single passes of the ring cutter, and single cuts; calls that mend a ring; frames that are
//! built. Vertices of cuts have document 02's origins. The second reading works all of this out by itself, but for frames that are built;
//! what it leaves is held in `RingAfter`, `SliceAfter`, `PassAfter` and `MendAfter` only to be compared.

pub mod answer;
pub mod building;
pub mod calls;
mod cursor;
pub mod cuts;
pub mod frame;
pub mod mends;
pub mod origins;
pub mod passes;
pub mod reason;
pub mod room;
pub mod shown;
pub mod vectors;

/// One x, y pair.
pub type Coord = (f64, f64);

pub type Ring = Vec<Coord>;

/// A polygon's rings, exterior first.
pub type Part = Vec<Ring>;

/// West, south, east, north.
pub type Bounds = [f64; 4];

/// The number of a refusal: 10 to 22, and 26.
pub type Refusal = u8;

/// The bytes that a line of the program stands for; one that is not pairs of hexadecimal digits is refused with 10.
pub fn from_hex(line: &[u8]) -> Result<Vec<u8>, Refusal> {
    let digit = |character: u8| char::from(character).to_digit(16).ok_or(10);
    if line.len() % 2 == 1 {
        return Err(10);
    }
    line.chunks(2).map(|pair| Ok((16 * digit(pair[0])? + digit(pair[1])?) as u8)).collect()
}

/// A ring as x, y numbers.
pub fn flat(ring: &[Coord]) -> Vec<f64> {
    ring.iter().flat_map(|&(x, y)| [x, y]).collect()
}

/// x, y numbers as a ring; an odd last number is left off.
pub fn pairs(numbers: &[f64]) -> Ring {
    numbers.chunks_exact(2).map(|pair| (pair[0], pair[1])).collect()
}

/// The number of coordinates of a ring once it is closed as `Polygon::new` closes it.
pub fn closed_length(ring: &[Coord]) -> usize {
    ring.len() + usize::from(ring.first() != ring.last())
}

/// Bit for bit, but any NaN for any NaN.
pub fn same_number(a: f64, b: f64) -> bool {
    a.to_bits() == b.to_bits() || (a.is_nan() && b.is_nan())
}

pub fn same_coord((x, y): Coord, (other_x, other_y): Coord) -> bool {
    same_number(x, other_x) && same_number(y, other_y)
}

/// Bit for bit, a NaN's bits too.
pub fn same_bits(a: &[f64], b: &[f64]) -> bool {
    a.len() == b.len() && a.iter().zip(b).all(|(a, b)| a.to_bits() == b.to_bits())
}

pub fn same_numbers(a: &[f64], b: &[f64]) -> bool {
    a.len() == b.len() && a.iter().zip(b).all(|(&a, &b)| same_number(a, b))
}
