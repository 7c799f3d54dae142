//! The mending call beside copying the ring, which is the least that it could do, and beside what is at hand for dropping repeated corners:
//! `Vec::dedup_by` over geo-types' coordinates with the same test and, built with the feature `geos`, GEOS. In a table of its own, as the
//! source has no such call; times are in nanoseconds a coordinate.

#[cfg(feature = "geos")]
mod geos;

#[cfg(not(feature = "geos"))]
mod geos {
    pub fn time(_numbers: &[f64], _mended: &[f64]) -> Option<f64> {
        None
    }
}

use std::hint::black_box;

use formats::calls::MOST_COORDINATES;
use formats::same_numbers;
use geo::Coord;
use ringcut::mend;

use crate::outlines::inside;
use crate::table::whole;
use crate::timing::medians_in_step;

/// Of ten corners so many are the one before once more.
const SHARES: [(&str, usize); 3] = [("none", 0), ("a tenth", 1), ("nine tenths", 9)];

const LIMIT: f64 = 1e-10;

pub fn measure() {
    println!("| coordinates | repeated | remain | memcpy | port | port less memcpy | `dedup_by` | GEOS |");
    println!("|---|---|---|---|---|---|---|---|");
    for coordinates in [16, 256, 4_096, MOST_COORDINATES] {
        for (name, tenths) in SHARES {
            print_row(name, &ring(coordinates, tenths));
        }
    }
}

fn print_row(name: &str, ring: &[Coord<f64>]) {
    let numbers: Vec<f64> = ring.iter().flat_map(|c| [c.x, c.y]).collect();
    let (mut copied, mut mended) = (vec![0.0; numbers.len()], vec![0.0; numbers.len()]);
    let mut deduplicated = ring.to_vec();
    let remain = mend(&numbers, &mut mended).expect("at least four corners are no repeats");
    deduplicate(ring, &mut deduplicated);
    let by_rust: Vec<f64> = deduplicated.iter().flat_map(|c| [c.x, c.y]).collect();
    assert!(same_numbers(&mended[..2 * remain], &by_rust), "{} coordinates, {name}", ring.len());
    let geos = geos::time(&numbers, &mended[..2 * remain]);
    let times = medians_in_step(&mut [
        &mut || black_box(&mut copied[..]).copy_from_slice(black_box(&numbers)),
        &mut || {
            black_box(mend(black_box(&numbers), black_box(&mut mended)).is_ok());
        },
        &mut || deduplicate(black_box(ring), black_box(&mut deduplicated)),
    ]);
    let each = |time: f64| time / ring.len() as f64;
    let [memcpy, port, by_rust] = [0, 1, 2].map(|task| each(times[task]));
    let [size, remain] = [ring.len(), remain].map(|count| whole(count as f64));
    let geos = geos.map_or(String::new(), |time| format!("{:.2}", each(time)));
    let over = port - memcpy;
    println!("| {size} | {name} | {remain} | {memcpy:.2} | {port:.2} | {over:.2} | {by_rust:.2} | {geos} |");
}

/// As it would be written in Rust: a copy of the ring, from which repeats are dropped in place, the closing one excepted.
fn deduplicate(ring: &[Coord<f64>], kept: &mut Vec<Coord<f64>>) {
    kept.clear();
    kept.extend_from_slice(&ring[..ring.len() - 1]);
    kept.dedup_by(|next, last| (next.x - last.x).abs() < LIMIT && (next.y - last.y).abs() < LIMIT);
    kept.push(ring[ring.len() - 1]);
}

/// A closed ring of so many coordinates, of whose corners so many tenths are the one before once more: which of them looks like chance, as
/// repeats at equal distances would be foreseen by the processor.
fn ring(coordinates: usize, tenths: usize) -> Vec<Coord<f64>> {
    let outline = inside(coordinates - 1);
    let mut places: Vec<usize> = (1..coordinates - 1).collect();
    places.sort_by_key(|&place| mixed(place as u64));
    let mut is_repeat = vec![false; coordinates];
    places[..tenths * places.len() / 10].iter().for_each(|&place| is_repeat[place] = true);
    let mut corner = 0;
    let mut ring = vec![outline[0]];
    for &is_repeat in &is_repeat[1..coordinates - 1] {
        corner += usize::from(!is_repeat);
        ring.push(outline[corner]);
    }
    ring.push(outline[0]);
    ring
}

/// A fixed rule that looks like chance.
fn mixed(number: u64) -> u64 {
    let spread = number.wrapping_mul(0x9e37_79b9_7f4a_7c15);
    (spread ^ spread >> 32).wrapping_mul(0xd6e8_feb8_6659_fd93)
}

#[cfg(test)]
mod tests {
    use super::*;

    #[test]
    fn rings_repeat_so_many_tenths_of_their_corners() {
        for coordinates in [16, 256, 4_096] {
            for (_, tenths) in SHARES {
                let ring = ring(coordinates, tenths);
                let repeats = ring.windows(2).filter(|ends| ends[0] == ends[1]).count();
                assert_eq!((ring.len(), repeats), (coordinates, tenths * (coordinates - 2) / 10));
                assert_eq!(ring[0], ring[coordinates - 1]);
            }
        }
    }
}
