//! One cut at a time: how far the port's crossings are from the exact ones, held to document 02's point 8 and to what is proved of it, and
//! bit for bit to the Rust's own.

use std::fmt;
use std::sync::Mutex;

use compare::campaign::{self, Campaign};
use compare::cuts::{judge, kinds, PROVED};
use formats::cuts::{vertex, Cut};
use formats::room::{most_cut, most_passed};
use formats::{flat, pairs, same_numbers, Coord, Ring};
use generator::CutKind;
use reading::{Distance, Reading, PROMISED};
use ringcut::RingBuffers;

use crate::probe::{self, PassBuffers};

/// Half of what is proved, which not every cut keeps: some are above 1/2^43.
const NOT_KEPT: u32 = PROVED + 1;

/// What came of the cuts: how many are how far off, and of each kind the one that is furthest.
pub struct Comparison {
    campaign: Campaign,
    furthest: Vec<(CutKind, Measured)>,
}

/// `count` edges of each kind, each with three crossings.
pub fn compare(seed: u64, count: u64) -> Comparison {
    let furthest = CutKind::ALL.map(|_| Mutex::new(None));
    let campaign = campaign::run("cuts", seed, count, &kinds(), |kind, index| {
        let measured = check(&generator::cut(kind, seed, index))?;
        let label = measured.label();
        let mut furthest = furthest[kind as usize].lock().unwrap();
        *furthest = Some(further(furthest.take(), (index, measured)));
        Ok(label)
    });
    let furthest = CutKind::ALL.into_iter().zip(furthest);
    let of_each = furthest.filter_map(|(kind, furthest)| Some((kind, furthest.into_inner().unwrap()?.1)));
    Comparison { campaign, furthest: of_each.collect() }
}

/// The one that is further off, with its index; of two alike the first.
fn further(known: Option<(u64, Measured)>, met: (u64, Measured)) -> (u64, Measured) {
    match known {
        Some(known) if (known.1.error, met.0) > (met.1.error, known.0) => known,
        _ => met,
    }
}

/// A crossing that the port gave, and how far it is from the exact one.
#[derive(Debug)]
pub struct Measured {
    pub cut: Cut,
    pub crossing: Coord,
    pub distance: Distance,
    /// The distance as so many times 1/2^40.
    pub error: f64,
}

impl Measured {
    fn new(cut: Cut, crossing: Coord) -> Result<Measured, String> {
        let distance = judge(&Reading::RIGHT, &cut, crossing)?;
        let error = distance.times(PROMISED);
        Ok(Measured { cut, crossing, distance, error })
    }

    /// How far it is off, in a word.
    pub fn label(&self) -> &'static str {
        if self.distance.is_zero() {
            "exact"
        } else if self.distance.is_at_most(NOT_KEPT) {
            "at most 1/2^43"
        } else {
            "above 1/2^43"
        }
    }
}

/// What the port is lent: an edge from a vertex that is in to one that is out and, for the cutter, a third vertex that is in. Three lines
/// of the bounds have nothing beyond them.
struct Lent {
    outward: Cut,
    beside: Coord,
}

impl Lent {
    fn new(cut: &Cut) -> Lent {
        let outward = cut.outward();
        Lent { outward, beside: beside(&outward) }
    }

    /// Inward and outward, and from the outer vertex to the third.
    fn cuts(&self) -> [Cut; 3] {
        let to_third = Cut { start: self.outward.end, end: self.beside, ..self.outward };
        [self.outward.turned(), self.outward, to_third]
    }
}

/// What it gives: a pass over the edge crosses the line inward and outward, the cutter outward and to the third vertex.
#[derive(Clone, Debug)]
pub struct Given {
    pub passed: Ring,
    pub ring: Ring,
}

/// The vertex that the cut starts at, its free coordinate moved by one, up if it is below zero and else down, so that it stays within 256:
/// a ring that ends with it is not closed, so that no pass leaves it off.
fn beside(cut: &Cut) -> Coord {
    let (fixed, free) = cut.fixed_and_free(cut.start);
    vertex(cut.edge, fixed, if free < 0.0 { free + 1.0 } else { free - 1.0 })
}

/// One edge: the crossing that is furthest off, or how the port differs.
pub fn check(cut: &Cut) -> Result<Measured, String> {
    check_given(cut, &given(cut))
}

/// What is given of one edge, held to exact crossings and then, vertex by vertex, to the Rust.
pub fn check_given(cut: &Cut, Given { passed, ring }: &Given) -> Result<Measured, String> {
    let lent = Lent::new(cut);
    let (&[inward, _, outward], &[_, _, to_third, _, _]) = (&passed[..], &ring[..]) else {
        return Err(format!("{cut}: {} vertices of the pass, {} of the cutter", passed.len(), ring.len()));
    };
    let crossings = lent.cuts().into_iter().zip([inward, outward, to_third]);
    let measured = crossings.map(|(cut, crossing)| Measured::new(cut, crossing));
    let measured: Vec<Measured> = measured.collect::<Result<_, String>>()?;

    let (inner, third) = (lent.outward.start, lent.beside);
    let [inward, outward, to_third] = lent.cuts().map(|cut| oracle::crossing(&cut));
    check_vertices(cut, "pass", passed, &[inward, inner, outward])?;
    check_vertices(cut, "cutter", ring, &[inner, outward, to_third, third, inner])?;
    Ok(measured.into_iter().max_by(|a, b| a.error.total_cmp(&b.error)).expect("there are three"))
}

fn check_vertices(cut: &Cut, name: &str, port: &[Coord], rust: &[Coord]) -> Result<(), String> {
    if same_numbers(&flat(port), &flat(rust)) {
        return Ok(());
    }
    Err(format!("{cut}: the {name} gives {port:?} and, by the Rust, {rust:?}"))
}

/// What the port gives of one edge.
pub fn given(cut: &Cut) -> Given {
    let Lent { outward, beside } = Lent::new(cut);
    let ring = [outward.start, outward.end, beside];
    Given { passed: passed(cut, &ring[..2]), ring: cut_ring(cut, &ring) }
}

fn passed(cut: &Cut, ring: &[Coord]) -> Ring {
    let most = most_passed(ring.len());
    let (mut out, mut out_origins) = (vec![f64::NAN; 2 * most], vec![0; most]);
    let lent = PassBuffers { out: &mut out, out_origins: &mut out_origins, verdicts: &mut [] };
    let origins = vec![0; ring.len()];
    let vertices = probe::clip_ring_against_edge(&flat(ring), &origins, cut.edge as u8, &cut.bounds(), lent);
    pairs(&out[..2 * vertices])
}

fn cut_ring(cut: &Cut, ring: &[Coord]) -> Ring {
    let most = most_cut(ring.len());
    let (mut scratch, mut out) = (vec![f64::NAN; 2 * most], vec![f64::NAN; 2 * most]);
    let (mut origin_scratch, mut out_origins) = (vec![0; most], vec![0; most]);
    let lent = RingBuffers {
        scratch: &mut scratch,
        origin_scratch: &mut origin_scratch,
        out: &mut out,
        out_origins: &mut out_origins,
    };
    let vertices = probe::clip_ring(&flat(ring), &cut.bounds(), lent);
    pairs(&out[..2 * vertices])
}

impl Comparison {
    pub fn difference(&self) -> Option<&str> {
        self.campaign.difference()
    }

    /// Prints what came of it, and panics unless that many edges are cut as they should be.
    pub fn assert_agreed(&self, edges: u64) {
        println!("{self}");
        assert_eq!(self.difference(), None);
        assert_eq!(self.campaign.agreed(), edges);
    }

    /// The crossing that is furthest off of all.
    pub fn furthest(&self) -> Option<&Measured> {
        let measured = self.furthest.iter().map(|(_, measured)| measured);
        measured.max_by(|a, b| a.error.total_cmp(&b.error))
    }
}

/// The campaign's lines; one with the largest error of each kind; and one with the crossing that is furthest off of all.
impl fmt::Display for Comparison {
    fn fmt(&self, f: &mut fmt::Formatter) -> fmt::Result {
        let errors: Vec<String> =
            self.furthest.iter().map(|(kind, measured)| format!("{} {}", kind.name(), measured.error)).collect();
        write!(f, "{}\nlargest error in 1/2^40: {}", self.campaign, errors.join(", "))?;
        self.furthest().map_or(Ok(()), |furthest| write!(f, "\nfurthest off: {furthest}"))
    }
}

impl fmt::Display for Measured {
    fn fmt(&self, f: &mut fmt::Formatter) -> fmt::Result {
        let Measured { cut, crossing, distance, error } = self;
        let (_, free) = cut.fixed_and_free(*crossing);
        write!(f, "{error} times 1/2^40, {} times 1/2^42: ", distance.times(PROVED))?;
        write!(f, "{cut}, gives {free:?}, {:016x}", free.to_bits())
    }
}
