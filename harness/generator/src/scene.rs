//! A scene: bounds and buffer, and rings drawn in one style around them.

use std::f64::consts::PI;

use formats::frame::{LONGEST, SHORTEST};
use formats::{Bounds, Coord, Part, Ring};

use crate::collinear::collinear;
use crate::corners::{corner_ring, with_corner_holes};
use crate::numbers::{any_bits, any_bounds, finite_bits, grid, huge, near, near_offset, order, seldom_huge};
use crate::outlines::{crossed_last_segment, outline, star, teeth};
use crate::rng::Rng;
use crate::shallow::shallow;
use crate::tangles::tangle;

#[derive(Clone, Copy, Debug, PartialEq, Eq)]
pub enum Style {
    /// Small whole numbers scattered: touches, ties, repeats, crossings, negative zeros.
    Grid,
    /// Bow ties, U shapes, combs and spikes laid over the bounds.
    Outlines,
    /// Differences around 1e-10 on both sides.
    Near,
    /// Magnitudes around 1e150 and differences that overflow.
    Huge,
    /// Any bit pattern: NaN payloads, infinities, subnormals, any bounds and buffer.
    Bits,
    /// Real web-mercator tiles and areas around them.
    Tiles,
    /// Rings around 32 edges, and up to the frame's limit.
    Long,
    /// Edges of one slanted line, off it by the rounding of their coordinates only.
    Collinear,
    /// Crossings and repeated corners at any place of rings around 32 edges and longer, before or after the cut.
    Tangled,
    /// Vertices on the lines and in the corners of the bounds, edges along and through them.
    Corners,
    /// Edges nearly or exactly of one line that the rounded test takes for crossing, on the grid of document 02's point 5 and off it.
    Shallow,
}

impl Style {
    pub const ALL: [Style; 11] = [
        Style::Grid,
        Style::Outlines,
        Style::Near,
        Style::Huge,
        Style::Bits,
        Style::Tiles,
        Style::Long,
        Style::Collinear,
        Style::Tangled,
        Style::Corners,
        Style::Shallow,
    ];
}

pub struct Scene {
    style: Style,
    /// Whether every coordinate is finite: one that is not is enough to drop a whole frame.
    finite: bool,
    pub bounds: Bounds,
    pub buffer: f64,
}

impl Scene {
    pub fn new(style: Style, rng: &mut Rng) -> Scene {
        let finite = !rng.once_in(4);
        let (mut bounds, mut buffer) = match style {
            Style::Grid => ([0.0, 0.0, rng.between(1, 5) as f64, 4.0], rng.pick(&[0.0, 0.0, 0.0, 1.0, 0.5, -1.0])),
            Style::Outlines | Style::Long | Style::Tangled => {
                ([0.0, 0.0, 10.0, 10.0], rng.pick(&[0.0, 0.0, 0.0, 1.0, -0.5, 2.0]))
            }
            Style::Corners => {
                let low = rng.pick(&[0.0, 0.0, -0.0, -4.0]);
                ([low, low, 8.0, rng.pick(&[4.0, 8.0])], rng.pick(&[0.0, 0.0, 0.0, 0.0, 1.0, -1.0]))
            }
            Style::Shallow => {
                let reach = rng.pick(&[1_500.0, 1_500.0, 1_500.0, 300.0, 256.0, 100.0, 60.0]);
                ([-reach, -reach, reach, reach], rng.pick(&[0.0, 0.0, 0.0, 1.0]))
            }
            Style::Near => ([0.0, 0.0, 4.0, 4.0], rng.pick(&[0.0, 0.0, 1.0, 1e-10, 5e-11])),
            Style::Huge => ([0.0, 0.0, 10.0, 10.0], rng.pick(&[0.0, 0.0, 0.0, 1.0, 1e150, 1e308])),
            Style::Bits => bits_bounds(finite, rng),
            Style::Tiles => tile_bounds(rng),
            Style::Collinear => {
                let reach = rng.pick(&[100.0, 40.0, 10.0, 3.0]);
                ([-reach, -reach, reach, reach], rng.pick(&[0.0, 0.0, 0.0, 1.0]))
            }
        };
        match style {
            Style::Grid if rng.once_in(8) => bounds = [(); 4].map(|()| grid(rng)),
            Style::Near if rng.once_in(3) => bounds = bounds.map(|bound| bound + near_offset(rng)),
            Style::Huge if rng.once_in(3) => {
                bounds = [(); 4].map(|()| huge(rng));
                order(&mut bounds);
            }
            _ => {}
        }
        if rng.once_in(40) {
            bounds[rng.below(4)] = any_bits(rng);
        }
        if rng.once_in(80) {
            buffer = any_bits(rng);
        }
        Scene { style, finite, bounds, buffer }
    }

    /// What a slice call cuts at.
    pub fn buffered_bounds(&self) -> Bounds {
        let ([west, south, east, north], buffer) = (self.bounds, self.buffer);
        [west - buffer, south - buffer, east + buffer, north + buffer]
    }

    /// An exterior, and holes anywhere: few, as a frame has little room.
    pub fn part(&self, rng: &mut Rng) -> Part {
        if self.style == Style::Corners && rng.once_in(2) {
            return with_corner_holes(self.buffered_bounds(), rng);
        }
        let holes = if self.style == Style::Long { rng.pick(&[0, 0, 0, 1]) } else { rng.pick(&[0, 0, 0, 0, 1, 1, 2]) };
        self.part_with(holes, rng)
    }

    /// An exterior, and so many holes anywhere.
    pub fn part_with(&self, holes: usize, rng: &mut Rng) -> Part {
        (0..1 + holes).map(|_| self.ring(rng)).collect()
    }

    pub fn ring(&self, rng: &mut Rng) -> Ring {
        let mut ring = match self.style {
            Style::Grid => scatter(rng, grid),
            Style::Outlines => outline(rng),
            Style::Near if rng.once_in(6) => crossed_last_segment(rng),
            Style::Near => scatter(rng, near),
            Style::Huge if rng.once_in(2) => scatter(rng, seldom_huge),
            Style::Huge => scatter(rng, huge),
            Style::Bits if self.finite => scatter(rng, finite_bits),
            Style::Bits => scatter(rng, any_bits),
            Style::Tiles => self.area(rng),
            Style::Long => long(rng),
            Style::Collinear => collinear(rng),
            Style::Tangled => tangle(LONGEST_RING, rng),
            Style::Corners => corner_ring(self.buffered_bounds(), rng),
            Style::Shallow => shallow(self.buffered_bounds(), rng),
        };
        if ring.len() < LONGEST_RING && rng.once_in(6) {
            repeat_a_vertex(&mut ring, rng);
        }
        if ring.len() < LONGEST_RING && !rng.once_in(5) {
            close(&mut ring, rng);
        }
        if !self.finite && rng.once_in(8) && !ring.is_empty() {
            let k = rng.below(ring.len());
            ring[k].0 = any_bits(rng);
        }
        ring
    }

    /// A licence area about a tile: part of its border may run on the tile's own lines.
    fn area(&self, rng: &mut Rng) -> Ring {
        let [west, south, east, north] = self.bounds;
        let width = east - west;
        let centre =
            (west + width * (2.0 * rng.fraction() - 0.5), south + (north - south) * (2.0 * rng.fraction() - 0.5));
        let vertices = rng.pick(&[3, 4, 5, 8, 12, 20, 40]);
        let knots = rng.pick(&[0, 0, 0, 1]);
        let reach = rng.pick(&[0.05, 0.3, 0.8, 1.5, 4.0]);
        let mut ring = star(rng, centre, width * reach, vertices, knots);
        for vertex in &mut ring {
            match rng.below(16) {
                0 => vertex.0 = rng.pick(&[west, east]),
                1 => vertex.1 = rng.pick(&[south, north]),
                2 => *vertex = (rounded(vertex.0), rounded(vertex.1)),
                _ => {}
            }
        }
        ring
    }
}

/// The most coordinates that a frame of one ring holds, behind its ring count and coordinate count.
pub const LONGEST_RING: usize = (LONGEST - SHORTEST - 4) / 16;

/// A few vertices of independent numbers.
fn scatter(rng: &mut Rng, number: fn(&mut Rng) -> f64) -> Ring {
    let vertices = rng.pick(&[0, 1, 2, 3, 3, 3, 4, 4, 4, 5, 5, 6, 7, 8]);
    (0..vertices).map(|_| (number(rng), number(rng))).collect()
}

fn long(rng: &mut Rng) -> Ring {
    let vertices = match rng.below(4) {
        0 => rng.between(28, 36) as usize,
        1 => rng.between(31, 33) as usize,
        2 => rng.between(37, 120) as usize,
        _ => rng.pick(&[200, 300, LONGEST_RING - 1, LONGEST_RING]),
    };
    let centre = (rng.between(-2, 12) as f64, rng.between(-2, 12) as f64);
    let radius = rng.pick(&[1.0, 4.0, 6.0, 15.0]);
    match rng.below(4) {
        0 => teeth(rng, vertices),
        1 => star(rng, centre, radius, vertices, 1),
        _ => star(rng, centre, radius, vertices, 0),
    }
}

/// Appends the first vertex, now and then with the other sign of its zeros, which equals it too.
fn close(ring: &mut Ring, rng: &mut Rng) {
    let Some(&(x, y)) = ring.first() else {
        return;
    };
    let other_zeros = rng.once_in(8);
    let closing = |number: f64| if other_zeros && number == 0.0 { -number } else { number };
    ring.push((closing(x), closing(y)));
}

fn repeat_a_vertex(ring: &mut Ring, rng: &mut Rng) {
    if !ring.is_empty() {
        let k = rng.below(ring.len());
        ring.insert(k, ring[k]);
    }
}

fn bits_bounds(finite: bool, rng: &mut Rng) -> (Bounds, f64) {
    if !finite && rng.once_in(2) {
        return (any_bounds(rng), any_bits(rng));
    }
    let mut bounds = [(); 4].map(|()| finite_bits(rng));
    order(&mut bounds);
    (bounds, rng.pick(&[0.0, -0.0, 1.0, f64::MIN_POSITIVE]))
}

/// A tile of the web-mercator grid, and a buffer in its pixels.
pub fn tile_bounds(rng: &mut Rng) -> (Bounds, f64) {
    let zoom = rng.between(0, 22);
    let tiles = 1_i64 << zoom;
    let (x, y) = (rng.between(0, tiles - 1) as f64, rng.between(0, tiles - 1) as f64);
    let n = tiles as f64;
    let longitude = |x: f64| x / n * 360.0 - 180.0;
    let latitude = |y: f64| (PI * (1.0 - 2.0 * y / n)).sinh().atan().to_degrees();
    let bounds = [longitude(x), latitude(y + 1.0), longitude(x + 1.0), latitude(y)];
    let pixels = rng.pick(&[0.0, 8.0, 8.0, 64.0]);
    (bounds, (bounds[2] - bounds[0]) * pixels / 4096.0)
}

/// Seven decimal places, as areas are often published.
pub fn rounded(degrees: f64) -> f64 {
    (degrees * 1e7).round() / 1e7
}

/// A single coordinate of any bits.
pub fn lone_coordinate(rng: &mut Rng) -> Coord {
    (any_bits(rng), any_bits(rng))
}
