//! Frames to the source's geometries.

use formats::frame::{LONGEST, MOST_COORDINATES, MOST_PARTS, MOST_RINGS, MULTIPOLYGON, POLYGON, SHORTEST};
use formats::Refusal;
use geo::{Coord, Geometry, LineString, MultiPolygon, Polygon};
use tylertoo::tile::TileBounds;

/// What a frame asks of the source.
pub struct Call {
    pub geometry: Geometry<f64>,
    pub bounds: TileBounds,
    pub buffer: f64,
    pub assume_simple: bool,
    pub skip_boundary_fallback: bool,
}

/// Reads frames into vectors that earlier frames have left.
#[derive(Default)]
pub struct Decoder {
    rings: Vec<Vec<Coord<f64>>>,
}

impl Decoder {
    pub fn decode(&mut self, frame: &[u8]) -> Result<Call, Refusal> {
        if !(SHORTEST..=LONGEST).contains(&frame.len()) {
            return Err(11);
        }
        let (kind, flags) = (frame[0], frame[1]);
        if kind != POLYGON && kind != MULTIPOLYGON {
            return Err(12);
        }
        if flags > 3 {
            return Err(13);
        }
        let mut rest = &frame[2..];
        let [west, south, east, north, buffer] = numbers(&mut rest)?;
        let parts = count(&mut rest)?;
        if parts > MOST_PARTS || (kind == POLYGON && parts != 1) {
            return Err(14);
        }
        let geometry = if kind == POLYGON {
            Geometry::Polygon(self.polygon(&mut rest)?)
        } else {
            let polygons: Result<Vec<_>, Refusal> = (0..parts).map(|_| self.polygon(&mut rest)).collect();
            Geometry::MultiPolygon(MultiPolygon::new(polygons?))
        };
        if !rest.is_empty() {
            return Err(18);
        }
        Ok(Call {
            geometry,
            bounds: TileBounds::new(west, south, east, north),
            buffer,
            assume_simple: flags & 1 != 0,
            skip_boundary_fallback: flags & 2 != 0,
        })
    }

    fn polygon(&mut self, rest: &mut &[u8]) -> Result<Polygon<f64>, Refusal> {
        let rings = count(rest)?;
        if !(1..=MOST_RINGS).contains(&rings) {
            return Err(16);
        }
        let exterior = self.ring(rest)?;
        let holes: Result<Vec<_>, Refusal> = (1..rings).map(|_| self.ring(rest)).collect();
        Ok(Polygon::new(exterior, holes?))
    }

    fn ring(&mut self, rest: &mut &[u8]) -> Result<LineString<f64>, Refusal> {
        let coordinates = count(rest)?;
        if coordinates > MOST_COORDINATES {
            return Err(17);
        }
        let (bytes, behind) = rest.split_at_checked(16 * coordinates).ok_or(15)?;
        *rest = behind;
        let mut ring = self.rings.pop().unwrap_or_default();
        ring.clear();
        // One more, which closes it.
        ring.reserve(coordinates + 1);
        ring.extend(bytes.chunks_exact(16).map(|pair| Coord { x: number(&pair[..8]), y: number(&pair[8..]) }));
        Ok(LineString::new(ring))
    }

    /// Keeps the vectors of a geometry that is done with.
    pub fn take_back(&mut self, geometry: Geometry<f64>) {
        match geometry {
            Geometry::Polygon(polygon) => self.take_back_polygon(polygon),
            Geometry::MultiPolygon(polygons) => polygons.0.into_iter().for_each(|part| self.take_back_polygon(part)),
            _ => {}
        }
    }

    fn take_back_polygon(&mut self, polygon: Polygon<f64>) {
        let (exterior, holes) = polygon.into_inner();
        self.rings.extend(std::iter::once(exterior).chain(holes).map(|ring| ring.0));
    }
}

fn count(rest: &mut &[u8]) -> Result<usize, Refusal> {
    let (bytes, behind) = rest.split_first_chunk().ok_or(15)?;
    *rest = behind;
    Ok(usize::from(u16::from_le_bytes(*bytes)))
}

fn numbers(rest: &mut &[u8]) -> Result<[f64; 5], Refusal> {
    let (bytes, behind) = rest.split_first_chunk::<40>().ok_or(15)?;
    *rest = behind;
    Ok([0, 8, 16, 24, 32].map(|at| number(&bytes[at..at + 8])))
}

fn number(bytes: &[u8]) -> f64 {
    f64::from_le_bytes(bytes.try_into().expect("a number has 8 bytes"))
}
