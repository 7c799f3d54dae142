//! The frame entry and the program `ringcut` as one would write them in Rust around the unchanged source, for speed: every
//! buffer is kept from frame to frame. The port is measured beside them.
//!
//! The source gives no part numbers and no reasons, so not every answer can be told from its result. Refusals, nothing, dropped
//! and unchanged always can, and so can a list in which every part stands and none is an overlay. It gives no origins either: answers
//! here are document 01's, without them.

mod decode;
mod encode;
mod program;

use formats::Refusal;
use geo::Geometry;
use tylertoo::clip::clip_geometry_simple;
use tylertoo::diagnostics::Diagnostics;

use decode::Decoder;

pub use program::run;

/// Cuts frames, and keeps what it has allocated from one to the next.
#[derive(Default)]
pub struct Cutter {
    decoder: Decoder,
}

impl Cutter {
    /// Puts the frame's answer into `out`, in place of what was there. The refusals are 11 to 18: a vector has room.
    pub fn cut(&mut self, frame: &[u8], out: &mut Vec<u8>) -> Result<(), Refusal> {
        let call = self.decoder.decode(frame)?;
        let diagnostics = Diagnostics::default();
        let result = clip_geometry_simple(
            &call.geometry,
            &call.bounds,
            call.buffer,
            call.assume_simple,
            call.skip_boundary_fallback,
            &diagnostics,
        );
        out.clear();
        encode::answer(&call.geometry, result.as_ref(), diagnostics.guard_count() as u16, out);
        self.decoder.take_back(call.geometry);
        Ok(())
    }
}

/// The polygons of a geometry; there are no other geometries in a frame.
fn polygons(geometry: &Geometry<f64>) -> &[geo::Polygon<f64>] {
    match geometry {
        Geometry::Polygon(polygon) => std::slice::from_ref(polygon),
        Geometry::MultiPolygon(polygons) => &polygons.0,
        other => unreachable!("a frame with {other:?}"),
    }
}
