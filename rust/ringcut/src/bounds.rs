//! The tile that is cut to.

/// The four bounds of a tile, x being longitude and y latitude.
#[derive(Clone, Copy, Debug, PartialEq)]
pub struct Bounds {
    /// The lowest x.
    pub west: f64,
    /// The lowest y.
    pub south: f64,
    /// The highest x.
    pub east: f64,
    /// The highest y.
    pub north: f64,
}

impl Bounds {
    /// The bounds that a frame call and a slice call cut at: these, moved by the buffer on each side.
    pub fn widened(self, buffer: f64) -> Bounds {
        Bounds {
            west: self.west - buffer,
            south: self.south - buffer,
            east: self.east + buffer,
            north: self.north + buffer,
        }
    }
}
