/// The private function that the harness asks, under its own name.
pub mod opened {
    use super::*;

    pub fn clip_ring(ring: &[Coord<f64>], bounds: &TileBounds) -> Vec<Coord<f64>> {
        super::clip_ring(ring, bounds)
    }
}
