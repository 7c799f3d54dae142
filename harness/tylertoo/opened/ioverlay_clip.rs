/// The private function that the harness asks, under its own name.
pub mod opened {
    use super::*;

    pub fn polygon_representable(poly: &Polygon<f64>) -> bool {
        super::polygon_representable(poly)
    }
}
