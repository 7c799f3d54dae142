/// The private functions that the harness asks, under their own names. The edge is its place in the order of the passes: Left,
/// Right, Bottom, Top.
pub mod opened {
    use super::*;

    const EDGES: [Edge; 4] = [Edge::Left, Edge::Right, Edge::Bottom, Edge::Top];

    pub fn clip_ring_against_edge(ring: &[Coord<f64>], edge: usize, bounds: &TileBounds) -> Vec<Coord<f64>> {
        super::clip_ring_against_edge(ring, EDGES[edge], bounds)
    }

    pub fn is_inside(coord: &Coord<f64>, edge: usize, bounds: &TileBounds) -> bool {
        super::is_inside(coord, EDGES[edge], bounds)
    }

    pub fn intersect(a: &Coord<f64>, b: &Coord<f64>, edge: usize, bounds: &TileBounds) -> Coord<f64> {
        super::intersect(a, b, EDGES[edge], bounds)
    }
}
