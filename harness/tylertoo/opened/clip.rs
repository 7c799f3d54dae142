/// The private functions that the harness asks, under their own names.
pub mod opened {
    use super::*;

    pub fn clip_polygon(
        poly: &Polygon<f64>,
        bounds: &TileBounds,
        assume_simple: bool,
        skip_boundary_fallback: bool,
        diagnostics: &crate::diagnostics::Diagnostics,
    ) -> Option<Geometry<f64>> {
        super::clip_polygon(poly, bounds, assume_simple, skip_boundary_fallback, diagnostics)
    }

    pub fn has_structural_issues(poly: &Polygon<f64>, assume_simple: bool) -> bool {
        super::has_structural_issues(poly, assume_simple)
    }

    pub fn has_self_intersecting_edges(coords: &[Coord<f64>]) -> bool {
        super::has_self_intersecting_edges(coords)
    }

    pub fn any_edge_pair(ring: &[Coord<f64>], hit: impl FnMut(Line<f64>, Line<f64>) -> bool) -> bool {
        super::any_edge_pair(ring, hit)
    }

    pub fn has_boundary_connecting_edges(poly: &Polygon<f64>, bounds: &TileBounds) -> bool {
        super::has_boundary_connecting_edges(poly, bounds)
    }

    pub fn intersects_bounds(rect: &Rect<f64>, bounds: &TileBounds) -> bool {
        super::intersects_bounds(rect, bounds)
    }

    pub fn is_fully_inside(rect: &Rect<f64>, bounds: &TileBounds) -> bool {
        super::is_fully_inside(rect, bounds)
    }

    pub fn polygon_rect_all_rings(poly: &Polygon<f64>) -> Option<(Rect<f64>, bool)> {
        super::polygon_rect_all_rings(poly)
    }

    pub fn multipolygon_rect_all_rings(mp: &MultiPolygon<f64>) -> Option<(Rect<f64>, bool, Vec<Option<Rect<f64>>>)> {
        super::multipolygon_rect_all_rings(mp)
    }
}
