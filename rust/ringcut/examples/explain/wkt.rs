//! Well-known text, as OGC's Simple Features have it: `POLYGON ((5 5, 15 5, 15 8, 5 5))`.
//!
//! It has no word for a number that is not finite. A ring without coordinates is left out, since not every reader takes it: as a hole it
//! takes nothing away, and a polygon whose exterior it is is empty, whatever its holes.

use crate::shared::number;

/// A ring's x and y, the closing ones too.
pub type Ring = Vec<[f64; 2]>;

/// A polygon and what is to be said above it, the words `what` in front; where it has no WKT, that alone.
pub fn polygon(what: &str, rings: &[Ring]) -> Vec<String> {
    labelled(what, rings.iter(), || format!("POLYGON {}", polygon_text(rings)))
}

/// A multipolygon in the same way.
pub fn multipolygon(what: &str, parts: &[Vec<Ring>]) -> Vec<String> {
    labelled(what, parts.iter().flatten(), || {
        let polygons: Vec<String> = parts.iter().map(|rings| polygon_text(rings)).collect();
        format!("MULTIPOLYGON {}", list(&polygons))
    })
}

fn labelled<'a>(what: &str, rings: impl Iterator<Item = &'a Ring> + Clone, text: impl Fn() -> String) -> Vec<String> {
    if rings.clone().flatten().flatten().any(|number| !number.is_finite()) {
        return vec![format!("  {what}no WKT, as a coordinate is not finite")];
    }
    let is_short = |ring: &Ring| (1..4).contains(&ring.len());
    let warning =
        if rings.clone().any(is_short) { " (most tools refuse it: a ring has fewer than 4 coordinates)" } else { "" };
    vec![format!("  {what}as WKT{warning}:"), text()]
}

fn polygon_text(rings: &[Ring]) -> String {
    if rings[0].is_empty() {
        return list(&[]);
    }
    let rings: Vec<String> = rings.iter().filter(|ring| !ring.is_empty()).map(ring_text).collect();
    list(&rings)
}

fn ring_text(ring: &Ring) -> String {
    let coordinates: Vec<String> =
        ring.iter().map(|&[x, y]| format!("{} {}", number::text(x), number::text(y))).collect();
    list(&coordinates)
}

fn list(items: &[String]) -> String {
    if items.is_empty() {
        return "EMPTY".to_string();
    }
    format!("({})", items.join(", "))
}
