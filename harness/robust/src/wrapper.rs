//! geo's `line_intersection`, as far as whether it finds a point. Real is the orientation kernel that geo asks: `orient2d` of the crate
//! `robust`, as it is packaged. The rest is written anew here from what geo publishes about its behaviour, and none of geo's code: boxes,
//! sides, and what is said of edges on one line. Whether geo's own wrapper does the same is not known from here.

use robust::orient2d;

use crate::pair::{are_apart, Coord, Edge, Pair};

#[derive(Clone, Copy, PartialEq)]
enum Side {
    Left,
    Right,
    OnLine,
}

/// Whether there is a point.
pub fn finds_point(pair: &Pair) -> bool {
    let [p, q] = pair.edges();
    if are_apart(p, q) {
        return false;
    }
    let of_q = q.map(|end| side(p, end));
    let of_p = p.map(|end| side(q, end));
    if is_one_side(of_q) || is_one_side(of_p) {
        return false;
    }
    [of_q, of_p] != [[Side::OnLine; 2]; 2] || overlap(p, q)
}

/// A result that is no number is neither above nor below 0: on the line.
fn side([start, end]: Edge, point: Coord) -> Side {
    let [start, end, point] = [start, end, point].map(|(x, y)| robust::Coord { x, y });
    let turned = orient2d(start, end, point);
    if turned > 0.0 {
        Side::Left
    } else if turned < 0.0 {
        Side::Right
    } else {
        Side::OnLine
    }
}

/// Both ends strictly on the same side.
fn is_one_side([first, second]: [Side; 2]) -> bool {
    first == second && first != Side::OnLine
}

/// Of edges on one line: an end of each lies in the other's box, or both ends of one do.
fn overlap(p: Edge, q: Edge) -> bool {
    let inside = |edge: Edge, end: Coord| !are_apart(edge, [end, end]);
    let [q_start, q_end] = q.map(|end| inside(p, end));
    let [p_start, p_end] = p.map(|end| inside(q, end));
    (q_start && q_end) || (p_start && p_end) || ((q_start || q_end) && (p_start || p_end))
}
