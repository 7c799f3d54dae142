//! One cut: the edge from one vertex to the next, one of them in and the other out, at a line. Document 02's point 8 speaks of it.

use std::fmt::{self, Display};

use crate::passes::Edge;
use crate::{Bounds, Coord};

/// The line, by its name and where it is, and the vertices that the cut runs from and to.
#[derive(Clone, Copy, Debug, PartialEq)]
pub struct Cut {
    pub edge: Edge,
    pub bound: f64,
    pub start: Coord,
    pub end: Coord,
}

impl Cut {
    /// Bounds with this line and three others that no finite vertex is beyond.
    pub fn bounds(&self) -> Bounds {
        let [mut west, mut south, mut east, mut north] = [-f64::MAX, -f64::MAX, f64::MAX, f64::MAX];
        *match self.edge {
            Edge::Left => &mut west,
            Edge::Right => &mut east,
            Edge::Bottom => &mut south,
            Edge::Top => &mut north,
        } = self.bound;
        [west, south, east, north]
    }

    /// The coordinate that the line fixes, and the free one: `vertex` the other way round.
    pub fn fixed_and_free(&self, (x, y): Coord) -> (f64, f64) {
        match self.edge {
            Edge::Left | Edge::Right => (x, y),
            Edge::Bottom | Edge::Top => (y, x),
        }
    }

    /// From the end to the start.
    pub fn turned(&self) -> Cut {
        Cut { start: self.end, end: self.start, ..*self }
    }

    /// On the line is in.
    pub fn is_in(&self, vertex: Coord) -> bool {
        let (fixed, _) = self.fixed_and_free(vertex);
        match self.edge {
            Edge::Left | Edge::Bottom => fixed >= self.bound,
            Edge::Right | Edge::Top => fixed <= self.bound,
        }
    }

    /// From the vertex that is in to the one that is out.
    pub fn outward(&self) -> Cut {
        if self.is_in(self.start) {
            *self
        } else {
            self.turned()
        }
    }
}

/// The vertex with these coordinates, the one that a line fixes and the free one.
pub fn vertex(edge: Edge, fixed: f64, free: f64) -> Coord {
    match edge {
        Edge::Left | Edge::Right => (fixed, free),
        Edge::Bottom | Edge::Top => (free, fixed),
    }
}

/// The numbers, and their bits.
impl Display for Cut {
    fn fmt(&self, f: &mut fmt::Formatter) -> fmt::Result {
        let Cut { edge, bound, start, end } = self;
        let numbers = [*bound, start.0, start.1, end.0, end.1];
        let bits = numbers.map(|number| format!("{:016x}", number.to_bits()));
        write!(f, "{edge:?} at {bound:?} from {start:?} to {end:?}, {}", bits.join(" "))
    }
}

#[cfg(test)]
mod tests {
    use super::*;

    #[test]
    fn bounds_have_the_line_and_three_beyond_any_number() {
        let bounds = |edge: Edge| Cut { edge, bound: 7.0, start: (0.0, 0.0), end: (9.0, 9.0) }.bounds();
        assert_eq!(bounds(Edge::Left), [7.0, -f64::MAX, f64::MAX, f64::MAX]);
        assert_eq!(bounds(Edge::Right), [-f64::MAX, -f64::MAX, 7.0, f64::MAX]);
        assert_eq!(bounds(Edge::Bottom), [-f64::MAX, 7.0, f64::MAX, f64::MAX]);
        assert_eq!(bounds(Edge::Top), [-f64::MAX, -f64::MAX, f64::MAX, 7.0]);
    }

    #[test]
    fn a_cut_runs_outward_from_the_vertex_that_is_in() {
        let (low, high) = ((1.0, 1.0), (9.0, 9.0));
        for (edge, inner, outer) in
            [(Edge::Left, high, low), (Edge::Right, low, high), (Edge::Bottom, high, low), (Edge::Top, low, high)]
        {
            let outward = Cut { edge, bound: 7.0, start: inner, end: outer };
            assert_eq!(outward.outward(), outward);
            assert_eq!(outward.turned().outward(), outward);
            let on_line = Cut { bound: inner.0, ..outward };
            assert_eq!(on_line.turned().outward(), on_line);
        }
    }

    #[test]
    fn a_vertex_has_the_coordinates_that_it_is_made_of() {
        for edge in Edge::ALL {
            let start = vertex(edge, 1.0, 2.0);
            let cut = Cut { edge, bound: 7.0, start, end: (9.0, 9.0) };
            assert_eq!(cut.fixed_and_free(start), (1.0, 2.0));
        }
        assert_eq!([vertex(Edge::Right, 1.0, 2.0), vertex(Edge::Bottom, 1.0, 2.0)], [(1.0, 2.0), (2.0, 1.0)]);
    }

    #[test]
    fn a_cut_is_shown_with_its_bits() {
        let cut = Cut { edge: Edge::Top, bound: 10.0, start: (5.0, -0.0), end: (1.5, 15.0) };
        assert_eq!(
            cut.to_string(),
            "Top at 10.0 from (5.0, -0.0) to (1.5, 15.0), 4024000000000000 4014000000000000 8000000000000000 \
             3ff8000000000000 402e000000000000"
        );
    }
}
