//! Section "Unchanged": issues of a ring and crossings of its edges, every pair looked at; where they are: document 02, point 1;
//! and that edges which cross share a point: point 5.

use crate::{Mistake, Reading, Vertex};

/// Up to so many edges all pairs are scanned; above, they are swept.
const SCANNED: usize = 32;

/// What is wrong with a ring, and where.
#[derive(Clone, Copy, Debug, PartialEq, Eq)]
pub enum Issue {
    Short,
    /// By the first of the two neighbours.
    Repeated(usize),
    /// By the two edges, the lower first.
    Crossing(usize, usize),
}

#[derive(Clone, Copy)]
struct Edge {
    start: Vertex,
    end: Vertex,
    low: Vertex,
    high: Vertex,
}

impl Edge {
    fn new(start: Vertex, end: Vertex) -> Edge {
        let low = Vertex { x: start.x.min(end.x), y: start.y.min(end.y) };
        let high = Vertex { x: start.x.max(end.x), y: start.y.max(end.y) };
        Edge { start, end, low, high }
    }

    /// On which side of this edge's line the point lies, by its sign.
    fn side_of(&self, point: Vertex) -> f64 {
        (self.end.x - self.start.x) * (point.y - self.start.y) - (self.end.y - self.start.y) * (point.x - self.start.x)
    }
}

impl Reading {
    /// Whether the two numbers differ by less than 1e-10.
    pub fn near(&self, a: f64, b: f64) -> bool {
        let distance = (a - b).abs();
        distance < 1e-10 || (self.makes(Mistake::NearAtLimit) && distance == 1e-10)
    }

    /// Whether the two vertices are near in both axes.
    pub fn near_vertices(&self, a: Vertex, b: Vertex) -> bool {
        self.near(a.x, b.x) && self.near(a.y, b.y)
    }

    /// The issue of a closed ring: short before repeated, and repeated before crossing.
    pub fn issue(&self, ring: &[Vertex], assume_simple: bool) -> Option<Issue> {
        let fewest = if self.makes(Mistake::FourBesidesClosing) { 5 } else { 4 };
        let short = (ring.len() < fewest).then_some(Issue::Short);
        let skips_repeats = assume_simple && self.makes(Mistake::SimpleSkipsRepeats);
        let repeated = || self.repeat(ring).filter(|_| !skips_repeats).map(Issue::Repeated);
        let crossing = || {
            let pair = if assume_simple { None } else { self.crossing_pair(ring) };
            pair.map(|(lower, higher)| Issue::Crossing(lower, higher))
        };
        if self.makes(Mistake::RepeatedBeforeShort) {
            return repeated().or(short).or_else(crossing);
        }
        if self.makes(Mistake::CrossingBeforeRepeated) {
            return short.or_else(crossing).or_else(repeated);
        }
        short.or_else(repeated).or_else(crossing)
    }

    /// The first of the earliest two neighbours that are near, the last segment excepted.
    fn repeat(&self, ring: &[Vertex]) -> Option<usize> {
        let excepted = if self.makes(Mistake::LastRepeatIsIssue) {
            0
        } else if self.makes(Mistake::ExceptsBeforeClosing) {
            2
        } else {
            1
        };
        let segments = ring.len().saturating_sub(1 + excepted);
        let mut repeats = ring.windows(2).take(segments).map(|ends| self.near_vertices(ends[0], ends[1]));
        if self.makes(Mistake::LastRepeatFound) {
            return repeats.rposition(|repeated| repeated);
        }
        repeats.position(|repeated| repeated)
    }

    /// The first by lower and then by higher number of the pairs of edges that cross.
    pub fn crossing_pair(&self, ring: &[Vertex]) -> Option<(usize, usize)> {
        let is_on_grid = |vertex: &Vertex| self.is_on_grid(vertex.x) && self.is_on_grid(vertex.y);
        if self.makes(Mistake::GridOfWholeRing) && !ring.iter().all(is_on_grid) {
            return Reading::ROUNDED.crossing_pair(ring);
        }
        if self.makes(Mistake::RoundedPairTold) {
            return Reading::RIGHT.crossing_pair(ring).and_then(|_| Reading::ROUNDED.crossing_pair(ring));
        }
        let edges: Vec<Edge> = ring.windows(2).map(|ends| Edge::new(ends[0], ends[1])).collect();
        if self.makes(Mistake::FirstHitOfSweep) && edges.len() > SCANNED {
            return self.swept_pairs(&edges).next();
        }
        if self.makes(Mistake::LowestLowerOfSweep) && edges.len() > SCANNED {
            return self.swept_pairs(&edges).min_by_key(|&(lower, _)| lower);
        }
        if self.makes(Mistake::HigherMajor) {
            return self.crossing_pairs(&edges).min_by_key(|&(lower, higher)| (higher, lower));
        }
        if self.makes(Mistake::LastCrossingFound) {
            return self.crossing_pairs(&edges).max();
        }
        if self.makes(Mistake::ClosingEdgeLast) {
            let before_closing = &edges[..edges.len().saturating_sub(1)];
            return self.first_pair(before_closing).or_else(|| self.first_pair(&edges));
        }
        self.first_pair(&edges)
    }

    /// The lowest edge that any other crosses is the lower of the first pair: none of those that cross it comes before it. The
    /// lowest of those is the higher.
    fn first_pair(&self, edges: &[Edge]) -> Option<(usize, usize)> {
        let lowest_across =
            |k: usize| (0..edges.len()).find(|&other| other != k && self.cross(&edges[k], &edges[other]));
        (0..edges.len()).find_map(|lower| Some((lower, lowest_across(lower)?)))
    }

    /// Every pair that crosses, the lower edge first.
    fn crossing_pairs<'a>(&'a self, edges: &'a [Edge]) -> impl Iterator<Item = (usize, usize)> + 'a {
        let pairs = (0..edges.len()).flat_map(move |higher| (0..higher).map(move |lower| (lower, higher)));
        pairs.filter(|&(lower, higher)| self.cross(&edges[lower], &edges[higher]))
    }

    /// The same, as they are met where edges are taken by their lowest x.
    fn swept_pairs<'a>(&'a self, edges: &'a [Edge]) -> impl Iterator<Item = (usize, usize)> + 'a {
        let mut order: Vec<usize> = (0..edges.len()).collect();
        order.sort_by(|&a, &b| edges[a].low.x.total_cmp(&edges[b].low.x));
        let places = (0..order.len()).flat_map(move |a| (a + 1..edges.len()).map(move |b| (a, b)));
        let pairs = places.map(move |(a, b)| (order[a].min(order[b]), order[a].max(order[b])));
        pairs.filter(|&(lower, higher)| self.cross(&edges[lower], &edges[higher]))
    }

    /// Whether the edges from `a[0]` to `a[1]` and from `b[0]` to `b[1]` cross.
    pub fn edges_cross(&self, a: [Vertex; 2], b: [Vertex; 2]) -> bool {
        self.cross(&Edge::new(a[0], a[1]), &Edge::new(b[0], b[1]))
    }

    /// By the rounded test, and where all their numbers are on the grid only if they share a point as well.
    fn cross(&self, a: &Edge, b: &Edge) -> bool {
        let (ends_of_a, ends_of_b) = ([a.start, a.end], [b.start, b.end]);
        if self.makes(Mistake::RoundedTestAlone) {
            return self.cross_rounded(a, b);
        }
        if self.makes(Mistake::ExactTestAlone) {
            return self.shares_point(ends_of_a, ends_of_b).unwrap_or_else(|| self.cross_rounded(a, b));
        }
        self.cross_rounded(a, b) && self.may_share_point(ends_of_a, ends_of_b)
    }

    /// Document 01's test.
    fn cross_rounded(&self, a: &Edge, b: &Edge) -> bool {
        let short = |edge: &Edge| !self.makes(Mistake::ShortEdgesCross) && self.near_vertices(edge.start, edge.end);
        !self.boxes_apart(a, b)
            && !short(a)
            && !short(b)
            && self.opposite(a.side_of(b.start), a.side_of(b.end))
            && self.opposite(b.side_of(a.start), b.side_of(a.end))
    }

    fn boxes_apart(&self, a: &Edge, b: &Edge) -> bool {
        if self.makes(Mistake::CrossesWithoutBoxes) {
            return false;
        }
        let touching_is_apart = self.makes(Mistake::TouchingBoxesApart);
        let below = |high: f64, low: f64| high < low || (touching_is_apart && high == low);
        below(a.high.x, b.low.x) || below(b.high.x, a.low.x) || below(a.high.y, b.low.y) || below(b.high.y, a.low.y)
    }

    fn opposite(&self, d: f64, e: f64) -> bool {
        if self.makes(Mistake::TouchingEdgesCross) {
            return (d >= 0.0 && e < 0.0) || (d <= 0.0 && e > 0.0);
        }
        (d > 0.0 && e < 0.0) || (d < 0.0 && e > 0.0)
    }
}
