//! Section "Multipolygons".

use crate::polygon::{Bounds, Flags, Rectangle, Routed};
use crate::{Mistake, Reading, Vertex};

/// What becomes of a whole frame.
pub enum Whole {
    Nothing {
        guards: u16,
    },
    Dropped,
    Unchanged,
    /// Listed parts with their numbers.
    Listed {
        guards: u16,
        parts: Vec<(u16, Routed)>,
    },
}

impl Reading {
    /// A multipolygon whose rings are closed.
    pub fn multipolygon(&self, parts: &[Vec<Vec<Vertex>>], bounds: &Bounds, flags: Flags) -> Whole {
        let rings = self.all_rings(parts);
        match self.rectangle(&rings) {
            Rectangle::None => Whole::Nothing { guards: 0 },
            Rectangle::NotFinite if self.apart_before_finite(&rings, bounds) => Whole::Nothing { guards: 0 },
            Rectangle::NotFinite if self.makes(Mistake::DropsPartByPart) => self.part_by_part(parts, bounds, flags),
            Rectangle::NotFinite => Whole::Dropped,
            Rectangle::Numbers(whole) if self.apart(&whole, &bounds.buffered) => Whole::Nothing { guards: 0 },
            Rectangle::Numbers(whole) if whole.inside(&bounds.buffered) && !self.makes(Mistake::ListsWholeInside) => {
                Whole::Unchanged
            }
            Rectangle::Numbers(_) => self.part_by_part(parts, bounds, flags),
        }
    }

    /// Every ring of every part.
    fn all_rings(&self, parts: &[Vec<Vec<Vertex>>]) -> Vec<Vec<Vertex>> {
        match (self.makes(Mistake::RectangleOfExterior), self.makes(Mistake::FiniteByExterior)) {
            (false, false) => parts.concat(),
            // These two look at exteriors: one ring of all of them comes first.
            _ => {
                let exteriors = parts.iter().map(|part| part[0].clone()).collect::<Vec<_>>().concat();
                let holes = parts.iter().flat_map(|part| part[1..].to_vec());
                std::iter::once(exteriors).chain(holes).collect()
            }
        }
    }

    fn part_by_part(&self, parts: &[Vec<Vec<Vertex>>], bounds: &Bounds, flags: Flags) -> Whole {
        let mut guards = 0;
        let mut listed = Vec::new();
        let whole_too_large =
            self.makes(Mistake::RepresentableByWhole) && parts.iter().flatten().flatten().any(|&v| self.too_large(v));
        for (number, part) in (0..).zip(parts) {
            match self.part(part, bounds, flags) {
                Routed::Nothing => {}
                Routed::Dropped => guards += 1,
                Routed::Overlay(_) if whole_too_large => guards += 1,
                routed => {
                    let number = if self.makes(Mistake::NumbersByList) { listed.len() as u16 } else { number };
                    listed.push((number, routed));
                }
            }
        }
        if self.makes(Mistake::CountsGuardOnce) {
            guards = guards.min(1);
        }
        match (listed.is_empty(), guards) {
            (true, 1..) if self.makes(Mistake::ByteOneForDroppedParts) => Whole::Dropped,
            (true, _) => Whole::Nothing { guards },
            (false, _) => Whole::Listed { guards, parts: listed },
        }
    }

    /// Inside, a part is unchanged without a look at its issues; else it is as a polygon.
    fn part(&self, rings: &[Vec<Vertex>], bounds: &Bounds, flags: Flags) -> Routed {
        match self.rectangle(rings) {
            Rectangle::Numbers(rectangle)
                if rectangle.inside(&bounds.buffered) && !self.makes(Mistake::ChecksPartsInside) =>
            {
                Routed::Unchanged
            }
            _ => self.polygon(rings, bounds, flags),
        }
    }
}
