//! Stand-in for `i_overlay`: it records the subject and the clip box of each call and answers one marked piece.
//!
//! The mark is a NaN payload that counts the calls. No cut can give it: a polygon with a NaN never gets as far as a cut,
//! and the NaN that arithmetic makes has no payload. So an overlay's piece is recognised wherever it ends up.

pub mod record;

pub mod core {
    pub mod fill_rule {
        pub enum FillRule {
            EvenOdd,
        }
    }

    pub mod overlay_rule {
        pub enum OverlayRule {
            Intersect,
        }
    }
}

pub mod float {
    pub mod clip {
        use crate::core::fill_rule::FillRule;
        use crate::record::Contour;
        use crate::string::clip::ClipRule;

        /// Clips lines, which the port leaves out.
        pub trait FloatClip {
            fn clip_by(&self, _clip: &Contour, _fill_rule: FillRule, _clip_rule: ClipRule) -> Vec<Contour> {
                unreachable!("lines are left out of the port")
            }
        }

        impl FloatClip for Vec<Contour> {}
    }

    pub mod overlay {
        use crate::core::fill_rule::FillRule;
        use crate::core::overlay_rule::OverlayRule;
        use crate::record::{record, OverlayCall, Shape};

        pub struct FloatOverlay {
            call: OverlayCall,
        }

        impl FloatOverlay {
            /// The two options are always the default ones; a unit stands in for each.
            pub fn with_subj_and_clip_custom(subject: &[Shape], clip: &[Shape], _options: (), _solver: ()) -> Self {
                let call = OverlayCall { subject: subject.to_vec(), clip: clip.to_vec() };
                Self { call }
            }

            pub fn overlay(&mut self, _rule: OverlayRule, _fill_rule: FillRule) -> Vec<Shape> {
                vec![vec![record(self.call.clone())]]
            }
        }
    }
}

pub mod string {
    pub mod clip {
        pub struct ClipRule {
            pub invert: bool,
            pub boundary_included: bool,
        }
    }
}
