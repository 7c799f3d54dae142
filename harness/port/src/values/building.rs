//! Frames that are built, limits broken and not: what comes of each part, and the bytes.

use compare::campaign::{self, Campaign, Checked};
use compare::frames::refusal_label;
use formats::building::{Building, Built, Limits};
use generator::BuildingKind;

use super::Values;

/// `count` frames of each kind.
pub fn compare(values: Values, seed: u64, count: u64) -> Campaign {
    let kinds = BuildingKind::ALL.map(|kind| (kind.name(), kind));
    campaign::run("built frames", seed, count, &kinds, |kind, index| {
        check(values, &generator::building(kind, seed, index))
    })
}

/// One frame, counted by the first refusal of a part or of the whole.
pub fn check(values: Values, building: &Building) -> Checked {
    let built = (values.build_frame)(building);
    check_built(building, &built)?;
    let refusal = built.refused.into_iter().flatten().next().or(built.frame.err());
    Ok(refusal.map_or("built", refusal_label))
}

/// What came of a frame, held to what is documented.
pub fn check_built(building: &Building, built: &Built) -> Result<(), String> {
    let right = building.built(Limits::RIGHT);
    if *built == right {
        return Ok(());
    }
    Err(format!("{building}: {built:?}, which should be {right:?}"))
}
