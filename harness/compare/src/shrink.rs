//! Makes a frame that shows a difference smaller while it still shows it.

use formats::frame::Frame;
use generator::Specimen;

/// Takes parts, rings and coordinates out one by one; a frame that can't be read stays as it is.
pub fn shrink(mut specimen: Specimen, differs: impl Fn(&Specimen) -> bool) -> Specimen {
    while let Some(smaller) = smaller(&specimen).into_iter().find(|smaller| differs(smaller)) {
        specimen = smaller;
    }
    specimen
}

/// Every frame that has one part, ring or coordinate less.
fn smaller(specimen: &Specimen) -> Vec<Specimen> {
    let Ok(frame) = Frame::decode(&specimen.frame) else {
        return Vec::new();
    };
    let mut frames = Vec::new();
    let mut keep = |change: &dyn Fn(&mut Frame)| {
        let mut changed = frame.clone();
        change(&mut changed);
        frames.push(Specimen { frame: changed.encode(), room: specimen.room });
    };
    for p in 0..frame.parts.len() {
        keep(&|frame| frame.parts.retain(other_than(p)));
        for r in 0..frame.parts[p].len() {
            keep(&|frame| frame.parts[p].retain(other_than(r)));
            for c in 0..frame.parts[p][r].len() {
                keep(&|frame| frame.parts[p][r].retain(other_than(c)));
            }
        }
    }
    frames
}

/// Holds for all but the element at `left_out`, asked in order.
fn other_than<T>(left_out: usize) -> impl FnMut(&T) -> bool {
    let mut next = 0;
    move |_| {
        next += 1;
        next - 1 != left_out
    }
}
