//! Shows that what the generator makes tells a mistaken reading from the Rust, the single cuts of one from exact crossings, and the rings
//! that one mends from what the judge of these and the Rust take.

use std::fmt;
use std::sync::atomic::{AtomicU64, Ordering};

use generator::{CutKind, Kind, MendKind, Style};
use reading::{Mistake, Place, Reading};

use crate::calls::{ring_call, slice_call, styles};
use crate::campaign::{self, Campaign};
use crate::cuts::{self, crossing, judge};
use crate::frames;
use crate::mends;
use crate::passes::pass;

#[derive(Clone, Copy)]
enum Source {
    Frames(Kind),
    Lines,
    RingCalls(Style),
    SliceCalls(Style),
    Passes(Style),
    Cuts(CutKind),
    Mends(MendKind),
}

impl Source {
    fn place(self) -> Place {
        match self {
            Source::Frames(_) => Place::Frames,
            Source::Lines => Place::Lines,
            Source::RingCalls(_) => Place::RingCalls,
            Source::SliceCalls(_) => Place::SliceCalls,
            Source::Passes(_) => Place::Passes,
            Source::Cuts(_) => Place::Cuts,
            Source::Mends(_) => Place::Mends,
        }
    }
}

/// How often each mistake, in each place that it shows in, gave another answer than the Rust, or a crossing or a mended ring that is not as
/// it should be.
pub struct Search {
    campaign: Campaign,
    found: Vec<(Place, Mistake, u64)>,
}

/// Looks at `count` specimens of every kind for the mistakes that show in them; one found `enough` times is let be.
pub fn search(seed: u64, count: u64, enough: u64) -> Search {
    let found: Vec<(Place, Mistake, AtomicU64)> = Place::ALL
        .into_iter()
        .flat_map(|place| mistakes_in(place).map(move |mistake| (place, mistake, AtomicU64::new(0))))
        .collect();
    let campaign = campaign::run("mistakes", seed, count, &sources(), |source, index| {
        let mut looked_for = found
            .iter()
            .filter(|(place, _, times)| *place == source.place() && times.load(Ordering::Relaxed) < enough)
            .peekable();
        if looked_for.peek().is_none() {
            return Ok("passed over");
        }
        let differs = differs(source, seed, index);
        if differs(&Reading::RIGHT) {
            return Err(format!("in {:?}, the reading without a mistake is told from what is right", source.place()));
        }
        for (_, mistake, times) in looked_for {
            times.fetch_add(u64::from(differs(&Reading::with(*mistake))), Ordering::Relaxed);
        }
        Ok("looked at")
    });
    let found = found.into_iter().map(|(place, mistake, times)| (place, mistake, times.into_inner())).collect();
    Search { campaign, found }
}

fn mistakes_in(place: Place) -> impl Iterator<Item = Mistake> {
    Mistake::ALL.iter().copied().filter(move |mistake| mistake.places().contains(&place))
}

fn sources() -> Vec<(&'static str, Source)> {
    let mut sources: Vec<_> = frames::kinds().into_iter().map(|(name, kind)| (name, Source::Frames(kind))).collect();
    sources.push(("lines", Source::Lines));
    sources.extend(styles().into_iter().map(|(name, style)| (name, Source::RingCalls(style))));
    sources.extend(styles().into_iter().map(|(name, style)| (name, Source::SliceCalls(style))));
    sources.extend(styles().into_iter().map(|(name, style)| (name, Source::Passes(style))));
    sources.extend(cuts::kinds().into_iter().map(|(name, kind)| (name, Source::Cuts(kind))));
    sources.extend(mends::kinds().into_iter().map(|(name, kind)| (name, Source::Mends(kind))));
    sources
}

/// Whether a reading answers the specimen otherwise than the Rust, counts otherwise, or leaves lent slices otherwise; of a cut, whether
/// the crossing that it computes is not on the bound or not as near to the exact one as is proved, as it reckons that itself. Of a mended
/// ring the Rust says only whether a corner is still repeated; every other way in which it can be wrong is told by the judge, which doesn't
/// ask the reading.
fn differs(source: Source, seed: u64, index: u64) -> Box<dyn Fn(&Reading) -> bool> {
    match source {
        Source::Frames(kind) => {
            let specimen = generator::frame(kind, seed, index);
            let oracle = oracle::answer(&specimen.frame, specimen.room);
            Box::new(move |reading| reading.answer(&specimen.frame, specimen.room) != oracle)
        }
        Source::Lines => {
            let input = generator::lines(seed, index);
            let oracle = oracle::lines(&input);
            Box::new(move |reading| reading.lines(&input) != oracle)
        }
        Source::RingCalls(style) => {
            let call = generator::ring_call(style, seed, index);
            let oracle = call.after(&oracle::ring_call(&call));
            Box::new(move |reading| ring_call(reading, &call).difference(&oracle).is_some())
        }
        Source::SliceCalls(style) => {
            let call = generator::slice_call(style, seed, index);
            let oracle = call.after(&oracle::slice_call(&call));
            Box::new(move |reading| slice_call(reading, &call).difference(&oracle).is_some())
        }
        Source::Passes(style) => {
            let call = generator::pass(style, seed, index);
            let oracle = call.after(oracle::pass(&call).as_ref());
            Box::new(move |reading| pass(reading, &call).difference(&oracle).is_some())
        }
        Source::Cuts(kind) => {
            let cut = generator::cut(kind, seed, index);
            Box::new(move |reading| judge(reading, &cut, crossing(reading, &cut)).is_err())
        }
        Source::Mends(kind) => {
            let call = generator::mend(kind, seed, index);
            Box::new(move |reading| mends::broken(&call, &mends::mend(reading, &call)).is_some())
        }
    }
}

impl Search {
    /// The mistakes that nothing showed, each with the place where nothing did.
    pub fn not_found(&self) -> Vec<(Place, Mistake)> {
        self.found.iter().filter(|(_, _, times)| *times == 0).map(|(place, mistake, _)| (*place, *mistake)).collect()
    }

    /// What stopped the search early, if anything did.
    pub fn difference(&self) -> Option<&str> {
        self.campaign.difference()
    }
}

/// One line: how many were found, then those of each place with how often; and one more line for a difference.
impl fmt::Display for Search {
    fn fmt(&self, f: &mut fmt::Formatter) -> fmt::Result {
        let all = self.found.len();
        write!(f, "mistakes: {} of {all} found", all - self.not_found().len())?;
        for place in Place::ALL {
            let here = self.found.iter().filter(|(of, _, _)| *of == place);
            let counts: Vec<String> = here.map(|(_, mistake, times)| format!("{mistake:?} {times}")).collect();
            write!(f, "; {place:?}: {}", counts.join(", "))?;
        }
        match self.difference() {
            Some(difference) => write!(f, "\ndifference in mistakes: {difference}"),
            None => Ok(()),
        }
    }
}
