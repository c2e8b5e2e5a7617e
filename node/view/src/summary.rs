//! The counts that a page shows.

use crate::events::Code;
use crate::facts::{Facts, Fate};
use crate::merge::Run;
use serde::Serialize;
use std::fmt;

/// The counts that a page shows.
#[derive(Clone, PartialEq, Debug, Serialize)]
pub struct Summary {
    /// The highest view that an event is of.
    pub views: u64,
    /// How many views have a block on the finalized chain.
    pub finalized: u64,
    /// How many are lost.
    pub lost: u64,
    /// How many events there are.
    pub events: u64,
    /// How many events the writers dropped.
    pub dropped: u64,
    /// From the first event to the last, in seconds.
    pub seconds: f64,
    /// Finalized views a second.
    pub views_a_second: f64,
    /// From build to final in milliseconds, at 50 and at 99 percent. Final is a block when any member reports it or a later one as final.
    pub latency: Option<(f64, f64)>,
    /// How many bytes all journals grew by.
    pub stored_bytes: u64,
    /// How many promises were broken.
    pub violations: u64,
}

impl Summary {
    /// Counts what a run shows.
    pub fn of(run: &Run, facts: &[Facts]) -> Summary {
        let (first, last) = (run.begun, run.events.last().map_or(run.begun, |it| it.at));
        let seconds = (last - first) as f64 / 1e6;
        let with = |fate| facts[1..].iter().filter(|it| it.fate == fate).count() as u64;
        let of = |code| run.events.iter().filter(move |it| it.code == code);
        let finalized = with(Fate::Finalized);
        Summary {
            views: facts.len() as u64 - 1,
            finalized,
            lost: with(Fate::Lost),
            events: run.count as u64,
            dropped: of(Code::Dropped).map(|it| it.value).sum(),
            seconds,
            views_a_second: if seconds > 0.0 { finalized as f64 / seconds } else { 0.0 },
            latency: latency(run, facts),
            stored_bytes: of(Code::Stored).chain(of(Code::Replaced)).map(|it| it.value).sum(),
            violations: of(Code::Violation).count() as u64,
        }
    }
}

/// From build to final, in milliseconds, at 50 and 99 percent; `None` where no build is seen.
fn latency(run: &Run, facts: &[Facts]) -> Option<(f64, f64)> {
    let mut taken = Vec::new();
    let mut next = 1;
    for seen in run.events.iter().filter(|it| it.code == Code::Finalized) {
        for it in facts.iter().take(seen.view as usize + 1).skip(next) {
            if let (Fate::Finalized, Some(built)) = (it.fate, it.built) {
                taken.push(seen.at.saturating_sub(built) as f64 / 1000.0);
            }
        }
        next = next.max(seen.view as usize + 1);
    }
    taken.sort_by(f64::total_cmp);
    let at = |share: usize| taken.get((taken.len() * share / 100).min(taken.len().saturating_sub(1))).copied();
    at(50).zip(at(99))
}

impl fmt::Display for Summary {
    fn fmt(&self, f: &mut fmt::Formatter<'_>) -> fmt::Result {
        write!(
            f,
            "{} views, {} finalized, {} lost, {} events",
            self.views, self.finalized, self.lost, self.events
        )
    }
}
