//! The counters of each turn.

use super::Replica;
use crate::faults::Fault;
use crate::metrics::resident_kb;
use crate::settings::Outcome;
use std::collections::BTreeMap;
use std::sync::atomic::{AtomicU64, Ordering::Relaxed};
use std::time::{Duration, Instant};
use tracing::info;

/// How far a clock jumps in a trial.
const AN_HOUR: Duration = Duration::from_secs(3600);

/// The most views whose beginnings are stored.
const MOST_VIEWS: usize = 256;

/// When the views that are not finalized began here.
#[derive(Debug, Default)]
pub(super) struct Begun {
    views: BTreeMap<u64, Instant>,
}

impl Begun {
    /// These are the views now. Returns how long the view took that has ended, and the one that is finalized, if one has and is.
    fn moved(&mut self, current: u64, finalized: u64, now: Instant) -> (Option<Duration>, Option<Duration>) {
        let since = |begun: &Instant| now.saturating_duration_since(*begun);
        let last = self
            .views
            .last_key_value()
            .filter(|(view, _)| **view < current)
            .map(|(_, begun)| since(begun));
        self.views.entry(current).or_insert(now);
        let is_final = self.views.get(&finalized).map(since);
        self.views = self.views.split_off(&(finalized + 1));
        while self.views.len() > MOST_VIEWS {
            self.views.pop_first();
        }
        (last, is_final)
    }
}

impl Replica {
    /// Counts the time since a moment. The lifetime is counted first: so a reader, who reads it last, finds no share above the whole.
    pub(super) fn spent(&self, on: &AtomicU64, since: Instant) {
        let spent = since.elapsed().as_micros() as u64;
        self.parts
            .counters
            .life_us
            .store(self.parts.clock.life().as_micros() as u64, Relaxed);
        on.fetch_add(spent, Relaxed);
    }

    /// Counts what a turn has changed, and looks for what a trial changes.
    pub(super) fn tell(&mut self) -> Outcome {
        let (views, counters) = (self.views()?, &self.parts.counters);
        counters.life_us.store(self.parts.clock.life().as_micros() as u64, Relaxed);
        if counters.life_us.load(Relaxed) / 1_000_000 != self.told_at {
            self.told_at = counters.life_us.load(Relaxed) / 1_000_000;
            counters.resident_kb.store(resident_kb(), Relaxed);
            // Each open fetch is a call, and of a node that is far behind there may be many.
            let fetches = self.parts.engine.fetches().len() + self.missing.len();
            counters.open_fetches.store(fetches as u64, Relaxed);
            for (index, heard) in (0..).zip(&self.heard).filter(|it| it.0 != self.parts.keys.me.get()) {
                counters.durations.silence(index, heard.elapsed().as_secs_f64());
            }
        }
        let (ended, finalized) = self.begun.moved(views.current.get(), views.last_finalized.get(), Instant::now());
        ended.iter().for_each(|it| counters.durations.view(it.as_secs_f64()));
        finalized.iter().for_each(|it| counters.durations.finality(it.as_secs_f64()));
        counters.current_view.store(views.current.get(), Relaxed);
        counters.last_finalized.store(views.last_finalized.get(), Relaxed);
        counters.journal_bytes.store(self.parts.journal.bytes(), Relaxed);
        counters.record_entries.store(self.parts.journal.entries(), Relaxed);
        counters.signatures.store(self.parts.keys.verified(), Relaxed);
        counters.ignored_inputs.store(self.parts.engine.ignored(), Relaxed);
        if self.parts.settings.trial.fault == Some(Fault::Jumps) && self.parts.clock.jump(AN_HOUR, views.current.get()) {
            info!(view = views.current.get(), "the clock jumps");
        }
        if self.parts.settings.trial.cut.is_some() {
            let cuts = self.parts.settings.trial.cuts();
            self.parts.peers.cut(cuts);
        }
        Ok(())
    }
}

#[cfg(test)]
mod tests {
    use super::*;

    #[test]
    fn views_are_timed_from_their_begin_to_their_end_and_to_their_finalization() {
        let (mut begun, start) = (Begun::default(), Instant::now());
        let at = |milliseconds| start + Duration::from_millis(milliseconds);
        let took = |milliseconds| Some(Duration::from_millis(milliseconds));
        assert_eq!(begun.moved(1, 0, at(0)), (None, None));
        assert_eq!(begun.moved(1, 0, at(5)), (None, None));
        assert_eq!(begun.moved(2, 0, at(10)), (took(10), None));
        assert_eq!(begun.moved(3, 1, at(30)), (took(20), took(30)));
        assert_eq!(begun.moved(3, 2, at(35)), (None, took(25)));
        for view in 4..1000 {
            begun.moved(view, 2, at(40));
        }
        assert_eq!(begun.views.len(), MOST_VIEWS);
    }
}
