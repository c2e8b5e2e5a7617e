//! Builds that wait: until the least time since this node's last block is over, and in a handoff until the parent is certified.

use crate::settings::Turns;
use simplex_view_state::{Context, View};
use std::collections::BTreeMap;
use std::time::{Duration, Instant};

/// The builds that wait, and when the last one was made.
#[derive(Debug)]
pub struct Pace {
    least: Duration,
    handoff: Duration,
    turns: Turns,
    last: Option<Instant>,
    waiting: BTreeMap<View, Asked>,
}

/// A build that waits, and since when.
#[derive(Debug)]
struct Asked {
    context: Context,
    since: Instant,
}

impl Pace {
    /// No build waits, and none was made. Two blocks are built at least the first time apart. In a handoff, a build of a term's first view
    /// before that view is entered, the block on the parent is built only after the second time, or once the view is entered.
    pub fn new(least: Duration, handoff: Duration, turns: Turns) -> Pace {
        Pace {
            least,
            handoff,
            turns,
            last: None,
            waiting: BTreeMap::new(),
        }
    }

    /// A block is to be built in this context, in place of the one that waits in its view.
    pub fn ask(&mut self, context: Context, now: Instant) {
        self.waiting.insert(context.round.view, Asked { context, since: now });
    }

    /// No block is to be built in a view.
    pub fn stop(&mut self, view: View) {
        self.waiting.remove(&view);
    }

    /// No block is to be built below a view.
    pub fn forget(&mut self, lowest: View) {
        self.waiting = self.waiting.split_off(&lowest);
    }

    /// How long it is until a block is built, the lowest view first, where this view is the current one; `None` where none waits.
    pub fn wait(&self, now: Instant, current: View) -> Option<Duration> {
        let (view, asked) = self.waiting.first_key_value()?;
        let is_handoff = *view > current && self.turns.begins_term(*view);
        let paced = self.last.map_or(now, |last| last + self.least);
        let due = if is_handoff { paced.max(asked.since + self.handoff) } else { paced };
        Some(due.saturating_duration_since(now))
    }

    /// Returns the context of the block that is to be built now; `None` where none is due.
    pub fn due(&mut self, now: Instant, current: View) -> Option<Context> {
        if self.wait(now, current)? > Duration::ZERO {
            return None;
        }
        self.waiting.pop_first().map(|(_, asked)| asked.context)
    }

    /// A block was built.
    pub fn built(&mut self, now: Instant) {
        self.last = Some(now);
    }
}

#[cfg(test)]
mod tests {
    use super::*;
    use simplex_view_state::{Digest, Participant, Round};
    use std::num::NonZeroU32;

    const LEAST: Duration = Duration::from_millis(100);
    const HANDOFF: Duration = Duration::from_millis(30);
    /// A view above all that are built for here.
    const ENTERED: View = View::new(9);

    /// No build waits, in terms of three views.
    fn pace() -> Pace {
        let three = NonZeroU32::new(3).expect("not zero");
        Pace::new(LEAST, HANDOFF, Turns::new(three, three))
    }

    fn context(view: u64, parent: u64) -> Context {
        let view = View::new(view);
        Context {
            round: Round { view, ..Round::default() },
            leader: Participant::new(0),
            parent: View::new(parent),
            parent_payload: Digest::default(),
        }
    }

    #[test]
    fn the_first_block_is_built_at_once_and_each_later_one_after_the_least_time() {
        let (mut pace, start) = (pace(), Instant::now());
        assert_eq!((pace.wait(start, ENTERED), pace.due(start, ENTERED)), (None, None));
        pace.ask(context(1, 0), start);
        assert_eq!(pace.wait(start, ENTERED), Some(Duration::ZERO));
        assert_eq!(pace.due(start, ENTERED), Some(context(1, 0)));
        pace.built(start);
        pace.ask(context(6, 5), start);
        pace.ask(context(5, 4), start);
        let early = start + LEAST * 3 / 4;
        assert_eq!((pace.wait(early, ENTERED), pace.due(early, ENTERED)), (Some(LEAST / 4), None));
        assert_eq!(pace.due(start + LEAST, ENTERED), Some(context(5, 4)));
        pace.built(start + LEAST * 3 / 2);
        assert_eq!(
            pace.due(start + LEAST * 2, ENTERED),
            None,
            "it is counted from when the block was built"
        );
        assert_eq!(pace.due(start + 3 * LEAST, ENTERED), Some(context(6, 5)));
        assert_eq!(pace.wait(start + 3 * LEAST, ENTERED), None);
    }

    #[test]
    fn in_a_handoff_a_block_is_built_once_its_view_is_entered_or_the_time_is_over() {
        let (below, start) = (View::new(3), Instant::now());
        let mut pace = pace();
        pace.ask(context(4, 3), start);
        assert_eq!((pace.wait(start, below), pace.due(start, below)), (Some(HANDOFF), None));
        assert_eq!(pace.due(start, View::new(4)), Some(context(4, 3)), "its parent is certified");
        pace.ask(context(4, 3), start);
        assert_eq!(pace.due(start + HANDOFF, below), Some(context(4, 3)), "the time is over");
        pace.ask(context(5, 4), start);
        assert_eq!(
            pace.due(start, below),
            Some(context(5, 4)),
            "the leader of the term has its own parent"
        );
    }

    #[test]
    fn a_replaced_build_waits_from_then_on() {
        let (below, start) = (View::new(3), Instant::now());
        let mut pace = pace();
        pace.ask(context(4, 3), start);
        pace.ask(context(4, 2), start + HANDOFF / 2);
        assert_eq!(pace.due(start + HANDOFF, below), None);
        assert_eq!(pace.due(start + HANDOFF * 3 / 2, below), Some(context(4, 2)));
    }

    #[test]
    fn a_build_is_replaced_stopped_and_forgotten() {
        let (mut pace, start) = (pace(), Instant::now());
        (1..=3).for_each(|view| pace.ask(context(view, 0), start));
        pace.ask(context(3, 2), start);
        pace.stop(View::new(2));
        pace.forget(View::new(2));
        assert_eq!(pace.due(start, ENTERED), Some(context(3, 2)));
        assert_eq!(pace.due(start + LEAST, ENTERED), None);
    }
}
