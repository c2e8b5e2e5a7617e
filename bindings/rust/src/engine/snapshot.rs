//! The part of an engine that other threads may read.

use super::Engine;
use crate::member::Views;
use crate::numbers::{Moment, Participant, View};

/// A copy of an engine's views and of the range of views whose messages it takes, at one moment.
///
/// The thread that calls the engine takes one after each turn ([`Engine::snapshot`]), and shares it with the threads that read from peers.
/// So these verify no message that the engine would ignore. The lowest retained view and the highest view that takes votes never fall, so
/// an older snapshot refuses nothing that a later one admits, but for views that have come into reach since.
///
/// ```
/// use simplex_view_state::{Config, Digest, Engine, Epoch, Moment, Namespace, Options, Participant, View};
///
/// let config = Config::new(Namespace::new([1; 32]), 4.try_into()?, Some(Participant::new(3)), Epoch::new(1), Digest::default());
/// let engine = Engine::start(&config, &Options::default(), Moment::from_millis(0))?;
/// let snapshot = engine.snapshot().expect("it has not failed");
/// let reader = std::thread::spawn(move || snapshot.admits_vote(View::new(2)));
/// assert!(reader.join().expect("it has ended"));
/// # Ok::<(), Box<dyn std::error::Error>>(())
/// ```
#[derive(Clone, Copy, PartialEq, Eq, Debug)]
pub struct Snapshot {
    /// The current view, the last finalized one and the lowest retained one.
    pub views: Views,
    /// The leader of the current view, once it is known.
    pub leader: Option<Participant>,
    /// The highest view that takes votes: the next term's start.
    pub highest_vote: View,
    /// The moment at which the engine is polled if no input comes before.
    pub wake: Moment,
    /// The number of inputs that were ignored.
    pub ignored: u64,
    /// The number of outstanding fetches.
    pub fetches: u64,
}

impl Snapshot {
    /// Returns what [`Engine::admits_vote`] returned when the snapshot was taken.
    pub fn admits_vote(&self, view: View) -> bool {
        self.admits_certificate(view) && view <= self.highest_vote
    }

    /// Returns what [`Engine::admits_certificate`] returned when the snapshot was taken.
    pub fn admits_certificate(&self, view: View) -> bool {
        view != View::GENESIS && self.views.min_active <= view
    }
}

impl Engine {
    /// Returns a copy of the engine's views that other threads may read; `None` once the engine has failed.
    pub fn snapshot(&self) -> Option<Snapshot> {
        let (views, status) = (self.views()?, self.status());
        Some(Snapshot {
            views,
            leader: self.leader(views.current),
            highest_vote: highest(views.current, |view| self.admits_vote(view)),
            wake: Moment::from_millis(status.wake),
            ignored: status.ignored,
            fetches: status.fetches,
        })
    }
}

/// Returns the highest view that is admitted. All from one that is admitted up to it are, and none above it.
fn highest(admitted: View, admits: impl Fn(View) -> bool) -> View {
    let (mut low, mut step) = (admitted.get(), 1);
    while let Some(next) = low.checked_add(step).filter(|next| admits(View::new(*next))) {
        low = next;
        step = step.saturating_mul(2);
    }
    while step > 0 {
        if let Some(next) = low.checked_add(step).filter(|next| admits(View::new(*next))) {
            low = next;
        }
        step /= 2;
    }
    View::new(low)
}

#[cfg(test)]
mod tests {
    use super::{Snapshot, highest};
    use crate::numbers::View;

    #[test]
    fn the_highest_admitted_view_is_found() {
        for end in (0..200).chain([1 << 40, u64::MAX - 1, u64::MAX]) {
            for begin in [0, 1, end / 2, end].into_iter().filter(|begin| *begin <= end) {
                assert_eq!(
                    highest(View::new(begin), |view| view.get() <= end),
                    View::new(end),
                    "from {begin} to {end}"
                );
            }
        }
    }

    #[test]
    fn threads_may_share_a_snapshot() {
        fn shared<T: Send + Sync>() {}
        shared::<Snapshot>();
    }
}
