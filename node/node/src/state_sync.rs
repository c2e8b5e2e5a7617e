//! State sync: a node that misses more final blocks than it is set to fetch, or blocks that its peers have pruned, takes the application's
//! state of its peers in their place.
//!
//! 1. It asks all others for a snapshot. What one offers is verified: a finalization of n - f members, blocks that are
//!    linked to it, of which the lowest binds the snapshot's manifest. So a member can offer an old snapshot, and no
//!    false one.
//! 2. Of those that were offered in a second it fetches the highest one, in [`pieces`], of all others at once. Each
//!    piece has the digest that the manifest says. Who sends another one, or none, is asked no more.
//! 3. The pieces are in a file, which is installed ([`installation`]) once the journal has a finalization that is no
//!    lower than the snapshot: so the journal, which stays as it is, is never behind the application.
//!
//! All the while the node votes. The blocks after the snapshot come as they do for any node that lags.

pub mod installation;
pub mod pieces;

use installation::Download;
use pieces::Pieces;
use simplex_view_state::{Digest, Participant, View};
use simplex_wire::Manifest;
use std::collections::BTreeSet;
use std::sync::Arc;
use std::time::{Duration, Instant};

/// How often others are asked for snapshots, until one has a good one.
pub const ASKED_EVERY: Duration = Duration::from_secs(2);
/// How long after the first good offer another one may be chosen, where not all members that are not faulty have offered one.
pub const CHOSEN_AFTER: Duration = Duration::from_secs(1);
/// How long blocks are not asked for while others are asked for snapshots.
pub const BLOCKS_WAIT: Duration = Duration::from_secs(10);
/// How long no piece may come before another snapshot is asked for.
pub const STALLED: Duration = Duration::from_secs(60);

/// A snapshot that a finalized block binds.
#[derive(Clone, Debug)]
pub struct Offer {
    /// The manifest of the snapshot.
    pub manifest: Arc<Manifest>,
    /// The manifest's digest.
    pub digest: Digest,
    /// The view of the finalization that vouches for it.
    pub finalized: View,
}

/// How far a node is with a snapshot.
#[derive(Debug, Default)]
pub enum StateSync {
    /// It needs none.
    #[default]
    Idle,
    /// Others are asked for snapshots.
    Asking {
        /// Since when.
        begun: Instant,
        /// Since when nobody had one, and that was not said.
        since: Instant,
        /// When they were asked last.
        asked: Option<Instant>,
        /// The highest one that is good, and when the first one came.
        best: Option<(Instant, Offer)>,
        /// Who offered one since others were asked last.
        offered: BTreeSet<Participant>,
        /// Who offered a good one.
        good: BTreeSet<Participant>,
        /// How many of them are enough.
        enough: usize,
    },
    /// Pieces are fetched.
    Fetching(Box<Fetch>),
    /// The application takes it.
    Restoring(Offer),
}

/// A snapshot whose pieces are fetched.
#[derive(Debug)]
pub struct Fetch {
    /// Which one.
    pub offer: Offer,
    /// Which pieces are asked of whom.
    pub pieces: Pieces,
    /// The file that they are in.
    pub download: Download,
    /// When a piece came last.
    pub grew: Instant,
}

impl StateSync {
    /// Begins to ask. Once so many members have offered good ones, the highest of them is chosen.
    pub fn begin(enough: usize) -> StateSync {
        StateSync::Asking {
            begun: Instant::now(),
            since: Instant::now(),
            asked: None,
            best: None,
            offered: BTreeSet::new(),
            good: BTreeSet::new(),
            enough,
        }
    }

    /// Takes a good offer of a member, where one is asked for. The highest one counts.
    pub fn offered(&mut self, from: Participant, offer: Offer) {
        let StateSync::Asking { best, good, .. } = self else { return };
        good.insert(from);
        match best {
            Some((_, other)) if other.manifest.height >= offer.manifest.height => {}
            Some((_, other)) => *other = offer,
            None => *best = Some((Instant::now(), offer)),
        }
    }

    /// The offer that is chosen now, if it is time, and who offered one.
    pub fn chosen(&self) -> Option<(Offer, BTreeSet<Participant>)> {
        match self {
            StateSync::Asking {
                best: Some((since, offer)),
                good,
                enough,
                ..
            } if since.elapsed() >= CHOSEN_AFTER || good.len() >= *enough => Some((offer.clone(), good.clone())),
            _ => None,
        }
    }

    /// Returns whether others are to be asked for snapshots now.
    pub fn is_to_ask(&mut self) -> bool {
        match self {
            StateSync::Asking { asked, offered, .. } if asked.is_none_or(|it| it.elapsed() >= ASKED_EVERY) => {
                *asked = Some(Instant::now());
                offered.clear();
                true
            }
            _ => false,
        }
    }

    /// Returns whether others were asked for so long in vain that it is to be said, which it is once in such a time.
    pub fn is_in_vain(&mut self) -> bool {
        match self {
            StateSync::Asking { since, best: None, .. } if since.elapsed() >= STALLED => {
                *since = Instant::now();
                true
            }
            _ => false,
        }
    }

    /// Returns whether a snapshot comes in place of the missing blocks, so that these are not asked for.
    pub fn spares_blocks(&self) -> bool {
        match self {
            StateSync::Idle => false,
            StateSync::Asking { begun, .. } => begun.elapsed() < BLOCKS_WAIT,
            StateSync::Fetching(_) | StateSync::Restoring(_) => true,
        }
    }

    /// Returns whether a member's offer is looked at: one of each, each time that they are asked.
    pub fn takes_offer_of(&mut self, from: Participant) -> bool {
        match self {
            StateSync::Asking { offered, .. } => offered.insert(from),
            _ => false,
        }
    }

    /// Returns whether the application takes a snapshot: until it has, no final block is passed on.
    pub fn is_restoring(&self) -> bool {
        matches!(self, StateSync::Restoring(_))
    }

    /// The fetch of this snapshot.
    pub fn fetch_of(&mut self, snapshot: &Digest) -> Option<&mut Fetch> {
        match self {
            StateSync::Fetching(it) if it.offer.digest == *snapshot => Some(it),
            _ => None,
        }
    }
}

/// Returns whether a node that misses so many final views takes a snapshot: `above` is its setting, and `pruned` of the
/// others, of which at most `faulty` lie, have pruned the next block.
pub fn is_wanted(above: Option<u64>, lacking: u64, pruned: usize, others: usize, faulty: usize) -> bool {
    above.is_some_and(|above| lacking > above || is_pruned(pruned, others, faulty))
}

/// Returns whether so many of the others have pruned a block that the rest may all be down, or lie, as at most `faulty` of them are.
pub fn is_pruned(pruned: usize, others: usize, faulty: usize) -> bool {
    others > 0 && pruned >= (others - faulty.min(others)).max(1)
}

/// Whom a fetch asks for what: a piece of this index.
pub type Ask = (Participant, u32);

#[cfg(test)]
mod tests {
    use super::*;

    fn offer(height: u64) -> Offer {
        let manifest = Manifest::of(height, View::new(height), Digest::default(), &[1]).expect("a piece");
        Offer {
            digest: manifest.digest(),
            manifest: Arc::new(manifest),
            finalized: View::new(height + 9),
        }
    }

    #[test]
    fn of_what_is_offered_the_highest_counts_after_a_while() {
        let mut it = StateSync::begin(3);
        assert!(!it.is_in_vain());
        assert!(it.is_to_ask() && !it.is_to_ask());
        let of = Participant::new;
        assert!(it.takes_offer_of(of(2)) && it.takes_offer_of(of(3)) && !it.takes_offer_of(of(2)));
        assert!(!StateSync::Idle.takes_offer_of(of(2)));
        for height in [20, 60, 40] {
            it.offered(of(2), offer(height));
        }
        assert!(it.chosen().is_none());
        let StateSync::Asking {
            best: Some((since, _)), ..
        } = &mut it
        else {
            panic!("{it:?}")
        };
        *since -= CHOSEN_AFTER;
        assert_eq!(it.chosen().map(|it| it.0.manifest.height), Some(60));
    }

    #[test]
    fn once_enough_members_have_offered_the_highest_is_chosen_at_once() {
        let (mut it, of) = (StateSync::begin(2), Participant::new);
        it.offered(of(2), offer(20));
        it.offered(of(2), offer(30));
        assert!(it.chosen().is_none());
        it.offered(of(0), offer(10));
        let chosen = it.chosen().map(|(it, by)| (it.manifest.height, by));
        assert_eq!(chosen, Some((30, [of(0), of(2)].into())));
    }

    #[test]
    fn a_snapshot_is_requested_where_too_much_is_missing_or_pruned() {
        assert!(!is_wanted(None, u64::MAX, 3, 3, 1), "no setting");
        assert!(!is_wanted(Some(100), 100, 1, 3, 1), "one may lie");
        assert!(is_wanted(Some(100), 101, 0, 3, 1));
        assert!(is_wanted(Some(100), 1, 2, 3, 1), "a faulty one never says so");
        assert!(!is_wanted(Some(100), 1, 0, 0, 0), "a member alone");
    }
}
