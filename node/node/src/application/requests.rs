//! Requests to the application about snapshots, for peers and for this node.

use super::Application;
use crate::faults::Trial;
use crate::state_sync::{Offer, installation};
use simplex_view_state::{Digest, Participant, View};
use simplex_wire::{Block, Manifest, Message};
use std::collections::{BTreeMap, VecDeque};
use std::io;
use std::path::PathBuf;
use std::time::{Duration, Instant};
use tracing::warn;

/// How many snapshots that blocks bound are offered, and their blocks' successors not pruned: who fetches the first has time.
const OFFERED: usize = 2;

/// How often a peer is offered a snapshot at most: the offer stays the same for long.
const OFFERED_EVERY: Duration = Duration::from_millis(500);

/// A request.
#[derive(Debug)]
pub enum Request {
    /// A peer asks for a snapshot.
    Snapshot(Participant),
    /// A peer asks for a piece of a snapshot.
    Piece(Participant, Digest, u32),
    /// True if a final block binds the snapshot that a peer offers.
    Check(Participant, Block, Offer),
    /// To take a snapshot, whose pieces all came.
    Restore(Offer),
}

impl Request {
    /// The peer that asks; `None` where this node does.
    pub fn peer(&self) -> Option<Participant> {
        match self {
            Request::Snapshot(of) | Request::Piece(of, ..) => Some(*of),
            Request::Check(..) | Request::Restore(_) => None,
        }
    }
}

/// A reply.
#[derive(Debug)]
pub enum Reply {
    /// A peer is to be offered this snapshot, which the final block of this view binds.
    Offer(Participant, Manifest, View),
    /// A peer is to be sent this.
    Send(Participant, Message),
    /// True if the snapshot that a peer offered is bound.
    Checked(Participant, Offer, bool),
    /// The application has the snapshot, or more than it.
    Restored(Offer),
}

/// The parts that replies need, beside the application.
#[derive(Debug, Default)]
pub struct Responder {
    folder: PathBuf,
    trial: Trial,
    /// The snapshots that final blocks bound: the digest, the block's view, and the height where it is here.
    bound: VecDeque<(Digest, View, Option<u64>)>,
    /// When each peer was offered one.
    offered: BTreeMap<Participant, Instant>,
}

impl Responder {
    /// Makes the responder of a node with this folder, in a trial.
    pub fn new(folder: PathBuf, trial: Trial) -> Responder {
        Responder {
            folder,
            trial,
            ..Responder::default()
        }
    }

    /// The application has taken a final block, which may bind a snapshot.
    pub fn note(&mut self, block: &Block, application: &mut impl Application) {
        let Some(bound) = application.bound(block).filter(|it| self.bound.iter().all(|other| other.0 != *it)) else {
            return;
        };
        let found = logged(application.manifest(&bound)).map(|it| it.height);
        self.bound.push_back((bound, block.view, found));
        self.bound.drain(..self.bound.len().saturating_sub(OFFERED));
    }

    /// Above which height peers need blocks that take the snapshots which are offered.
    pub fn needed_above(&self) -> u64 {
        self.bound.iter().filter_map(|it| it.2).min().unwrap_or(u64::MAX)
    }

    /// The reply to a request; none where there is nothing to say.
    ///
    /// # Errors
    ///
    /// Where the application can't take a snapshot.
    pub fn reply(&mut self, request: Request, application: &mut impl Application) -> io::Result<Option<Reply>> {
        Ok(match request {
            Request::Snapshot(of) if self.offered.get(&of).is_some_and(|it| it.elapsed() < OFFERED_EVERY) => None,
            Request::Snapshot(of) => {
                self.offered.insert(of, Instant::now());
                self.offer(application).map(|(manifest, view)| Reply::Offer(of, manifest, view))
            }
            Request::Piece(of, bound, index) => {
                let message = match logged(application.piece(&bound, index)) {
                    Some(bytes) => Message::Piece(bound, index, bytes),
                    None => Message::NoPiece(bound, index),
                };
                Some(Reply::Send(of, message))
            }
            Request::Check(from, block, offer) => {
                let is_bound = application.bound(&block) == Some(offer.digest) && offer.manifest.view < block.view;
                Some(Reply::Checked(from, offer, is_bound))
            }
            Request::Restore(offer) => {
                if application.height() < offer.manifest.height {
                    installation::install(&self.folder, &offer.manifest, application, &self.trial)?;
                }
                Some(Reply::Restored(offer))
            }
        })
    }

    /// The latest snapshot that is here, and the view of the final block that binds it.
    fn offer(&self, application: &mut impl Application) -> Option<(Manifest, View)> {
        self.bound
            .iter()
            .rev()
            .find_map(|(bound, view, _)| Some((logged(application.manifest(bound))?, *view)))
    }
}

/// Returns the application's result. An error is no reason to end: peers ask others.
fn logged<T>(found: io::Result<Option<T>>) -> Option<T> {
    found.unwrap_or_else(|error| {
        warn!(%error, "a snapshot can't be read");
        None
    })
}

#[cfg(test)]
mod tests {
    use super::*;
    use crate::application::{Ancestors, Cancelled};
    use simplex_view_state::{Context, Epoch, Round};
    use std::sync::Arc;

    /// An application whose blocks bind the snapshot of the height that their only byte says. It has those of even heights.
    struct Bound;

    fn manifest(height: u64) -> Manifest {
        Manifest::of(height, View::new(height), Digest::default(), &[7; 9]).expect("a piece")
    }

    fn block(view: u64, height: u8) -> Block {
        let round = Round {
            epoch: Epoch::new(1),
            view: View::new(view),
        };
        let context = Context {
            round,
            leader: Participant::new(0),
            parent: View::GENESIS,
            parent_payload: Digest::default(),
        };
        Block::new(&context, &[height])
    }

    impl Application for Bound {
        fn build(&mut self, _: &Context, _: &Ancestors, _: &Cancelled) -> Option<Vec<u8>> {
            None
        }
        fn verify(&mut self, _: &Block, _: &Ancestors, _: &Cancelled) -> Option<bool> {
            None
        }
        fn certify(&mut self, _: &Block, _: &Ancestors, _: &Cancelled) -> Option<bool> {
            None
        }
        fn finalized(&mut self, _: &Block) -> io::Result<()> {
            Ok(())
        }
        fn last(&self) -> (View, Digest) {
            Default::default()
        }
        fn height(&self) -> u64 {
            0
        }
        fn durable(&mut self) -> io::Result<u64> {
            Ok(0)
        }
        fn bound(&self, block: &Block) -> Option<Digest> {
            block
                .content()
                .first()
                .filter(|it| **it > 0)
                .map(|it| manifest(u64::from(*it)).digest())
        }
        fn manifest(&mut self, bound: &Digest) -> io::Result<Option<Manifest>> {
            Ok((2..100).step_by(2).map(manifest).find(|it| it.digest() == *bound))
        }
        fn piece(&mut self, _: &Digest, index: u32) -> io::Result<Option<Vec<u8>>> {
            if index == 1 {
                Err(io::Error::other("a disk"))
            } else {
                Ok((index == 0).then(|| vec![7; 9]))
            }
        }
    }

    fn offered(responder: &mut Responder) -> Option<(u64, u64)> {
        responder.offered.clear();
        match responder
            .reply(Request::Snapshot(Participant::new(2)), &mut Bound)
            .expect("it serves")
        {
            Some(Reply::Offer(_, manifest, view)) => Some((manifest.height, view.get())),
            other => {
                assert!(other.is_none());
                None
            }
        }
    }

    #[test]
    fn the_latest_snapshot_is_offered_and_the_blocks_after_the_last_two_are_needed() {
        let mut responder = Responder::default();
        assert_eq!((offered(&mut responder), responder.needed_above()), (None, u64::MAX));
        let mut seen = Vec::new();
        for (view, height) in [(10, 4), (11, 4), (12, 0), (20, 8), (30, 12), (40, 13)] {
            responder.note(&block(view, height), &mut Bound);
            seen.push((offered(&mut responder), responder.needed_above()));
        }
        let first = (Some((4, 10)), 4);
        assert_eq!(seen[..3], [first, first, first]);
        assert_eq!(seen[3..], [(Some((8, 20)), 4), (Some((12, 30)), 8), (Some((12, 30)), 12)]);
    }

    #[test]
    fn a_peer_that_asks_without_end_is_offered_a_snapshot_now_and_then() {
        let mut responder = Responder::default();
        responder.note(&block(10, 4), &mut Bound);
        let mut offers = |of| {
            let reply = responder.reply(Request::Snapshot(Participant::new(of)), &mut Bound);
            reply.expect("it serves").is_some()
        };
        assert!(offers(2) && offers(3));
        assert!(!(0..100).any(|_| offers(2)));
    }

    #[test]
    fn a_piece_that_is_not_here_or_can_not_be_read_is_refused() {
        let of = Participant::new(2);
        let reply = |index| {
            let reply = Responder::default().reply(Request::Piece(of, Digest::default(), index), &mut Bound);
            match reply.expect("it serves") {
                Some(Reply::Send(to, message)) if to == of => message,
                other => panic!("{other:?}"),
            }
        };
        assert_eq!(reply(0), Message::Piece(Digest::default(), 0, vec![7; 9]));
        assert_eq!(reply(1), Message::NoPiece(Digest::default(), 1));
        assert_eq!(reply(2), Message::NoPiece(Digest::default(), 2));
    }

    #[test]
    fn an_offer_is_good_where_a_later_block_binds_it() {
        let is_good = |height: u64, block: Block| {
            let manifest = manifest(height);
            let offer = Offer {
                digest: manifest.digest(),
                manifest: Arc::new(manifest),
                finalized: block.view,
            };
            let reply = Responder::default().reply(Request::Check(Participant::new(2), block, offer), &mut Bound);
            matches!(reply, Ok(Some(Reply::Checked(_, _, true))))
        };
        assert!(is_good(4, block(9, 4)));
        assert!(!is_good(4, block(9, 6)) && !is_good(4, block(9, 0)));
        assert!(!is_good(4, block(4, 4)), "a block can't bind what follows from it");
    }
}
