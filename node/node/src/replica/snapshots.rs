//! State sync: what this node asks of snapshots, and what it serves.

use super::Replica;
use crate::application::requests::{Reply, Request};
use crate::chain::Tail;
use crate::peers::WantedSnapshot;
use crate::settings::Outcome;
use crate::state_sync::installation::Download;
use crate::state_sync::pieces::Pieces;
use crate::state_sync::{Fetch, Offer, STALLED, StateSync, is_wanted};
use simplex_view_state::{Digest, Participant};
use simplex_wire::{Manifest, Message, Range};
use std::collections::BTreeSet;
use std::sync::Arc;
use std::sync::atomic::Ordering::Relaxed;
use std::time::Instant;
use tracing::{error, info, warn};

impl Replica {
    /// Has the application asked what a peer asks, as far as the peer's share of this node goes.
    pub(super) fn ask_for_peer(&mut self, request: Request) -> Outcome {
        if request.peer().is_some_and(|it| self.parts.peers.may_serve(it)) {
            self.parts.application.request(request);
        }
        Ok(())
    }

    /// Takes a reply of the application about snapshots.
    pub(super) fn take_reply(&mut self, reply: Reply) -> Outcome {
        match reply {
            Reply::Offer(to, manifest, view) => self.parts.keeper.offer(to, manifest, view),
            Reply::Send(to, message) => {
                self.parts.peers.serve(to, &message);
            }
            Reply::Checked(from, offer, is_bound) => self.take_checked(from, offer, is_bound),
            Reply::Restored(offer) => self.take_restored(&offer)?,
        }
        Ok(())
    }

    /// Continues with a snapshot, where one is needed.
    pub(super) fn sync_state(&mut self) -> Outcome {
        match &self.state_sync {
            StateSync::Idle => self.begin_state_sync(),
            StateSync::Asking { .. } => self.ask_for_snapshots()?,
            StateSync::Fetching(_) => self.fetch_pieces()?,
            StateSync::Restoring(_) => {}
        }
        Ok(())
    }

    fn begin_state_sync(&mut self) {
        let above = self.parts.settings.state_sync;
        if above.is_none() || self.chain.hole().is_none() {
            return;
        }
        let lacking = self.chain.target().get().saturating_sub(self.chain.tail().view.get());
        let others = self.heard.len() - 1;
        if is_wanted(above, lacking, self.pruned(), others, others / 3) {
            info!(views = lacking, "a snapshot is asked for in place of the missing final blocks");
            self.ask_anew();
        }
    }

    /// Asks for offers of snapshots. Those of all members but as many as may be faulty are enough.
    fn ask_anew(&mut self) {
        let others = self.heard.len() - 1;
        self.state_sync = StateSync::begin((others - others / 3).max(1));
        self.parts.horizon.want_snapshot(WantedSnapshot::Offers);
    }

    /// Asks all others, until a good offer was chosen.
    fn ask_for_snapshots(&mut self) -> Outcome {
        if let Some((offer, by)) = self.state_sync.chosen() {
            return self.begin_fetch(offer, &by);
        }
        if self.chain.hole().is_none() {
            self.end_state_sync("all blocks came meanwhile");
        } else if self.state_sync.is_to_ask() {
            self.parts.peers.send_to_all(&Message::AskSnapshot);
        }
        if self.state_sync.is_in_vain() {
            let height = self.chain.tail().height;
            error!(
                height,
                "no other member offers a snapshot of a higher block: see whether they run, and `snapshot_blocks` of `[protocol]`"
            );
        }
        Ok(())
    }

    /// A snapshot that a peer offers: its certificate is good, and its blocks are linked to it.
    pub(super) fn take_snapshot(&mut self, from: Participant, manifest: Manifest, range: Range) -> Outcome {
        let is_higher = manifest.height > self.chain.tail().height;
        if let Some(block) = range.blocks.last()
            && is_higher
            && self.state_sync.takes_offer_of(from)
        {
            let offer = Offer {
                digest: manifest.digest(),
                manifest: Arc::new(manifest),
                finalized: range.certificate.round().view,
            };
            self.parts.application.request(Request::Check(from, block.clone(), offer));
            self.take_certificate(range.certificate)?;
        }
        Ok(())
    }

    fn take_checked(&mut self, from: Participant, offer: Offer, is_bound: bool) {
        if is_bound {
            self.state_sync.offered(from, offer);
        } else {
            warn!(peer = from.get(), "a member offers a snapshot that its block does not bind");
        }
    }

    fn begin_fetch(&mut self, offer: Offer, by: &BTreeSet<Participant>) -> Outcome {
        let (height, bytes, count) = (offer.manifest.height, offer.manifest.length, offer.manifest.pieces.len() as u32);
        info!(height, bytes, "a snapshot is fetched");
        let fetch = Fetch {
            download: Download::begin(&self.parts.settings.data, &offer.manifest)?,
            pieces: Pieces::new(self.parts.settings.me(), self.heard.len() as u32, count, by),
            offer,
            grew: Instant::now(),
        };
        self.state_sync = StateSync::Fetching(Box::new(fetch));
        Ok(())
    }

    /// Asks for the pieces whose turn it is. Where all are here, the application takes them once the journal has the finalization.
    fn fetch_pieces(&mut self) -> Outcome {
        let now = self.parts.clock.now();
        let StateSync::Fetching(fetch) = &mut self.state_sync else {
            return Ok(());
        };
        if self.chain.tail().height >= fetch.offer.manifest.height {
            self.end_state_sync("the blocks came meanwhile");
            return Ok(());
        }
        if fetch.pieces.is_hopeless() || fetch.grew.elapsed() > STALLED {
            warn!(
                height = fetch.offer.manifest.height,
                "nobody sends the rest of a snapshot: another one is asked for"
            );
            self.ask_anew();
            return Ok(());
        }
        let asks = fetch.pieces.due(now);
        let (digest, asked) = (fetch.offer.digest, fetch.pieces.asked().collect());
        let wanted = WantedSnapshot::Pieces(fetch.offer.manifest.clone(), digest, asked);
        let (is_complete, offer) = (fetch.pieces.is_complete(), fetch.offer.clone());
        self.parts.horizon.want_snapshot(wanted);
        for (of, index) in asks {
            self.parts.peers.send(of, &Message::AskPiece(digest, index));
        }
        let is_journaled = self.views()?.last_finalized >= offer.finalized && !self.parts.journal.is_dirty();
        if is_complete && is_journaled {
            self.parts.application.request(Request::Restore(offer.clone()));
            self.state_sync = StateSync::Restoring(offer);
            self.parts.horizon.want_snapshot(WantedSnapshot::None);
        }
        Ok(())
    }

    /// A piece that the manifest names.
    pub(super) fn take_piece(&mut self, snapshot: Digest, index: u32, bytes: &[u8]) -> Outcome {
        if let Some(fetch) = self.state_sync.fetch_of(&snapshot)
            && fetch.pieces.arrived(index)
        {
            fetch.download.write(index, bytes)?;
            fetch.grew = Instant::now();
            self.parts.counters.snapshot_pieces.fetch_add(1, Relaxed);
        }
        Ok(())
    }

    /// A peer has not the piece, or sent another one.
    pub(super) fn take_no_piece(&mut self, from: Participant, snapshot: Digest, index: u32) -> Outcome {
        if let Some(fetch) = self.state_sync.fetch_of(&snapshot) {
            fetch.pieces.refused(from, index);
        }
        Ok(())
    }

    /// The application has the snapshot: the chain and the archive continue after it.
    fn take_restored(&mut self, offer: &Offer) -> Outcome {
        let (height, view, payload) = (offer.manifest.height, offer.manifest.view, offer.manifest.payload);
        info!(height, view = view.get(), "the application took a snapshot of its peers");
        self.parts.counters.state_syncs.fetch_add(1, Relaxed);
        self.end_state_sync("it is done");
        self.begin_after(Tail { height, view, payload })
    }

    fn end_state_sync(&mut self, why: &str) {
        info!(why, "no snapshot is asked for any more");
        self.state_sync = StateSync::Idle;
        self.parts.horizon.want_snapshot(WantedSnapshot::None);
    }
}
