//! The finalized chain: its blocks go to the archive, and what is on the disk there to the application. Where blocks are missing, peers are
//! asked for them in ranges.

use super::Replica;
use crate::chain::{Entry, FinalChain, Tail};
use crate::settings::Outcome;
use crate::state_sync::is_pruned;
use simplex_view_state::{CertificateKind, Participant, Proposal, Subject, View};
use simplex_wire::{Message, Range};
use std::sync::atomic::Ordering::Relaxed;
use std::time::{Duration, Instant};
use tracing::{debug, error, info};

/// Behind by so many views a node asks for ranges at once, and by fewer once that has lasted for [`PATIENCE`].
const FAR: u64 = 64;
const PATIENCE: Duration = Duration::from_millis(200);
/// How many bytes of final blocks may wait for those below them and for the disk, before no more are asked for.
const MOST_WAITING: usize = 32 << 20;
/// The most bytes of final blocks that a lagging node stores; above that it drops them, since peers have them.
const MOST_BLOCKS: usize = 64 << 20;
/// How often it is logged how far behind the node is.
const LOGGED: Duration = Duration::from_secs(5);
/// How often it is logged that nobody has a block.
const LACK_LOGGED: Duration = Duration::from_secs(60);
/// After how long without a block all that was asked for is asked for again.
const STALLED: Duration = Duration::from_secs(15);
/// After how long without a block it is said that nobody who replies has the next one: another member may come back, or lies.
const LACKING: Duration = Duration::from_secs(5);

/// How far the node lags, and what was logged of it.
#[derive(Debug)]
pub(super) struct Lag {
    /// Since when blocks are missing, and after which view the first one was.
    since: Option<(Instant, View)>,
    /// When the chain grew last.
    grew: Instant,
    /// When all was asked for again.
    asked_anew: Instant,
    logged: Option<Instant>,
    lack_logged: Option<Instant>,
    is_told: bool,
}

impl Lag {
    pub(super) fn none() -> Lag {
        Lag {
            since: None,
            grew: Instant::now(),
            asked_anew: Instant::now(),
            logged: None,
            lack_logged: None,
            is_told: false,
        }
    }
}

fn is_due(last: &mut Option<Instant>, every: Duration) -> bool {
    let is_due = last.is_none_or(|it| it.elapsed() >= every);
    if is_due {
        *last = Some(Instant::now());
    }
    is_due
}

impl Replica {
    /// A proposal is final.
    pub(super) fn finalize(&mut self, proposal: &Proposal) -> Outcome {
        let certificate = self.parts.engine.certificate(CertificateKind::Finalization, proposal.view())?;
        self.chain.finalize(proposal, certificate, &self.parts.blocks)?;
        let target = self.chain.target();
        let ready: Vec<Range> = self.ahead.extract_if(.., |it| it.certificate.round().view <= target).collect();
        for range in ready {
            self.chain.add(range.certificate, range.blocks, &self.parts.blocks)?;
        }
        self.deliver()
    }

    /// Final blocks that a peer sends, verified. Where they end above the last finalized view they wait until the engine has the finalization
    /// that comes with them, and the journal has it: else the archive and the application would be ahead of the journal, which no start takes.
    pub(super) fn take_range(&mut self, range: Range) -> Outcome {
        let last = range.certificate.round().view;
        self.catch_up.arrived(range.after, last);
        if last > self.chain.target() {
            self.take_certificate(range.certificate.clone())?;
            if self.ahead.iter().all(|it| it.after != range.after) {
                self.ahead.push(range);
            }
            return Ok(());
        }
        self.chain.add(range.certificate, range.blocks, &self.parts.blocks)?;
        self.deliver()
    }

    /// A peer has no blocks behind a view: it has pruned them, where it names the first that it has.
    pub(super) fn take_no_range(&mut self, from: Participant, after: View, first: View) {
        debug!(
            peer = from.get(),
            after = after.get(),
            first = first.get(),
            "a member has no blocks after a view"
        );
        let now = self.parts.clock.now();
        self.catch_up.refused(from, after, first > View::GENESIS, now);
    }

    /// How many of the others have pruned the block after the chain's last one.
    pub(super) fn pruned(&self) -> usize {
        self.catch_up.pruned_by(self.chain.tail().view)
    }

    /// The chain continues after this block, which the application has by a snapshot: nothing is known of what follows but its last
    /// finalization.
    pub(super) fn begin_after(&mut self, tail: Tail) -> Outcome {
        self.parts.keeper.begin_after(tail);
        self.chain = FinalChain::new(tail);
        self.ahead.clear();
        self.catch_up.begin_anew();
        self.lag = Lag::none();
        let last = self.views()?.last_finalized;
        if let Some(it) = self.parts.engine.certificate(CertificateKind::Finalization, last)?
            && let Subject::Finalize(proposal) = it.subject()
        {
            self.chain.finalize(&proposal, Some(it), &self.parts.blocks)?;
        }
        self.pass((tail.view, tail.payload))?;
        self.deliver()
    }

    /// Passes final blocks to the archive, block on block, up to the first missing one.
    pub(super) fn deliver(&mut self) -> Outcome {
        // (while the application takes a snapshot, the chain is about to begin anew)
        let entries = if self.state_sync.is_restoring() {
            Vec::new()
        } else {
            self.chain.take(&self.parts.blocks)
        };
        if !entries.is_empty() {
            self.lag.grew = Instant::now();
            self.parts.keeper.append(entries);
        }
        let (hole, target) = (self.chain.hole(), self.chain.target());
        let asked = hole.filter(|_| !self.state_sync.spares_blocks());
        self.missing.deliver(asked, self.turns.leader(target), self.parts.clock.now());
        if self.parts.blocks.bytes() > MOST_BLOCKS && hole.is_some() {
            self.parts.blocks.forget(target)?;
        }
        Ok(())
    }

    /// These blocks are in the archive: the application takes them, and what was kept for them goes.
    pub(super) fn take_archived(&mut self, entries: Vec<Entry>) -> Outcome {
        let last = entries.last().map(|it| (it.block.view, it.block.payload()));
        self.parts.application.finalized(entries);
        self.parts.blocks.forget(self.parts.keeper.synced())?;
        last.map_or(Ok(()), |it| self.pass(it))
    }

    /// Asks for the blocks that are missing after the chain's last one, where it is far behind or has been for a while.
    pub(super) fn catch_up(&mut self) {
        let (tail, target) = (self.chain.tail(), self.chain.target());
        self.note_lag();
        let is_long = self.lag.since.is_some_and(|(since, _)| since.elapsed() > PATIENCE);
        let is_near = target.get() - tail.view.get() < FAR && !is_long;
        if self.chain.hole().is_none() || is_near || self.state_sync.spares_blocks() {
            self.parts.horizon.want_ranges(Default::default());
            return;
        }
        if self.lag.grew.max(self.lag.asked_anew).elapsed() > STALLED {
            self.lag.asked_anew = Instant::now();
            self.catch_up.begin_anew();
        }
        let is_full = self.chain.fetched_bytes() + self.parts.keeper.waiting() > MOST_WAITING;
        let asks = self.catch_up.due(tail.view, target, is_full, self.parts.clock.now());
        // (a reply may come before the last of them is sent)
        self.parts.horizon.want_ranges(self.catch_up.asked().collect());
        for ask in asks {
            self.parts.counters.ranges.fetch_add(1, Relaxed);
            debug!(
                peer = ask.of.get(),
                after = ask.after.get(),
                upto = ask.upto.get(),
                "final blocks are asked for"
            );
            self.parts.peers.send(ask.of, &Message::AskRange(ask.after, ask.upto));
        }
        self.note_lack();
    }

    /// Counts how far behind the archive is on the disk. Logs how far behind the node is, and when it has caught up.
    fn note_lag(&mut self) {
        let (tail, target) = (self.chain.tail(), self.chain.target());
        let views = target.get().saturating_sub(tail.view.get());
        let not_synced = target.get().saturating_sub(self.parts.keeper.synced().get());
        self.parts.counters.lag_views.store(not_synced, Relaxed);
        if self.chain.hole().is_none() {
            if let Some((since, first)) = self.lag.since.take().filter(|_| self.lag.is_told) {
                let milliseconds = since.elapsed().as_millis() as u64;
                info!(
                    from = first.get(),
                    upto = tail.view.get(),
                    milliseconds,
                    "caught up with the finalized chain"
                );
            }
            self.lag.is_told = false;
            self.parts.counters.missing_height.store(0, Relaxed);
            return;
        }
        self.lag.since.get_or_insert((Instant::now(), tail.view));
        if views >= FAR && is_due(&mut self.lag.logged, LOGGED) {
            self.lag.is_told = true;
            info!(views, height = tail.height, "behind the finalized chain: its blocks are asked for");
        }
    }

    /// Says which block nobody has, and what to do. A member that is down, or lies, does not say that it has pruned it: where so many did
    /// that the rest may all be such members, they are waited for a while.
    fn note_lack(&mut self) {
        let tail = self.chain.tail();
        let others = self.heard.len() - 1;
        let pruned = self.catch_up.pruned_by(tail.view);
        let stands = self.lag.since.map_or(Duration::ZERO, |it| it.0.max(self.lag.grew).elapsed());
        let is_nowhere = (others > 0 && pruned == others) || (stands > LACKING && is_pruned(pruned, others, others / 3));
        let height = if is_nowhere { tail.height + 1 } else { 0 };
        self.parts.counters.missing_height.store(height, Relaxed);
        if is_nowhere && self.parts.settings.state_sync.is_none() && is_due(&mut self.lag.lack_logged, LACK_LOGGED) {
            error!(
                height,
                after_view = tail.view.get(),
                "no other member that replies has the final block of this height any more: set `state_sync` and begin this node again, so \
                 that it takes the application's state of another one; and give the members a larger `most_bytes` in `[archive]`"
            );
        }
    }
}
