//! The one thread that owns the engine: it passes events to it as they come, and carries out its outputs.
//!
//! A turn passes all events that wait, and polls until nothing follows: new entries go to the journal, and what others see and comes
//! behind that waits, and what the application is asked goes to its thread. Then the disk is waited for, once for all of that, and what
//! waits leaves, in order. A disk or an engine that fails ends the process; what was not stored was not sent.

mod blocks;
mod broadcasts;
mod counts;
mod far;
mod faulty;
mod finality;
mod requests;
mod snapshots;
mod votes;

use crate::application::requests::Request;
use crate::application::worker::{Answer, Kind, REPLY_WITHIN, Worker};
use crate::archive::keeper::Keeper;
use crate::blocks::Blocks;
use crate::chain::{FinalChain, Tail};
use crate::clock::Clock;
use crate::crypto::Keys;
use crate::events::Events;
use crate::evidence::Collected;
use crate::faults::Fault;
use crate::inbox::{Event, Inbox};
use crate::leader_votes::LeaderVotes;
use crate::metrics::Counters;
use crate::missing_blocks::MissingBlocks;
use crate::pace::Pace;
use crate::peers::{Horizon, Peers};
use crate::settings::{Outcome, Settings, Turns};
use crate::state_sync::StateSync;
use crate::trace::Trace;
use broadcasts::Held;
use counts::Begun;
use far::Far;
use finality::Lag;
use simplex_chain::CatchUp;
use simplex_journal::Journal;
use simplex_view_state::{
    CertificateKind, Context, Digest, Engine, EngineError, Input, Output, Participant, Proposal, Subject, TimeoutReason, View, Views, Vote,
};
use simplex_wire::{Block, Message, Range};
use std::collections::{BTreeMap, BTreeSet};
use std::sync::Arc;
use std::sync::atomic::Ordering::Relaxed;
use std::time::{Duration, Instant};
use tracing::info;

/// How many events a turn takes.
const MOST_EVENTS: usize = 256;
/// How long a turn waits at most: absent leaders and slow peers are looked for so often.
const LONGEST_WAIT: Duration = Duration::from_millis(50);
/// How often a turn continues with what follows, before events are taken again.
const MOST_ROUNDS: usize = 32;
/// How many views ahead of the current one a proposal may come: so early the engine keeps it.
const EARLY_VIEWS: u64 = 8;
/// The parts of a replica.
pub struct Parts {
    /// The settings.
    pub settings: Settings,
    /// The keys.
    pub keys: Arc<Keys>,
    /// The state that reading threads need.
    pub horizon: Arc<Horizon>,
    /// The counters.
    pub counters: Arc<Counters>,
    /// The other members.
    pub peers: Arc<Peers>,
    /// The events for this thread.
    pub inbox: Arc<Inbox>,
    /// The engine, whose first output was carried out.
    pub engine: Engine,
    /// Its journal.
    pub journal: Journal,
    /// The blocks.
    pub blocks: Blocks,
    /// The thread of the archive.
    pub keeper: Keeper,
    /// The archive's last block.
    pub tail: Tail,
    /// The thread of the application.
    pub application: Worker,
    /// The clock of this lifetime.
    pub clock: Clock,
}

/// An engine with all that it needs.
pub struct Replica {
    parts: Parts,
    turns: Turns,
    trace: Option<Trace>,
    events: Events,
    /// The questions that wait for blocks.
    missing: MissingBlocks,
    /// The blocks that wait to be built.
    pace: Pace,
    /// The last final block that the application's thread has.
    passed: (View, Digest),
    /// The context of the block that the application builds.
    building: Option<Context>,
    /// The open questions to the application by view, each with the block's digest.
    asked: BTreeMap<(Kind, View), Digest>,
    /// The outputs that others see, in order, whose record the disk may not have yet.
    leaving: Vec<Output>,
    /// When each member was heard of last.
    heard: Vec<Instant>,
    /// The last view whose leader was skipped, since nothing came from it.
    given_up: View,
    /// The last view that this member was seen to vote to nullify.
    nullified: View,
    /// The proposals of leaders, compared with what others vote for.
    leader_votes: LeaderVotes,
    /// The members whose contradictions were logged: once a view, or a faulty member could fill the log.
    shown: BTreeSet<(View, Participant)>,
    /// The file of evidence.
    evidence: Collected,
    /// The views whose leaders were found to have proposed twice.
    proposed_twice: BTreeSet<View>,
    /// The final blocks that are not in the archive yet.
    chain: FinalChain,
    /// Ranges of peers that end above the last finalized view: one behind each view at most.
    ahead: Vec<Range>,
    /// The requests for final blocks.
    catch_up: CatchUp,
    lag: Lag,
    /// How far the node is with a snapshot of peers.
    state_sync: StateSync,
    far: Far,
    /// The certificates that are held back for a moment.
    held: Held,
    begun: Begun,
    old_votes: Vec<Vote>,
    told_at: u64,
}

impl Replica {
    /// A replica of these parts.
    pub fn new(parts: Parts) -> Outcome<Replica> {
        let members = parts.settings.count().get();
        let last = parts.engine.views().ok_or(EngineError::Failed)?.last_finalized;
        let mut chain = FinalChain::new(parts.tail);
        if let Some(it) = parts.engine.certificate(CertificateKind::Finalization, last)?
            && let Subject::Finalize(proposal) = it.subject()
        {
            chain.finalize(&proposal, Some(it), &parts.blocks)?;
        }
        Ok(Replica {
            turns: parts.settings.turns(),
            trace: parts.settings.trace.as_deref().map(Trace::open).transpose()?,
            events: Events::open(&parts.settings, parts.journal.entries())?,
            missing: MissingBlocks::new(parts.settings.me(), members),
            pace: parts.settings.pace(),
            passed: (parts.tail.view, parts.tail.payload),
            building: None,
            asked: BTreeMap::new(),
            leaving: Vec::new(),
            heard: vec![Instant::now(); members as usize],
            given_up: View::GENESIS,
            nullified: View::GENESIS,
            leader_votes: LeaderVotes::new(parts.settings.turns()),
            shown: BTreeSet::new(),
            evidence: Collected::of(&parts.settings.data),
            proposed_twice: BTreeSet::new(),
            chain,
            ahead: Vec::new(),
            catch_up: CatchUp::new(parts.settings.me(), members),
            lag: Lag::none(),
            state_sync: StateSync::Idle,
            far: None,
            held: Held::new(),
            begun: Begun::default(),
            old_votes: Vec::new(),
            told_at: u64::MAX,
            parts,
        })
    }

    /// Runs until it is asked to stop.
    pub fn run(mut self) -> Outcome {
        self.deliver()?;
        let mut is_settled = self.settle()?;
        loop {
            let wait = if is_settled { self.longest_wait() } else { Duration::ZERO };
            let idle = Instant::now();
            let mut next = self.parts.inbox.take(wait);
            self.spent(&self.parts.counters.idle_us, idle);
            for _ in 0..MOST_EVENTS {
                match next {
                    Some(Event::Stop) => return self.stop(),
                    Some(Event::Failed(why)) => return Err(why.into()),
                    Some(Event::Archived(entries)) => self.take_archived(entries)?,
                    Some(Event::Answered(answer)) => self.take_answer(answer)?,
                    Some(Event::Replied(reply)) => self.take_reply(reply)?,
                    Some(event) => self.take(event)?,
                    None => break,
                }
                next = self.parts.inbox.take(Duration::ZERO);
            }
            self.take_far()?;
            self.watch_leader()?;
            self.build_due()?;
            is_settled = self.settle()?;
            self.broadcast_due();
            self.fetch_blocks();
            self.catch_up();
            self.sync_state()?;
            self.tell()?;
        }
    }

    /// How long a turn may wait for events: until the engine or a build is due.
    fn longest_wait(&self) -> Duration {
        let wake = self.parts.clock.until(self.parts.engine.wake());
        let current = self.parts.engine.views().map_or(View::GENESIS, |it| it.current);
        let build = self.pace.wait(Instant::now(), current).unwrap_or(LONGEST_WAIT);
        let broadcast = self.until_broadcast().unwrap_or(LONGEST_WAIT);
        wake.min(build).min(broadcast).min(LONGEST_WAIT)
    }

    fn stop(mut self) -> Outcome {
        self.parts.inbox.close();
        self.sync()?;
        self.parts.keeper.stop();
        while let Some(event) = self.parts.inbox.take(Duration::ZERO) {
            if let Event::Archived(entries) = event {
                self.take_archived(entries)?;
            }
        }
        self.parts.application.stop();
        if let Some(trace) = &mut self.trace {
            trace.flush()?;
        }
        self.events.finish();
        info!(height = self.parts.counters.height.load(Relaxed), "stopped");
        Ok(())
    }

    fn views(&self) -> Outcome<Views> {
        Ok(self.parts.engine.views().ok_or(EngineError::Failed)?)
    }

    /// Passes an input to the engine, and returns whether it was taken.
    fn handle(&mut self, input: Input) -> Outcome<bool> {
        let now = self.parts.clock.now();
        let seen = self.events.before(&input);
        let begun = Instant::now();
        let is_of_use = self.parts.engine.handle(input, now)?;
        self.spent(&self.parts.counters.core_us, begun);
        self.events.after(seen, is_of_use);
        Ok(is_of_use)
    }

    fn poll(&mut self) -> Outcome<Option<Output>> {
        let now = self.parts.clock.now();
        let begun = Instant::now();
        let output = self.parts.engine.poll(now)?;
        self.spent(&self.parts.counters.core_us, begun);
        Ok(output)
    }

    fn take(&mut self, event: Event) -> Outcome {
        let Event::Message(from, message) = event else { return Ok(()) };
        let certified = match &message {
            Message::Certificate(it) => Some(it.subject()),
            _ => None,
        };
        if !self.parts.peers.is_cut_from(from) {
            self.take_message(from, message)?;
        }
        if let Some(subject) = certified {
            self.parts.horizon.took(subject);
        }
        Ok(())
    }

    fn take_message(&mut self, from: Participant, message: Message) -> Outcome {
        self.hear(from);
        match message {
            Message::Proposal(vote, block) => self.take_proposal(vote, block),
            Message::Vote(vote) => self.take_vote(vote),
            Message::Certificate(it) => self.take_certificate(it),
            Message::AskCertificate(kind, view) => {
                self.serve(from, kind, view);
                Ok(())
            }
            Message::AskBlock(view, payload) => {
                self.serve_block(from, view, payload);
                Ok(())
            }
            Message::AskRange(after, upto) => {
                self.parts.keeper.serve(from, after, upto);
                Ok(())
            }
            Message::Range(range) => self.take_range(range),
            Message::NoRange(after, first) => {
                self.take_no_range(from, after, first);
                Ok(())
            }
            Message::Block(bytes) => self.take_block(bytes),
            Message::AskSnapshot => self.ask_for_peer(Request::Snapshot(from)),
            Message::AskPiece(snapshot, index) => self.ask_for_peer(Request::Piece(from, snapshot, index)),
            Message::Snapshot(manifest, range) => self.take_snapshot(from, manifest, range),
            Message::Piece(snapshot, index, bytes) => self.take_piece(snapshot, index, &bytes),
            Message::NoPiece(snapshot, index) => self.take_no_piece(from, snapshot, index),
        }
    }

    /// A proposal that its view's leader signed, with its block. The readers tested the signature, and that the block has the payload.
    fn take_proposal(&mut self, vote: Vote, block: Vec<u8>) -> Outcome {
        let Subject::Notarize(proposal) = vote.subject else { return Ok(()) };
        if let Some(block) = Block::of(block, proposal.payload).ok().filter(|it| it.is_of(&proposal)) {
            self.take_proposed(vote.signer, proposal, block)?;
        }
        self.take_vote(vote)
    }

    /// A leader may sign as many proposals as it likes. So of each view that is not far ahead the first block is kept, and others where
    /// they are asked for; and of those that come early the first is passed, since the engine stores a few of all leaders together.
    fn take_proposed(&mut self, from: Participant, proposal: Proposal, block: Block) -> Outcome {
        let view = proposal.view();
        let is_first = !self.parts.blocks.has_of(view);
        let is_near = view.get() <= self.views()?.current.get() + EARLY_VIEWS;
        if is_near && (is_first || self.parts.engine.admits_vote(view)) {
            self.handle(Input::Proposal { from, proposal })?;
        }
        if is_near && is_first || self.missing.wants(&proposal.payload) {
            self.keep_block(block)?;
        }
        Ok(())
    }

    /// A vote whose signature is good: another member's, or this one's own once it has left.
    fn take_vote(&mut self, vote: Vote) -> Outcome {
        let view = vote.subject.round().view;
        if let Some(trace) = &mut self.trace {
            trace.write(&vote)?;
        }
        let is_of_leader = vote.signer == self.turns.leader(view) && vote.signer != self.parts.keys.me;
        if matches!(vote.subject, Subject::Nullify(_)) && is_of_leader && self.parts.engine.admits_vote(view) {
            let reason = TimeoutReason::LeaderNullify;
            self.handle(Input::GivenUp { view, reason })?;
        }
        if self.parts.engine.admits_vote(view) {
            let found = self.leader_votes.see(&vote);
            self.compare(found)?;
        }
        match self.parts.settings.trial.fault {
            Some(Fault::Replays) => self.replay(&vote),
            Some(Fault::Forges) if vote.signer == self.parts.keys.me => self.forge(&vote),
            _ => {}
        }
        self.handle(Input::Vote(vote))?;
        Ok(())
    }

    /// Gives a leader up that is not heard of.
    fn watch_leader(&mut self) -> Outcome {
        let view = self.views()?.current;
        let leader = self.turns.leader(view);
        let is_absent = self.heard[leader.get() as usize].elapsed() > self.parts.settings.inactivity();
        if view > self.given_up && leader != self.parts.keys.me && is_absent {
            self.given_up = view;
            let reason = TimeoutReason::Inactivity;
            self.handle(Input::GivenUp { view, reason })?;
        }
        Ok(())
    }

    /// Carries out what follows the events, until nothing does; whether it came to that. A member alone goes from view to view without an
    /// event, so it has to stop in between.
    fn settle(&mut self) -> Outcome<bool> {
        let mut is_settled = false;
        for _ in 0..MOST_ROUNDS {
            self.poll_all()?;
            is_settled = self.leaving.is_empty();
            if is_settled {
                break;
            }
            self.take_replies()?;
            self.leave()?;
        }
        let views = self.views()?;
        self.parts.horizon.moved(views.current, views.min_active);
        self.parts.application.cancel_passed(views.current, views.last_finalized);
        if let Some(trace) = &mut self.trace {
            trace.flush()?;
        }
        self.events.settled(&self.parts.engine);
        Ok(is_settled)
    }

    /// Polls until nothing follows. What others see waits until the disk has the record before it; all else is carried out at once, so that
    /// one wait serves what follows from it too. A final proposal waits for the record of the whole turn, in which its finalization is
    /// stored: so the chain is never ahead of the journal.
    fn poll_all(&mut self) -> Outcome {
        while let Some(output) = self.poll()? {
            if let Output::Broadcast(it) = &output {
                self.parts.horizon.know(it.subject());
            }
            let is_behind = self.parts.journal.is_dirty() || !self.leaving.is_empty();
            if matches!(output, Output::Finalized(_)) || is_behind && is_seen(&output) {
                self.leaving.push(output);
            } else {
                self.carry_out(output)?;
            }
        }
        Ok(())
    }

    /// Waits for replies of the application that are near, so that one wait for the disk serves the votes that follow from them too. An
    /// application that lets it wait in vain is not waited for again until it was fast: so a slow one slows nothing.
    fn take_replies(&mut self) -> Outcome {
        let until = Instant::now() + REPLY_WITHIN;
        while let Some(answer) = self.next_reply(until) {
            self.take_answer(answer)?;
            self.poll_all()?;
        }
        Ok(())
    }

    /// The application's next reply: one that has come, or one that is near and comes until then.
    fn next_reply(&self, until: Instant) -> Option<Answer> {
        let waits_for_disk = self.parts.settings.sync && self.parts.journal.is_dirty();
        if !waits_for_disk || !self.parts.application.is_reply_near() {
            return self.parts.inbox.take_answer(Duration::ZERO);
        }
        let begun = Instant::now();
        let reply = self.parts.inbox.take_answer(until.saturating_duration_since(begun));
        self.spent(&self.parts.counters.reply_us, begun);
        if reply.is_some() {
            self.parts.counters.awaited_replies.fetch_add(1, Relaxed);
        } else {
            self.parts.application.missed();
            self.parts.counters.missed_replies.fetch_add(1, Relaxed);
        }
        reply
    }

    /// Waits until the disk has all blocks and all that was recorded. Blocks come first: one that is notarized and lost everywhere would
    /// stop the chain.
    fn sync(&mut self) -> Outcome {
        let begun = Instant::now();
        self.parts.blocks.sync()?;
        if self.parts.journal.sync()? {
            self.parts.counters.syncs.fetch_add(1, Relaxed);
            self.spent(&self.parts.counters.sync_us, begun);
            self.parts.counters.durations.sync(begun.elapsed().as_secs_f64());
        }
        Ok(())
    }

    /// Waits for the disk, and sends what waited for it, in order.
    fn leave(&mut self) -> Outcome {
        self.sync()?;
        for output in std::mem::take(&mut self.leaving) {
            self.carry_out(output)?;
        }
        Ok(())
    }

    fn carry_out(&mut self, output: Output) -> Outcome {
        self.events.output(&output);
        match output {
            Output::Store(entries) => self.parts.journal.append(&entries)?,
            Output::Replace(entries) => {
                self.parts.journal.replace(&entries)?;
                self.parts.counters.compactions.fetch_add(1, Relaxed);
            }
            Output::Vote(order) => self.cast(&order)?,
            Output::Broadcast(it) => self.broadcast(it),
            Output::Fetch(it) => self.fetch(&it),
            Output::Finalized(proposal) => self.finalize(&proposal)?,
            Output::Verify(context, proposal) => self.verify(context, proposal)?,
            Output::Build(context) => {
                self.missing.stop_build(context.round.view);
                self.pace.ask(context, Instant::now());
                self.build_due()?;
            }
            Output::Certify(proposal) => self.certify(proposal)?,
            Output::StopBuilding(view) => {
                self.pace.stop(view);
                self.missing.stop_build(view);
                self.parts.application.cancel((Kind::Build, view));
            }
            Output::Equivocated(first, second) => self.show(&first, &second)?,
            Output::ProposedTwice(view, leader) => self.show_leader(view, leader),
            Output::Forget(lowest) => {
                self.missing.forget(lowest);
                self.leader_votes.forget(lowest);
                self.asked.retain(|(_, view), _| *view >= lowest);
                self.proposed_twice = self.proposed_twice.split_off(&lowest);
                self.shown = self.shown.split_off(&(lowest, Participant::new(0)));
            }
        }
        Ok(())
    }
}

/// Returns whether other members see its effect.
fn is_seen(output: &Output) -> bool {
    matches!(output, Output::Vote(_) | Output::Broadcast(_) | Output::Fetch(_))
}
