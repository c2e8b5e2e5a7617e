//! A host around the engine of the Rust package.

use crate::application::Application;
use crate::block::Block;
use crate::host::{EPOCH, Effects, Host, HostError, Seat};
use crate::keys::{is_good, is_signed, signature};
use crate::message::Message;
use simplex_trace::{Event, FetchKind as TracedFetch, Observer};
use simplex_view_state::{
    Certificate, CertificateKind, Context, Digest, Engine, EngineError, Fetch, FetchKind, Input, Moment, Options, Order, Output,
    Participant, Proposal, Stored, Subject, TimeoutReason, View, Vote,
};
use std::collections::{BTreeSet, HashMap};

/// How many outputs a turn carries out: a member alone is never out of them.
const MOST_OUTPUTS: usize = 1000;
/// How many views ahead of the current one a proposal may come.
const EARLY_VIEWS: u64 = 8;
/// After how many milliseconds a missing block is asked for again.
const ASK_AGAIN: u64 = 250;

/// A member's disk: it survives a crash.
#[derive(Clone, Debug, Default)]
pub struct Disk {
    /// The bytes of the journal.
    pub journal: Vec<u8>,
    /// The numbers beside the journal; `None` of a member that never began.
    pub stored: Option<Stored>,
    blocks: HashMap<Digest, Block>,
    views_of_blocks: BTreeSet<u64>,
}

impl Disk {
    fn keep(&mut self, block: Block) {
        self.views_of_blocks.insert(block.view.get());
        self.blocks.insert(block.digest(), block);
    }
}

/// A question that waits for a block.
#[derive(Clone, Debug)]
enum Pending {
    Verify(Context, Proposal),
    Certify(Proposal),
}

impl Pending {
    fn payload(&self) -> Digest {
        match self {
            Pending::Verify(_, it) | Pending::Certify(it) => it.payload,
        }
    }
}

/// A host that does what an honest host has to do, with an application on top.
#[derive(Debug)]
pub struct EngineHost<A> {
    /// Its disk.
    pub disk: Disk,
    /// The application.
    pub application: A,
    seat: Seat,
    engine: Option<Engine>,
    observer: Observer,
    heard: Vec<Moment>,
    given_up: View,
    pending: Vec<Pending>,
    asked: Option<Moment>,
    /// The last proposal that is known to be final.
    finalized: Option<Proposal>,
    /// The last block that the application took.
    delivered: (View, Digest),
    is_quiet: bool,
}

impl<A: Application> EngineHost<A> {
    /// The host of a member that never began.
    pub fn new(seat: &Seat, application: A) -> EngineHost<A> {
        EngineHost {
            disk: Disk::default(),
            application,
            seat: seat.clone(),
            engine: None,
            observer: Observer::new(seat.me, seat.term_length.get()),
            heard: Vec::new(),
            given_up: View::GENESIS,
            pending: Vec::new(),
            asked: None,
            finalized: None,
            delivered: (View::GENESIS, Digest::default()),
            is_quiet: true,
        }
    }

    /// Traces the votes that the engine withheld on the views that it has left.
    fn watch(&mut self, effects: &mut Effects) {
        if let Some(engine) = &self.engine {
            for (view, event) in self.observer.watch(engine) {
                effects.trace(view, event);
            }
        }
    }

    fn engine(&mut self) -> Result<&mut Engine, EngineError> {
        self.engine.as_mut().ok_or(EngineError::Failed)
    }

    fn handle(&mut self, input: Input, now: Moment, effects: &mut Effects) -> Result<(), HostError> {
        let observed = self.observer.before(&input);
        let is_of_use = self.engine()?.handle(input, now)?;
        if let Some((view, event)) = observed.and_then(|it| self.observer.after(it, is_of_use)) {
            effects.trace(view, event);
        }
        Ok(())
    }

    fn take_vote(&mut self, vote: Vote, now: Moment, effects: &mut Effects) -> Result<(), HostError> {
        let view = vote.subject.round().view;
        let is_of_leader = vote.signer == self.seat.leader(view) && vote.signer != self.seat.me;
        if is_of_leader && matches!(vote.subject, Subject::Nullify(_)) && self.engine()?.admits_vote(view) {
            let reason = TimeoutReason::LeaderNullify;
            self.handle(Input::GivenUp { view, reason }, now, effects)?;
        }
        self.handle(Input::Vote(vote), now, effects)
    }

    /// A leader may propose as often as it likes: of a view that is near the first proposal is taken, and of one that is open each.
    fn take_proposal(&mut self, vote: Vote, block: Block, now: Moment, effects: &mut Effects) -> Result<(), HostError> {
        let (from, view) = (vote.signer, block.view);
        let proposal = vote.proposal().filter(|it| block.is_of(it) && from == self.seat.leader(view));
        if let Some(proposal) = proposal {
            let is_first = !self.disk.views_of_blocks.contains(&view.get());
            let engine = self.engine()?;
            let current = engine.views().ok_or(EngineError::Failed)?.current;
            let is_near = view.get() <= current.get() + EARLY_VIEWS;
            if is_near && (is_first || engine.admits_vote(view)) {
                self.handle(Input::Proposal { from, proposal }, now, effects)?;
            }
            self.take_block(block, now, effects)?;
        }
        self.take_vote(vote, now, effects)
    }

    /// Stores a block, and judges what waited for it.
    fn take_block(&mut self, block: Block, now: Moment, effects: &mut Effects) -> Result<(), HostError> {
        self.disk.keep(block);
        let payload = block.digest();
        let (ready, pending) = std::mem::take(&mut self.pending)
            .into_iter()
            .partition(|it| it.payload() == payload);
        self.pending = pending;
        for it in Vec::<Pending>::from_iter(ready) {
            self.judge(it, now, effects)?;
        }
        self.deliver();
        Ok(())
    }

    /// Has the application verify or certify, at once or when the block has come.
    fn judge(&mut self, asked: Pending, now: Moment, effects: &mut Effects) -> Result<(), HostError> {
        let Some(block) = self.disk.blocks.get(&asked.payload()) else {
            self.pending.push(asked);
            return Ok(());
        };
        let input = match asked {
            Pending::Verify(context, proposal) => {
                let is_in_place = block.is_of(&proposal) && block.parent == (context.parent, context.parent_payload);
                let is_valid = is_in_place && self.application.verify(block);
                let view = proposal.view();
                Input::Verified { view, is_valid }
            }
            Pending::Certify(proposal) => {
                let is_success = block.is_of(&proposal) && self.application.certify(block);
                let view = proposal.view();
                Input::Certified { view, is_success }
            }
        };
        self.handle(input, now, effects)
    }

    fn build(&mut self, context: Context, now: Moment, effects: &mut Effects) -> Result<(), HostError> {
        let block = Block::new(&context, self.application.build(&context));
        self.disk.keep(block);
        let payload = block.digest();
        self.handle(Input::Built { context, payload }, now, effects)
    }

    fn carry_out(&mut self, output: Output, now: Moment, effects: &mut Effects) -> Result<(), HostError> {
        for (view, event) in self.observer.output(&output) {
            effects.trace(view, event);
        }
        match output {
            Output::Store(entries) => {
                self.disk.journal.extend(entries.bytes);
                self.disk.stored = Some(entries.stored);
            }
            Output::Replace(entries) => {
                self.disk.journal = entries.bytes;
                self.disk.stored = Some(entries.stored);
            }
            Output::Vote(order) => self.vote(&order, now, effects)?,
            Output::Broadcast(it) => effects.send_to_others(&Message::Certificate(it)),
            Output::Fetch(Fetch {
                kind,
                view,
                of: Some(peer),
            }) => effects.send(peer, Message::Ask(kind, view)),
            Output::Verify(context, proposal) => self.judge(Pending::Verify(context, proposal), now, effects)?,
            Output::Certify(proposal) => self.judge(Pending::Certify(proposal), now, effects)?,
            Output::Build(context) => self.build(context, now, effects)?,
            Output::Finalized(proposal) => {
                self.finalized = Some(proposal);
                effects.finalized(proposal);
                self.deliver();
            }
            Output::Forget(lowest) => self.pending.retain(|it| match it {
                Pending::Verify(_, it) | Pending::Certify(it) => it.view() >= lowest,
            }),
            Output::Fetch(_) | Output::StopBuilding(_) | Output::Equivocated(..) | Output::ProposedTwice(..) => {}
        }
        Ok(())
    }

    /// Signs a vote that is stored, sends it to all others, and passes it to the engine.
    fn vote(&mut self, order: &Order, now: Moment, effects: &mut Effects) -> Result<(), HostError> {
        let vote = order.signed(signature(order.signer, &order.text));
        let is_leader = self.seat.leader(vote.subject.round().view) == self.seat.me;
        let block = vote
            .proposal()
            .filter(|_| is_leader)
            .and_then(|it| self.disk.blocks.get(&it.payload));
        let message = match block {
            Some(block) => Message::Proposal(vote.clone(), *block),
            None => Message::Vote(vote.clone()),
        };
        effects.send_to_others(&message);
        self.handle(Input::Vote(vote), now, effects)
    }

    /// Passes the finalized chain to the application, block by block, as far as the blocks are here. Returns the first block that is
    /// missing.
    fn deliver(&mut self) -> Option<Digest> {
        let target = self.finalized.filter(|it| it.view() > self.delivered.0)?;
        let (mut fresh, mut payload) = (Vec::new(), target.payload);
        while payload != self.delivered.1 {
            let Some(block) = self.disk.blocks.get(&payload).copied() else {
                return Some(payload);
            };
            fresh.push(block);
            payload = block.parent.1;
        }
        for block in fresh.iter().rev() {
            self.application.finalized(block);
        }
        self.delivered = (target.view(), target.payload);
        None
    }

    /// Asks all others for the blocks that are missing.
    fn ask_for_blocks(&mut self, now: Moment, effects: &mut Effects) {
        let of_chain = self.deliver();
        let missing = self.pending.iter().map(Pending::payload).chain(of_chain);
        let missing: BTreeSet<[u8; 32]> = missing.map(|it| *it.bytes()).collect();
        let is_due = self.asked.is_none_or(|at| now.as_millis() >= at.as_millis() + ASK_AGAIN);
        if missing.is_empty() {
            self.asked = None;
        } else if is_due {
            self.asked = Some(now);
            for payload in missing {
                effects.send_to_others(&Message::AskBlock(Digest::new(payload)));
            }
        }
    }

    /// Gives a leader up that was not heard of for long.
    fn watch_leader(&mut self, now: Moment, effects: &mut Effects) -> Result<(), HostError> {
        let Some((view, due)) = self.leader_due() else { return Ok(()) };
        if now >= due {
            self.given_up = view;
            let reason = TimeoutReason::Inactivity;
            self.handle(Input::GivenUp { view, reason }, now, effects)?;
        }
        Ok(())
    }

    /// The current view and when its leader is skipped; `None` where it is this member, or was skipped.
    fn leader_due(&self) -> Option<(View, Moment)> {
        let view = self.engine.as_ref()?.views()?.current;
        let leader = self.seat.leader(view);
        let heard = self.heard.get(leader.get() as usize)?;
        let due = heard.as_millis() + self.seat.times.inactivity.as_millis() as u64;
        (view > self.given_up && leader != self.seat.me).then_some((view, Moment::from_millis(due)))
    }

    /// The certificate that a member that asks is served.
    fn served(&mut self, kind: FetchKind, view: View) -> Result<Option<Certificate>, EngineError> {
        let engine = self.engine()?;
        if kind == FetchKind::Notarization
            && let Some(it) = engine.certificate(CertificateKind::Notarization, view)?
        {
            return Ok(Some(it));
        }
        engine.serve(view)
    }

    fn serve(&mut self, to: Participant, kind: FetchKind, view: View, effects: &mut Effects) -> Result<(), HostError> {
        if let Some(it) = self.served(kind, view)? {
            let (certificate, asking) = (TracedFetch::from(kind), to.get());
            effects.trace(view.get(), Event::FetchServed { certificate, to: asking });
            effects.send(to, Message::Certificate(it));
        }
        Ok(())
    }
}

impl<A: Application> Host for EngineHost<A> {
    fn begin(&mut self, now: Moment, effects: &mut Effects) -> Result<(), HostError> {
        let (config, options) = (self.seat.config(), Options::default());
        let engine = match &self.disk.stored {
            None => Engine::start(&config, &options, now)?,
            Some(stored) => Engine::resume(&config, &options, now, stored, &self.disk.journal)?,
        };
        let entries = self.disk.stored.map_or(0, |it| it.entries.get());
        let event = if self.disk.stored.is_none() {
            Event::Start
        } else {
            Event::Resume { entries }
        };
        effects.trace(0, event);
        let last = engine.views().ok_or(EngineError::Failed)?.last_finalized;
        if let Some(Certificate::Finalization(it)) = engine.certificate(CertificateKind::Finalization, last)? {
            self.finalized = Some(it.proposal);
        }
        self.engine = Some(engine);
        self.observer = Observer::new(self.seat.me, self.seat.term_length.get());
        self.heard = vec![now; self.seat.members.get() as usize];
        self.given_up = View::GENESIS;
        self.application.begin();
        self.run(now, effects)
    }

    fn crash(&mut self) {
        self.engine = None;
        self.pending.clear();
        self.asked = None;
    }

    fn receive(&mut self, from: Participant, message: Message, now: Moment, effects: &mut Effects) -> Result<(), HostError> {
        if let Some(heard) = self.heard.get_mut(from.get() as usize) {
            *heard = now;
        }
        let is_taken = |vote: &Vote| vote.subject.round().epoch == EPOCH && is_signed(vote);
        match message {
            Message::Proposal(vote, block) if is_taken(&vote) => self.take_proposal(vote, block, now, effects),
            Message::Vote(vote) if is_taken(&vote) => self.take_vote(vote, now, effects),
            Message::Certificate(it) if is_good(&it, self.seat.members) => self.handle(Input::Certificate(it), now, effects),
            Message::Ask(kind, view) => self.serve(from, kind, view, effects),
            Message::AskBlock(payload) => {
                if let Some(block) = self.disk.blocks.get(&payload) {
                    effects.send(from, Message::Block(*block));
                }
                Ok(())
            }
            Message::Block(block) => self.take_block(block, now, effects),
            Message::Proposal(..) | Message::Vote(_) | Message::Certificate(_) => Ok(()),
        }
    }

    fn run(&mut self, now: Moment, effects: &mut Effects) -> Result<(), HostError> {
        self.watch_leader(now, effects)?;
        self.is_quiet = false;
        for _ in 0..MOST_OUTPUTS {
            self.watch(effects);
            let Some(output) = self.engine()?.poll(now)? else {
                self.is_quiet = true;
                break;
            };
            self.carry_out(output, now, effects)?;
        }
        if self.observer.has_fetches() {
            let open = self.engine()?.fetches();
            for (view, event) in self.observer.settled(&open) {
                effects.trace(view, event);
            }
        }
        self.ask_for_blocks(now, effects);
        Ok(())
    }

    fn wake(&self) -> Moment {
        let Some(engine) = self.engine.as_ref().filter(|_| self.is_quiet) else {
            return Moment::from_millis(0);
        };
        let leader = self.leader_due().map(|it| it.1);
        let asking = self.asked.map(|at| Moment::from_millis(at.as_millis() + ASK_AGAIN));
        [Some(engine.wake()), leader, asking]
            .into_iter()
            .flatten()
            .min()
            .unwrap_or(engine.wake())
    }
}
