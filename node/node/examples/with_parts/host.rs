//! The host of one member, made of the crates that the node is made of.

use simplex_chain::{Delivery, Tail};
use simplex_journal::Journal;
use simplex_keys::{FromMember, Keys, Messages};
use simplex_net::{Inbox, Peers, Places};
use simplex_view_state::{Digest, Engine, Input, Moment, Options, Order, Output, Participant, Proposal, View};
use simplex_wire::{Block, Message};
use std::time::{Duration, Instant};
use std::{error::Error, path::Path, sync::Arc};

pub type Outcome<T = ()> = Result<T, Box<dyn Error + Send + Sync>>;

pub struct Host {
    keys: Arc<Keys>,
    engine: Engine,
    journal: Journal,
    peers: Peers,
    inbox: Arc<Inbox<FromMember>>,
    blocks: Delivery<Block>,
    begun: Instant,
    pub delivered: Vec<Block>,
}

impl Host {
    /// Takes the folder, and starts the member or resumes it from its journal.
    pub fn begin(keys: Arc<Keys>, places: &Places, folder: &Path) -> Outcome<Host> {
        let identity = keys.identity();
        let (journal, recovered) = Journal::open(folder, identity, true)?;
        let engine = simplex_journal::engine(recovered.as_ref(), &keys.config()?, &Options::default())?;
        let (messages, inbox) = Messages::new(keys.clone());
        let peers = Peers::start(places, keys.credentials()?, messages, Arc::new(()))?;
        let blocks = Delivery::new(Tail::genesis(identity.genesis())); // or behind the application's last block
        let (begun, delivered, last) = (Instant::now(), Vec::new(), engine.last_finalization()?);
        #[rustfmt::skip]
        let mut host = Host { keys, engine, journal, peers, inbox, blocks, begun, delivered };
        last.iter().try_for_each(|it| host.finalized(it))?; // its report may be lost
        Ok(host)
    }

    /// Carries out what the engine returns, and passes it what comes, until enough is done.
    pub fn run(&mut self, mut is_enough: impl FnMut(&Host) -> bool) -> Outcome {
        while !is_enough(self) {
            for _ in 0..100 {
                // then messages and time get a turn
                let Some(output) = self.engine.poll(self.now())? else { break };
                self.carry_out(output)?;
            }
            self.journal.sync()?;
            let wait = self.now().until(self.engine.wake()).min(Duration::from_millis(20));
            if let Some((from, message)) = self.inbox.take(wait) {
                self.receive(from, message)?;
            }
        }
        Ok(())
    }

    fn carry_out(&mut self, output: Output) -> Outcome {
        match output {
            Output::Store(entries) => self.journal.append(&entries)?,
            Output::Replace(entries) => self.journal.replace(&entries)?,
            Output::Vote(order) => self.vote(&order)?,
            Output::Broadcast(certificate) => self.peers.broadcast(&Message::Certificate(certificate)),
            Output::Fetch(fetch) => {
                let ask = Message::AskCertificate(fetch.kind, fetch.view);
                fetch.of.iter().for_each(|to| self.peers.send_message(*to, &ask));
            }
            Output::Build(context) => {
                let block = Block::new(&context, format!("a block of member {}", self.keys.me()).as_bytes());
                let payload = block.payload();
                self.insert(block)?;
                self.pass(context.built(payload))?;
            }
            Output::Verify(_, it) => {
                let is_valid = self.blocks.get(&it.payload).is_some_and(|block| block.is_of(&it));
                self.pass(it.verified(is_valid))?;
            }
            Output::Certify(it) => self.pass(it.certified(true))?,
            Output::Finalized(proposal) => self.finalized(&proposal)?,
            Output::StopBuilding(_) | Output::ProposedTwice(..) | Output::Equivocated(..) | Output::Forget(_) => {}
        }
        Ok(())
    }

    /// Signs a vote and sends it, with the block where it is this leader's proposal. The journal is on the disk before.
    fn vote(&mut self, order: &Order) -> Outcome {
        self.journal.sync()?;
        let vote = order.signed(self.keys.sign(&order.text)?);
        let is_leader = self.engine.leader(vote.subject.round().view) == Some(self.keys.me());
        let block = vote.proposal().and_then(|it| self.blocks.get(&it.payload)).filter(|_| is_leader);
        self.peers.broadcast(&Message::of_vote(vote.clone(), block));
        self.pass(Input::Vote(vote))
    }

    /// Passes what came, verified, to the engine.
    fn receive(&mut self, from: Participant, message: Message) -> Outcome {
        match message {
            Message::Proposal(vote, block) => {
                self.insert(Block::decode(block)?)?;
                if let Some(proposal) = vote.proposal() {
                    let from = vote.signer;
                    self.pass(Input::Proposal { from, proposal })?;
                }
                self.pass(Input::Vote(vote))?;
            }
            Message::Vote(vote) => self.pass(Input::Vote(vote))?,
            Message::Certificate(certificate) => self.pass(Input::Certificate(certificate))?,
            Message::AskCertificate(kind, view) => self.answer(from, self.engine.certificate_for(kind, view)?.map(Message::Certificate)),
            Message::AskBlock(_, digest) => self.answer(from, self.blocks.get(&digest).map(|it| Message::Block(it.bytes().to_vec()))),
            Message::Block(bytes) => self.insert(Block::decode(bytes)?)?,
            _ => {} // it keeps no archive, and its application has no snapshots
        }
        Ok(())
    }

    fn answer(&self, to: Participant, found: Option<Message>) {
        found.iter().for_each(|it| self.peers.send_message(to, it));
    }

    fn insert(&mut self, block: Block) -> Outcome {
        let asked = self.blocks.hole();
        let blocks = self.blocks.insert(block)?;
        self.deliver(blocks, asked);
        Ok(())
    }

    fn finalized(&mut self, proposal: &Proposal) -> Outcome {
        let blocks = self.blocks.finalize(proposal)?;
        self.deliver(blocks, None);
        Ok(())
    }

    /// Delivers final blocks, and asks for one that is missing: at each finalization, and else once. All peers reply to one ask.
    fn deliver(&mut self, blocks: Vec<Block>, asked: Option<(View, Digest)>) {
        self.delivered.extend(blocks);
        if let Some((view, digest)) = self.blocks.hole().filter(|it| Some(*it) != asked) {
            self.peers.broadcast(&Message::AskBlock(view, digest));
        }
    }

    fn pass(&mut self, input: Input) -> Outcome {
        self.engine.handle(input, self.now())?;
        Ok(())
    }

    fn now(&self) -> Moment {
        Moment::from_millis(self.begun.elapsed().as_millis() as u64)
    }
}
