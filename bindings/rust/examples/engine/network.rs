//! Engines in one process: what a host does around each of them, with a queue for a network, a vector for a disk and a clock that is
//! turned on. The signatures are toys: anyone can make them.
//!
//! A block names its parent by digest, and travels with its proposal. [`Node::deliver`] walks parents back from a finalized block to the
//! last one that was delivered.

use simplex_view_state::{
    Certificate, Config, Context, Digest, Engine, Epoch, Fetch, Input, Moment, Namespace, Options, Order, Output, Participant, Proposal,
    Stored, View, Vote,
};
use std::collections::{HashMap, VecDeque};
use std::error::Error;
use std::hash::{DefaultHasher, Hash, Hasher};
use std::num::NonZeroU32;

/// Why a network ends early.
pub type Outcome<T = ()> = Result<T, Box<dyn Error>>;

const EPOCH: Epoch = Epoch::new(1);
/// The beginning of each text to sign: a digest of a real network's name, epoch and members.
pub const NAMESPACE: Namespace = Namespace::new([1; 32]);
/// The payload of genesis.
const GENESIS: Digest = Digest::new([0; 32]);
/// How many outputs an engine has carried out before messages and time get a turn: a member alone is never out of outputs.
const MOST_OUTPUTS: usize = 1000;
/// How many messages arrive in a millisecond.
const MESSAGES_A_MILLISECOND: u64 = 64;

/// A block: what a proposal's payload is the digest of.
#[derive(Clone, Copy, PartialEq, Eq, Debug)]
pub struct Block {
    pub view: View,
    /// The digest of the block below it.
    pub parent: Digest,
}

/// A message between members.
#[derive(Clone, Debug)]
pub enum Message {
    /// A block, before the leader's vote for it, or one that was asked for.
    Block(Block),
    /// A block is asked for.
    AskBlock(Digest),
    /// A vote.
    Vote(Vote),
    /// A certificate.
    Certificate(Certificate),
    /// A request for a certificate.
    Ask(Fetch),
}

/// A message on its way.
#[derive(Clone, Debug)]
pub struct Sent {
    pub from: Participant,
    pub to: Participant,
    pub message: Message,
}

/// A member's disk.
#[derive(Clone, Debug, Default)]
pub struct Disk {
    pub journal: Vec<u8>,
    pub stored: Option<Stored>,
}

/// A member: its engine while its process runs, its disk, the blocks that it has, and the chain that it delivered.
#[derive(Debug)]
pub struct Node {
    pub me: Participant,
    pub engine: Option<Engine>,
    pub disk: Disk,
    pub chain: Vec<Block>,
    blocks: HashMap<Digest, Block>,
    /// The highest proposal that is known to be final.
    finalized: Option<Proposal>,
    pub equivocations: Vec<(Vote, Vote)>,
    members: NonZeroU32,
}

/// All members, what is on its way between them, and the clock.
#[derive(Debug)]
pub struct Network {
    pub nodes: Vec<Node>,
    pub now: Moment,
    /// How many messages of a hundred are lost.
    pub loss: u64,
    pub sent: VecDeque<Sent>,
    arrived: u64,
    chance: u64,
}

impl Network {
    /// A network of so many members that begin now; what is lost of their messages is drawn from a first number.
    pub fn start(members: NonZeroU32, loss: u64, chance: u64) -> Outcome<Network> {
        let now = Moment::from_millis(0);
        let nodes = (0..members.get()).map(|index| Node::start(Participant::new(index), members, now));
        Ok(Network {
            nodes: nodes.collect::<Outcome<_>>()?,
            now,
            loss,
            sent: VecDeque::new(),
            arrived: 0,
            chance,
        })
    }

    /// Delivers a message, which takes its time; where none is on its way, turns the clock on to the next moment at which an engine is to
    /// be polled.
    pub fn step(&mut self) -> Outcome {
        self.settle()?;
        self.arrived += 1;
        if self.arrived % MESSAGES_A_MILLISECOND == 0 {
            self.now = Moment::from_millis(self.now.as_millis() + 1);
        }
        match self.sent.pop_front() {
            Some(sent) if !self.draw_loss(&sent) => {
                let to = &mut self.nodes[sent.to.get() as usize];
                to.receive(sent.from, sent.message, self.now, &mut self.sent)
            }
            Some(_) => Ok(()),
            None => {
                let wakes = self.nodes.iter().filter_map(|node| node.engine.as_ref()).map(Engine::wake);
                self.now = wakes.min().ok_or("no engine runs")?.max(self.now);
                Ok(())
            }
        }
    }

    /// Begins a lifetime of a member from its disk.
    pub fn begin(&mut self, member: usize) -> Outcome {
        self.nodes[member].begin(self.now, &mut self.sent)
    }

    /// Has each engine's outputs carried out.
    pub fn settle(&mut self) -> Outcome {
        for node in &mut self.nodes {
            node.settle(self.now, &mut self.sent)?;
        }
        Ok(())
    }

    fn draw_loss(&mut self, sent: &Sent) -> bool {
        self.chance = self.chance.wrapping_mul(6364136223846793005).wrapping_add(1442695040888963407);
        sent.from != sent.to && (self.chance >> 33) % 100 < self.loss
    }
}

impl Node {
    fn start(me: Participant, members: NonZeroU32, now: Moment) -> Outcome<Node> {
        let mut node = Node {
            me,
            engine: None,
            disk: Disk::default(),
            chain: Vec::new(),
            blocks: HashMap::new(),
            finalized: None,
            equivocations: Vec::new(),
            members,
        };
        node.begin(now, &mut VecDeque::new())?;
        Ok(node)
    }

    /// Begins a lifetime from the disk; the first one where nothing is stored. The last finalization is read from the record: a lifetime
    /// that ended may have stored it without reporting it.
    fn begin(&mut self, now: Moment, out: &mut VecDeque<Sent>) -> Outcome {
        let config = Config::new(NAMESPACE, self.members, Some(self.me), EPOCH, GENESIS);
        let options = Options::default();
        let engine = match &self.disk.stored {
            None => Engine::start(&config, &options, now)?,
            Some(stored) => Engine::resume(&config, &options, now, stored, &self.disk.journal)?,
        };
        self.finalized = engine.last_finalization()?;
        self.engine = Some(engine);
        self.deliver(out);
        Ok(())
    }

    /// Takes a message: signatures and certificates are tested, and then the engine receives it.
    pub fn receive(&mut self, from: Participant, message: Message, now: Moment, out: &mut VecDeque<Sent>) -> Outcome {
        let (members, me) = (self.members, self.me);
        let Some(engine) = &mut self.engine else {
            return Ok(());
        };
        match message {
            Message::Block(block) => {
                self.blocks.insert(block.digest(), block);
                self.deliver(out);
            }
            Message::AskBlock(digest) => out.extend(self.blocks.get(&digest).map(|block| Sent {
                from: me,
                to: from,
                message: Message::Block(*block),
            })),
            Message::Vote(vote) => {
                let is_signed = vote.signature == signature(vote.signer, &vote.subject.text(&NAMESPACE));
                if is_signed && vote.subject.round().epoch == EPOCH {
                    if let Some(proposal) = vote.proposal() {
                        engine.handle(Input::Proposal { from, proposal }, now)?;
                    }
                    engine.handle(Input::Vote(vote), now)?;
                }
            }
            Message::Certificate(certificate) => {
                if is_good(&certificate, members) {
                    engine.handle(Input::Certificate(certificate), now)?;
                }
            }
            Message::Ask(fetch) => {
                if let Some(certificate) = engine.certificate_for(fetch.kind, fetch.view)? {
                    out.push_back(Sent {
                        from: me,
                        to: from,
                        message: Message::Certificate(certificate),
                    });
                }
            }
        }
        Ok(())
    }

    /// Polls the engine until it returns `None`, or for [`MOST_OUTPUTS`], and carries out each output before it asks for the next.
    pub fn settle(&mut self, now: Moment, out: &mut VecDeque<Sent>) -> Outcome {
        for _ in 0..MOST_OUTPUTS {
            let Some(engine) = &mut self.engine else { break };
            let Some(output) = engine.poll(now)? else { break };
            self.carry_out(output, now, out)?;
        }
        Ok(())
    }

    /// Delivers the finalized block after its ancestors, back to the last block that was delivered. `Output::Finalized` does not report
    /// ancestors. Where a block is not here, all others are asked for it.
    fn deliver(&mut self, out: &mut VecDeque<Sent>) {
        let (last_view, last) = self.chain.last().map_or((View::GENESIS, GENESIS), |it| (it.view, it.digest()));
        let Some(target) = self.finalized.filter(|it| it.view() > last_view) else {
            return;
        };
        let (mut fresh, mut digest) = (Vec::new(), target.payload);
        while digest != last {
            let Some(block) = self.blocks.get(&digest) else {
                return self.send_to_others(&Message::AskBlock(digest), out);
            };
            fresh.push(*block);
            digest = block.parent;
        }
        self.chain.extend(fresh.into_iter().rev());
    }

    fn carry_out(&mut self, output: Output, now: Moment, out: &mut VecDeque<Sent>) -> Outcome {
        match output {
            Output::Store(entries) => {
                self.disk.journal.extend(entries.bytes);
                self.disk.stored = Some(entries.stored);
            }
            Output::Replace(entries) => {
                self.disk.journal = entries.bytes;
                self.disk.stored = Some(entries.stored);
            }
            Output::Vote(order) => self.vote(&order, out)?,
            Output::Broadcast(certificate) => self.send_to_others(&Message::Certificate(certificate), out),
            Output::Verify(context, proposal) => {
                let (view, is_valid) = (proposal.view(), proposal.payload == block_on(&context));
                self.tell(Input::Verified { view, is_valid }, now)?;
            }
            Output::Build(context) => {
                let payload = block_on(&context);
                self.blocks.insert(payload, Block::new(&context));
                self.tell(Input::Built { context, payload }, now)?;
            }
            Output::Certify(proposal) => {
                let view = proposal.view();
                self.tell(Input::Certified { view, is_success: true }, now)?;
            }
            Output::Fetch(fetch) => out.extend(fetch.of.map(|to| Sent {
                from: self.me,
                to,
                message: Message::Ask(fetch),
            })),
            Output::Finalized(proposal) => {
                self.finalized = Some(proposal);
                self.deliver(out);
            }
            Output::Equivocated(one, other) => self.equivocations.push((one, other)),
            Output::StopBuilding(_) | Output::ProposedTwice(..) | Output::Forget(_) => {}
        }
        Ok(())
    }

    /// Signs a vote, sends it to all others, and passes it to the engine. It is stored by now.
    fn vote(&mut self, order: &Order, out: &mut VecDeque<Sent>) -> Outcome {
        if !is_within(&order.text, &self.disk.journal) {
            return Err(format!("member {} votes on {:?} before it is stored", self.me, order.subject).into());
        }
        let vote = order.signed(signature(order.signer, &order.text));
        let is_leader = self.engine.as_ref().and_then(|it| it.leader(vote.subject.round().view)) == Some(self.me);
        let block = vote.proposal().and_then(|it| self.blocks.get(&it.payload)).filter(|_| is_leader);
        if let Some(block) = block {
            self.send_to_others(&Message::Block(*block), out);
        }
        self.send_to_others(&Message::Vote(vote.clone()), out);
        out.push_back(Sent {
            from: self.me,
            to: self.me,
            message: Message::Vote(vote),
        });
        Ok(())
    }

    fn tell(&mut self, input: Input, now: Moment) -> Outcome {
        if let Some(engine) = &mut self.engine {
            engine.handle(input, now)?;
        }
        Ok(())
    }

    fn send_to_others(&self, message: &Message, out: &mut VecDeque<Sent>) {
        let others = (0..self.members.get()).map(Participant::new).filter(|to| *to != self.me);
        out.extend(others.map(|to| Sent {
            from: self.me,
            to,
            message: message.clone(),
        }));
    }
}

/// Returns whether a certificate is of n - f members' good signatures.
pub fn is_good(certificate: &Certificate, members: NonZeroU32) -> bool {
    let faulty = (members.get() - 1) / 3;
    let text = certificate.subject().text(&NAMESPACE);
    certificate.signatures().is_some_and(|signatures| {
        signatures.len() >= (members.get() - faulty) as usize
            && signatures
                .iter()
                .all(|(signer, it)| *signer < Participant::new(members.get()) && *it == signature(*signer, &text))
    })
}

/// A member's signature on a text.
pub fn signature(signer: Participant, text: &[u8]) -> Vec<u8> {
    hash_of(&(signer, text)).to_be_bytes().to_vec()
}

impl Block {
    /// The block that is built in a context: everyone knows which.
    fn new(context: &Context) -> Block {
        Block {
            view: context.round.view,
            parent: context.parent_payload,
        }
    }

    /// Its digest, which proposals name it by.
    pub fn digest(&self) -> Digest {
        let mut bytes = [0; 32];
        for (place, word) in (0u8..).zip(bytes.chunks_exact_mut(8)) {
            word.copy_from_slice(&hash_of(&(place, self.view, self.parent)).to_be_bytes());
        }
        Digest::new(bytes)
    }
}

/// The digest of the block that is built in a context.
pub fn block_on(context: &Context) -> Digest {
    Block::new(context).digest()
}

fn hash_of(it: &impl Hash) -> u64 {
    let mut hasher = DefaultHasher::new();
    it.hash(&mut hasher);
    hasher.finish()
}

/// Returns whether bytes are within others; the search begins at the end.
fn is_within(bytes: &[u8], others: &[u8]) -> bool {
    others.windows(bytes.len()).rev().any(|it| it == bytes)
}
