//! The faults of members.

use crate::block::Block;
use crate::host::Seat;
use crate::keys::sign;
use crate::message::{Message, Sent};
use crate::random::Random;
use clap::ValueEnum;
use simplex_view_state::{Certificate, Context, Participant, Proposal, Subject, View, Vote};
use std::collections::BTreeMap;
use std::fmt;

/// The messages of a faulty member in place of its honest host, which runs all the time. It can sign votes of its own alone.
pub trait Fault {
    /// Returns what is sent in place of a message.
    fn send(&mut self, sent: Sent, insider: &mut Insider) -> Vec<Sent>;

    /// Returns what is sent when a message comes, besides what the host sends.
    fn receive(&mut self, _from: Participant, _message: &Message, _insider: &mut Insider) -> Vec<Sent> {
        Vec::new()
    }
}

/// A faulty member, as its fault sees it.
#[derive(Debug)]
pub struct Insider<'a> {
    /// Its place in the network.
    pub seat: &'a Seat,
    /// Its chance, which follows from the seed of the simulation.
    pub random: &'a mut Random,
}

impl Insider<'_> {
    /// Returns this member's vote on a subject, whatever it voted before.
    pub fn sign(&self, subject: Subject) -> Vote {
        sign(self.seat.me, subject)
    }

    /// Returns a message to a member.
    pub fn to(&self, to: Participant, message: Message) -> Sent {
        let from = self.seat.me;
        Sent { from, to, message }
    }

    /// Returns a message to all other members.
    pub fn to_others(&self, message: &Message) -> Vec<Sent> {
        let others = (0..self.seat.members.get()).map(Participant::new).filter(|it| *it != self.seat.me);
        others.map(|to| self.to(to, message.clone())).collect()
    }
}

/// The faults that come with the simulator.
#[derive(Clone, Copy, PartialEq, Eq, Debug, ValueEnum)]
pub enum Byzantine {
    /// As leader it sends one half of the members one proposal and the others another, and it votes for whatever it hears of.
    Equivocate,
    /// As leader it sends no proposal.
    Silent,
    /// It sends nothing at all.
    Mute,
    /// It sends votes and certificates to one half of the members alone.
    Withhold,
    /// It votes to nullify each view, whatever else it votes.
    Nullify,
    /// Any of these things, and certificates to one member alone, by chance.
    Chaos,
}

impl fmt::Display for Byzantine {
    fn fmt(&self, f: &mut fmt::Formatter<'_>) -> fmt::Result {
        f.write_str(match self {
            Byzantine::Equivocate => "equivocate",
            Byzantine::Silent => "silent",
            Byzantine::Mute => "mute",
            Byzantine::Withhold => "withhold",
            Byzantine::Nullify => "nullify",
            Byzantine::Chaos => "chaos",
        })
    }
}

impl Byzantine {
    /// Returns the fault of one member.
    pub fn fault(self) -> Box<dyn Fault> {
        match self {
            Byzantine::Equivocate => Box::new(Equivocate::default()),
            Byzantine::Silent => Box::new(Silent),
            Byzantine::Mute => Box::new(Mute),
            Byzantine::Withhold => Box::new(Withhold),
            Byzantine::Nullify => Box::new(Nullify::default()),
            Byzantine::Chaos => Box::new(Chaos::default()),
        }
    }
}

/// The second proposals of a leader, by view, each with its block.
#[derive(Default)]
struct Equivocate(BTreeMap<View, (Vote, Block)>);

impl Equivocate {
    /// The other proposal of a view.
    fn other(&mut self, vote: &Vote, block: &Block, insider: &Insider) -> (Vote, Block) {
        let second = || {
            let (round, (parent, parent_payload)) = (vote.subject.round(), block.parent);
            let leader = vote.signer;
            let context = Context {
                round,
                leader,
                parent,
                parent_payload,
            };
            let other = Block::new(&context, !block.content);
            let proposal = Proposal {
                round,
                parent,
                payload: other.digest(),
            };
            (insider.sign(Subject::Notarize(proposal)), other)
        };
        self.0.entry(block.view).or_insert_with(second).clone()
    }
}

impl Fault for Equivocate {
    fn send(&mut self, sent: Sent, insider: &mut Insider) -> Vec<Sent> {
        let Message::Proposal(vote, block) = &sent.message else {
            return vec![sent];
        };
        if sent.to.get().is_multiple_of(2) {
            return vec![sent];
        }
        let (vote, block) = self.other(vote, block, insider);
        vec![insider.to(sent.to, Message::Proposal(vote, block))]
    }

    /// Whoever votes for a proposal gets this member's votes for just that one.
    fn receive(&mut self, from: Participant, message: &Message, insider: &mut Insider) -> Vec<Sent> {
        let Some(proposal) = message.vote().filter(|it| it.signer == from).and_then(Vote::proposal) else {
            return Vec::new();
        };
        let votes = [Subject::Notarize(proposal), Subject::Finalize(proposal)].map(|it| insider.sign(it));
        votes.into_iter().map(|it| insider.to(from, Message::Vote(it))).collect()
    }
}

struct Silent;

impl Fault for Silent {
    fn send(&mut self, sent: Sent, _: &mut Insider) -> Vec<Sent> {
        if matches!(sent.message, Message::Proposal(..)) {
            Vec::new()
        } else {
            vec![sent]
        }
    }
}

struct Mute;

impl Fault for Mute {
    fn send(&mut self, _: Sent, _: &mut Insider) -> Vec<Sent> {
        Vec::new()
    }
}

struct Withhold;

impl Fault for Withhold {
    fn send(&mut self, sent: Sent, _: &mut Insider) -> Vec<Sent> {
        let is_kept = matches!(sent.message, Message::Vote(_) | Message::Certificate(_)) && !sent.to.get().is_multiple_of(2);
        if is_kept { Vec::new() } else { vec![sent] }
    }
}

/// The last view that it voted to nullify.
#[derive(Default)]
struct Nullify(View);

impl Fault for Nullify {
    fn send(&mut self, sent: Sent, _: &mut Insider) -> Vec<Sent> {
        vec![sent]
    }

    fn receive(&mut self, _: Participant, message: &Message, insider: &mut Insider) -> Vec<Sent> {
        let Some(round) = message.vote().map(|it| it.subject.round()).filter(|it| it.view > self.0) else {
            return Vec::new();
        };
        self.0 = round.view;
        insider.to_others(&Message::Vote(insider.sign(Subject::Nullify(round))))
    }
}

/// Certificates that came, to be passed on to one member later.
#[derive(Default)]
struct Chaos {
    equivocate: Equivocate,
    certificates: Vec<Certificate>,
}

impl Chaos {
    fn someone(insider: &mut Insider) -> Participant {
        Participant::new(insider.random.below(u64::from(insider.seat.members.get())) as u32)
    }

    /// A vote of another kind on what another member's vote is on, to one member.
    fn votes(vote: &Vote, insider: &mut Insider) -> Vec<Sent> {
        let round = vote.subject.round();
        let subject = match (vote.proposal(), insider.random.below(3)) {
            (Some(proposal), 0) => Subject::Finalize(proposal),
            (Some(proposal), 1) => Subject::Notarize(proposal),
            _ => Subject::Nullify(round),
        };
        let (to, vote) = (Chaos::someone(insider), insider.sign(subject));
        vec![insider.to(to, Message::Vote(vote))]
    }
}

impl Fault for Chaos {
    fn send(&mut self, sent: Sent, insider: &mut Insider) -> Vec<Sent> {
        match insider.random.below(10) {
            0..3 => Vec::new(),
            3..7 => self.equivocate.send(sent, insider),
            _ => vec![sent],
        }
    }

    fn receive(&mut self, from: Participant, message: &Message, insider: &mut Insider) -> Vec<Sent> {
        match message {
            Message::Certificate(it) if self.certificates.len() < 64 => self.certificates.push(it.clone()),
            Message::Certificate(it) => {
                let place = insider.random.below(64) as usize;
                self.certificates[place] = it.clone();
            }
            _ => {}
        }
        match (insider.random.below(40), message.vote()) {
            (0..6, Some(_)) => self.equivocate.receive(from, message, insider),
            (6..9, Some(vote)) => Chaos::votes(vote, insider),
            (9, _) if !self.certificates.is_empty() => {
                let place = insider.random.below(self.certificates.len() as u64) as usize;
                let (to, it) = (Chaos::someone(insider), self.certificates[place].clone());
                vec![insider.to(to, Message::Certificate(it))]
            }
            _ => Vec::new(),
        }
    }
}
