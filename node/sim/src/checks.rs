//! The laws that no network may break whose faulty members are few enough.

use crate::block::Block;
use crate::message::Message;
use crate::plan::Plan;
use simplex_view_state::{Digest, Participant, Proposal, Subject, View, Vote};
use std::collections::{BTreeMap, HashMap};
use std::fmt;

/// A promise that was broken.
#[derive(Clone, PartialEq, Eq, Debug)]
pub enum Violation {
    /// Two honest members finalized two proposals of one view.
    TwoFinalized {
        /// The view.
        view: View,
        /// Who finalized the first, and who the other.
        members: (Participant, Participant),
    },
    /// The chain of a finalized proposal leaves out a finalized proposal below it.
    Fork {
        /// The view whose proposal is left out.
        below: View,
        /// The view whose chain leaves it out.
        above: View,
    },
    /// An honest member signed two votes that contradict each other.
    VotedTwice {
        /// The member.
        member: Participant,
        /// The kind and view of the first.
        first: (&'static str, View),
        /// The kind and view of the other.
        second: (&'static str, View),
    },
    /// An honest member's host failed.
    HostFailed {
        /// The member.
        member: Participant,
        /// Why.
        error: String,
    },
}

impl Violation {
    /// The view that it is of; genesis where it is of none.
    pub fn view(&self) -> View {
        match self {
            Violation::TwoFinalized { view, .. } => *view,
            Violation::Fork { above, .. } => *above,
            Violation::VotedTwice { second, .. } => second.1,
            Violation::HostFailed { .. } => View::GENESIS,
        }
    }
}

impl fmt::Display for Violation {
    fn fmt(&self, f: &mut fmt::Formatter<'_>) -> fmt::Result {
        match self {
            Violation::TwoFinalized {
                view,
                members: (one, other),
            } => {
                write!(f, "members {one} and {other} finalized two proposals of view {view}")
            }
            Violation::Fork { below, above } => write!(f, "the chain of finalized view {above} leaves out finalized view {below}"),
            Violation::VotedTwice { member, first, second } if first == second => {
                write!(f, "member {member} voted twice: to {} two proposals of view {}", first.0, first.1)
            }
            Violation::VotedTwice { member, first, second } => write!(
                f,
                "member {member} voted twice: to {} view {}, and to {} view {}",
                first.0, first.1, second.0, second.1
            ),
            Violation::HostFailed { member, error } => write!(f, "the host of member {member} failed: {error}"),
        }
    }
}

/// The votes of one member.
#[derive(Debug, Default)]
struct Votes {
    notarize: BTreeMap<View, Proposal>,
    finalize: BTreeMap<View, Proposal>,
    nullify: BTreeMap<View, ()>,
}

/// Compares what members vote and finalize.
#[derive(Debug)]
pub(crate) struct Checks {
    term_length: u64,
    votes: Vec<Votes>,
    finalized: BTreeMap<View, (Proposal, Participant)>,
    blocks: HashMap<Digest, Block>,
}

impl Checks {
    pub(crate) fn new(plan: &Plan) -> Checks {
        Checks {
            term_length: u64::from(plan.term_length.get()),
            votes: (0..plan.members.get()).map(|_| Votes::default()).collect(),
            finalized: BTreeMap::new(),
            blocks: HashMap::new(),
        }
    }

    /// Looks at what an honest member sends.
    pub(crate) fn sent(&mut self, from: Participant, message: &Message) -> Option<Violation> {
        if let Message::Proposal(_, block) = message {
            self.block(block);
        }
        let vote = message.vote().filter(|it| it.signer == from)?;
        self.vote(vote)
    }

    /// Looks at a block, whoever sends it.
    pub(crate) fn block(&mut self, block: &Block) {
        self.blocks.insert(block.digest(), *block);
    }

    fn vote(&mut self, vote: &Vote) -> Option<Violation> {
        let (member, view) = (vote.signer, vote.subject.round().view);
        let votes = &mut self.votes[member.get() as usize];
        let twice = |first, second| Some(Violation::VotedTwice { member, first, second });
        match &vote.subject {
            Subject::Notarize(it) => {
                let is_other = *votes.notarize.entry(view).or_insert(*it) != *it;
                is_other.then(|| twice(("notarize", view), ("notarize", view)))?
            }
            Subject::Finalize(it) if *votes.finalize.entry(view).or_insert(*it) != *it => twice(("finalize", view), ("finalize", view)),
            Subject::Finalize(_) if votes.nullify.contains_key(&view) => twice(("nullify", view), ("finalize", view)),
            Subject::Finalize(_) => None,
            Subject::Nullify(_) => {
                votes.nullify.insert(view, ());
                let last_of_term = (view.get().saturating_sub(1) / self.term_length + 1) * self.term_length;
                let (later, _) = votes.finalize.range(view..=View::new(last_of_term)).next()?;
                twice(("finalize", *later), ("nullify", view))
            }
        }
    }

    /// Looks at what an honest member finalized.
    pub(crate) fn finalized(&mut self, by: Participant, proposal: &Proposal) -> Option<Violation> {
        let view = proposal.view();
        if let Some((other, first)) = self.finalized.get(&view) {
            let members = (*first, by);
            return (other != proposal).then_some(Violation::TwoFinalized { view, members });
        }
        let below = self.finalized.range(..view).next_back().map(|(_, it)| it.0);
        let above = self.finalized.range(view..).next().map(|(_, it)| it.0);
        self.finalized.insert(view, (*proposal, by));
        let left_out = below.and_then(|it| self.left_out(&it, proposal));
        left_out.or_else(|| above.and_then(|it| self.left_out(proposal, &it)))
    }

    /// Returns whether the chain of a proposal leaves out one below. What is not known of blocks is no violation.
    fn left_out(&self, lower: &Proposal, upper: &Proposal) -> Option<Violation> {
        let mut block = self.blocks.get(&upper.payload)?;
        while block.parent.0 > lower.view() {
            block = self.blocks.get(&block.parent.1)?;
        }
        let (below, above) = (lower.view(), upper.view());
        (block.parent.1 != lower.payload).then_some(Violation::Fork { below, above })
    }
}
