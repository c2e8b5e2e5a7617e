//! Missing blocks: each is asked of one member after another until it comes ([`asks`]).

mod asks;

use crate::application::worker::Kind;
use asks::{Asks, Members};
use simplex_view_state::{Context, Digest, Moment, Participant, Proposal, View};
use std::collections::{BTreeMap, BTreeSet, HashSet};

/// The question that the application gets once a block is here.
#[derive(Clone, Copy, PartialEq, Eq, Debug)]
pub enum Pending {
    /// To build in a context.
    Build(Context),
    /// To verify a proposal.
    Verify(Context, Proposal),
    /// To judge a notarized proposal.
    Certify(Proposal),
}

impl Pending {
    fn key(&self) -> (View, Kind) {
        match self {
            Pending::Build(context) => (context.round.view, Kind::Build),
            Pending::Verify(context, _) => (context.round.view, Kind::Verify),
            Pending::Certify(proposal) => (proposal.view(), Kind::Certify),
        }
    }
}

/// The questions that wait for blocks, and the blocks that are asked for.
pub struct MissingBlocks {
    members: Members,
    /// The questions that wait, and for which block: a proposal's own, or that of an ancestor.
    questions: BTreeMap<(View, Kind), (Pending, (View, Digest))>,
    /// The block that the finalized chain waits for.
    of_chain: Option<Digest>,
    /// The blocks that are asked for, each with its view.
    wanted: BTreeMap<Digest, (View, Asks)>,
}

impl MissingBlocks {
    /// Nothing waits at this member of so many.
    pub fn new(me: Participant, members: u32) -> MissingBlocks {
        MissingBlocks {
            members: Members::new(me, members),
            questions: BTreeMap::new(),
            of_chain: None,
            wanted: BTreeMap::new(),
        }
    }

    /// A question waits for this block, in place of the one of its kind and view.
    pub fn wait(&mut self, question: Pending, block: (View, Digest)) {
        self.questions.insert(question.key(), (question, block));
    }

    /// No block is to be built in a view.
    pub fn stop_build(&mut self, view: View) {
        self.questions.remove(&(view, Kind::Build));
    }

    /// No block is to be built below a view.
    pub fn forget_builds(&mut self, lowest: View) {
        self.questions.retain(|(view, kind), _| *kind != Kind::Build || *view >= lowest);
    }

    /// The finalized chain waits for this block; none where it has all of them.
    pub fn deliver(&mut self, lacking: Option<(View, Digest)>, leader: Participant, now: Moment) {
        let payload = lacking.map(|(_, payload)| payload);
        if payload != self.of_chain {
            let before = std::mem::replace(&mut self.of_chain, payload);
            self.drop_unneeded(before);
        }
        if let Some((view, payload)) = lacking {
            self.want(view, payload, leader, now);
        }
    }

    /// Stops asking for the block that the chain waited for, unless something else waits for it.
    fn drop_unneeded(&mut self, payload: Option<Digest>) {
        let is_needed = |payload: &Digest| self.questions.values().any(|(_, block)| block.1 == *payload);
        if let Some(payload) = payload.filter(|it| !is_needed(it)) {
            self.wanted.remove(&payload);
        }
    }

    /// A block is asked for, of this member first. What is asked for already stays as it is.
    pub fn want(&mut self, view: View, payload: Digest, peer: Participant, now: Moment) {
        self.wanted.entry(payload).or_insert((view, Asks::begin(peer, now)));
    }

    /// The open connection to a member has this number; with none it is asked for nothing.
    pub fn connected(&mut self, member: Participant, connection: Option<u64>) {
        self.members.connected(member, connection);
    }

    /// A member was heard of again, after a silence: it is asked anew.
    pub fn returned(&mut self, member: Participant) {
        self.members.returned(member);
    }

    /// Returns whether a block is asked for.
    pub fn wants(&self, payload: &Digest) -> bool {
        self.wanted.contains_key(payload)
    }

    /// The blocks that are asked for.
    pub fn payloads(&self) -> HashSet<Digest> {
        self.wanted.keys().copied().collect()
    }

    /// How many blocks are asked for.
    pub fn len(&self) -> usize {
        self.wanted.len()
    }

    /// Returns whether no block is asked for.
    pub fn is_empty(&self) -> bool {
        self.wanted.is_empty()
    }

    /// A block is here. Returns what waited for it.
    pub fn arrived(&mut self, payload: &Digest) -> Vec<Pending> {
        self.wanted.remove(payload);
        self.take_where(|block| block.1 == *payload)
    }

    /// The final blocks up to a view are archived. Returns what waited for one of them.
    pub fn archived(&mut self, upto: View) -> Vec<Pending> {
        self.take_where(|block| block.0 <= upto)
    }

    fn take_where(&mut self, is_here: impl Fn(&(View, Digest)) -> bool) -> Vec<Pending> {
        let taken = self.questions.values().filter(|it| is_here(&it.1)).map(|it| it.0).collect();
        self.questions.retain(|_, it| !is_here(&it.1));
        taken
    }

    /// Nothing waits in the views below any more. Blocks that nothing waits for are asked for no longer: perhaps nobody has them.
    pub fn forget(&mut self, lowest: View) {
        self.questions.retain(|(view, _), _| *view >= lowest);
        let of_questions = self.questions.values().map(|(_, block)| block.1);
        let needed: BTreeSet<Digest> = of_questions.chain(self.of_chain).collect();
        self.wanted.retain(|payload, _| needed.contains(payload));
    }

    /// The blocks that are to be asked for now, and of whom.
    pub fn due(&mut self, now: Moment) -> Vec<(View, Digest, Participant)> {
        let members = &mut self.members;
        let due = |(payload, (view, asks)): (&Digest, &mut (View, Asks))| Some((*view, *payload, asks.due(members, now)?));
        self.wanted.iter_mut().filter_map(due).collect()
    }
}

#[cfg(test)]
mod tests {
    use super::*;
    use simplex_view_state::{Epoch, Round};

    fn proposal(view: u64, payload: u8) -> Proposal {
        let (epoch, view) = (Epoch::new(1), View::new(view));
        Proposal {
            round: Round { epoch, view },
            parent: View::GENESIS,
            payload: Digest::new([payload; 32]),
        }
    }

    fn at(millis: u64) -> Moment {
        Moment::from_millis(millis)
    }

    /// A proposal is to be judged, whose block is asked for.
    fn judge(missing: &mut MissingBlocks, proposal: Proposal, peer: Participant, now: Moment) {
        missing.wait(Pending::Certify(proposal), (proposal.view(), proposal.payload));
        missing.want(proposal.view(), proposal.payload, peer, now);
    }

    /// The missing blocks of a member, which is connected to all others.
    fn connected(me: u32, members: u32) -> MissingBlocks {
        let mut missing = MissingBlocks::new(Participant::new(me), members);
        (0..members).for_each(|it| missing.connected(Participant::new(it), Some(1)));
        missing
    }

    #[test]
    fn each_other_member_is_asked_in_turn_until_the_block_comes() {
        let mut missing = connected(2, 4);
        let lacking = proposal(5, 7);
        judge(&mut missing, lacking, Participant::new(1), at(50));
        assert!(missing.due(at(49)).is_empty());
        let peers: Vec<u32> = (50..2000).flat_map(|now| missing.due(at(now))).map(|it| it.2.get()).collect();
        assert_eq!(peers[..6], [1, 3, 0, 1, 3, 0]);
        assert_eq!(missing.arrived(&lacking.payload), [Pending::Certify(lacking)]);
        assert!(missing.due(at(99_999)).is_empty() && missing.is_empty());
    }

    #[test]
    fn a_block_is_asked_for_as_long_as_something_waits_for_it() {
        let mut missing = MissingBlocks::new(Participant::new(0), 4);
        for view in 1..=4 {
            judge(&mut missing, proposal(view, view as u8), Participant::new(1), at(0));
        }
        missing.deliver(Some((View::new(1), Digest::new([1; 32]))), Participant::new(3), at(0));
        missing.forget(View::new(4));
        let is_wanted = |it: &MissingBlocks| [1, 2, 3, 4].map(|payload| it.wants(&Digest::new([payload; 32])));
        assert_eq!(is_wanted(&missing), [true, false, false, true]);
        missing.deliver(None, Participant::new(3), at(0));
        missing.forget(View::new(4));
        assert_eq!(is_wanted(&missing), [false, false, false, true]);
        assert!(missing.arrived(&Digest::new([2; 32])).is_empty());
    }

    #[test]
    fn a_question_waits_for_an_ancestor_until_it_comes_or_is_archived() {
        let mut missing = MissingBlocks::new(Participant::new(0), 4);
        let context = |view| Context {
            round: proposal(view, 0).round,
            leader: Participant::new(0),
            parent: View::new(3),
            parent_payload: Digest::new([3; 32]),
        };
        let ancestor = |view: u8| (View::new(view.into()), Digest::new([view; 32]));
        let [verify, build] = [Pending::Verify(context(7), proposal(7, 7)), Pending::Build(context(9))];
        let all = |it: &mut MissingBlocks| {
            it.wait(verify, ancestor(5));
            it.wait(Pending::Certify(proposal(8, 8)), ancestor(3));
            it.wait(build, ancestor(5));
        };
        all(&mut missing);
        assert!(missing.arrived(&proposal(7, 7).payload).is_empty(), "its own block is here");
        assert_eq!(missing.arrived(&ancestor(5).1), [verify, build]);
        assert!(missing.archived(View::new(2)).is_empty());
        assert_eq!(missing.archived(View::new(3)), [Pending::Certify(proposal(8, 8))]);
        all(&mut missing);
        missing.forget_builds(View::new(9));
        missing.forget(View::new(8));
        assert_eq!(missing.arrived(&ancestor(5).1), [build]);
        missing.wait(build, ancestor(5));
        missing.forget_builds(View::new(10));
        assert!(missing.arrived(&ancestor(5).1).is_empty(), "its view is passed");
    }

    #[test]
    fn a_member_alone_asks_nobody() {
        let mut missing = MissingBlocks::new(Participant::new(0), 1);
        judge(&mut missing, proposal(1, 1), Participant::new(0), at(0));
        assert!(missing.due(at(0)).is_empty());
    }
}
