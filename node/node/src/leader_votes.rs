//! Leaders that propose twice: the votes of each view's leader, compared with what others vote for.
//!
//! A leader that sends each member one of two proposals shows nobody both. Its vote to notarize is signed, so two members that voted for
//! different proposals exchange theirs: each has the evidence then.

use crate::settings::Turns;
use simplex_view_state::{Certificate, Participant, Proposal, Subject, View, Vote};
use std::collections::{BTreeMap, BTreeSet};

/// The proposals that were seen of each view.
pub struct LeaderVotes {
    turns: Turns,
    views: BTreeMap<View, Seen>,
}

#[derive(Default)]
struct Seen {
    /// The leader's vote to notarize that came first.
    of_leader: Option<Vote>,
    /// The first proposal that each member voted to notarize.
    voted: BTreeMap<Participant, Proposal>,
    /// Who was sent the leader's vote.
    sent: BTreeSet<Participant>,
    is_shown: bool,
}

/// The messages that follow from a vote.
#[derive(Default, Debug, PartialEq, Eq)]
pub struct Found {
    /// Two votes of one leader to notarize two proposals of a view: once a view.
    pub evidence: Option<(Vote, Vote)>,
    /// A vote of a leader, and the members to which it is to be sent, since they voted for another proposal: once a view and member.
    pub to_send: Option<(Vote, Vec<Participant>)>,
}

impl LeaderVotes {
    /// Nothing was seen.
    pub fn new(turns: Turns) -> LeaderVotes {
        LeaderVotes {
            turns,
            views: BTreeMap::new(),
        }
    }

    /// Compares a vote, whose signature is good, with those before. Votes to nullify and to finalize are ignored.
    pub fn see(&mut self, vote: &Vote) -> Found {
        match vote.subject {
            Subject::Notarize(proposal) => self.see_all(proposal, [vote.clone()]),
            Subject::Nullify(_) | Subject::Finalize(_) => Found::default(),
        }
    }

    /// Compares the votes in a notarization, whose signatures are good, with those before. Other certificates are ignored.
    pub fn see_certificate(&mut self, certificate: &Certificate) -> Found {
        let subject = certificate.subject();
        let (Subject::Notarize(proposal), Some(signatures)) = (subject, certificate.signatures()) else {
            return Found::default();
        };
        let votes = signatures.into_iter().map(|(signer, signature)| Vote {
            subject,
            signer,
            signature: signature.to_vec(),
        });
        self.see_all(proposal, votes)
    }

    /// Compares votes to notarize one proposal.
    fn see_all(&mut self, proposal: Proposal, votes: impl IntoIterator<Item = Vote>) -> Found {
        let leader = self.turns.leader(proposal.view());
        let seen = self.views.entry(proposal.view()).or_default();
        let mut found = Found::default();
        for vote in votes {
            seen.voted.entry(vote.signer).or_insert(proposal);
            if vote.signer != leader {
                continue;
            }
            let first = seen.of_leader.get_or_insert_with(|| vote.clone());
            if first.subject != vote.subject && !seen.is_shown {
                seen.is_shown = true;
                found.evidence = Some((first.clone(), vote));
            }
        }
        found.to_send = seen.others(leader);
        found
    }

    /// Nothing below a view is compared any more.
    pub fn forget(&mut self, lowest: View) {
        self.views = self.views.split_off(&lowest);
    }
}

impl Seen {
    /// The leader's vote, for those that voted for another proposal and were not sent it yet.
    fn others(&mut self, leader: Participant) -> Option<(Vote, Vec<Participant>)> {
        let vote = self.of_leader.as_ref()?;
        let is_other = |it: &(&Participant, &Proposal)| *it.0 != leader && Subject::Notarize(*it.1) != vote.subject;
        let others = self.voted.iter().filter(is_other).map(|it| *it.0);
        let fresh: Vec<Participant> = others.filter(|it| self.sent.insert(*it)).collect();
        (!fresh.is_empty()).then(|| (vote.clone(), fresh))
    }
}

#[cfg(test)]
mod tests {
    use super::*;
    use crate::settings::Settings;
    use simplex_view_state::{Digest, Round};

    fn leader_votes() -> LeaderVotes {
        let settings: Settings = toml::from_str(include_str!("../../node.toml")).expect("settings");
        LeaderVotes::new(settings.turns())
    }

    /// A vote to notarize a proposal of view 2, whose leader is member 1.
    fn vote(signer: u32, payload: u8) -> Vote {
        let view = View::new(2);
        Vote {
            subject: Subject::Notarize(Proposal {
                round: Round { view, ..Round::default() },
                parent: View::new(1),
                payload: Digest::new([payload; 32]),
            }),
            signer: Participant::new(signer),
            signature: vec![signer as u8, payload],
        }
    }

    fn sent(found: &Found) -> Vec<u32> {
        found.to_send.iter().flat_map(|it| &it.1).map(|it| it.get()).collect()
    }

    #[test]
    fn who_voted_for_another_proposal_is_sent_the_leaders_vote_once() {
        let mut votes = leader_votes();
        assert_eq!(votes.see(&vote(2, 9)), Found::default());
        assert_eq!(votes.see(&vote(1, 7)).to_send, Some((vote(1, 7), vec![Participant::new(2)])));
        assert_eq!(votes.see(&vote(2, 9)), Found::default());
        assert_eq!(votes.see(&vote(0, 7)), Found::default(), "it voted for this one");
        assert_eq!(sent(&votes.see(&vote(3, 8))), [3]);
    }

    #[test]
    fn two_votes_of_a_leader_are_evidence_once() {
        let mut votes = leader_votes();
        assert_eq!((votes.see(&vote(1, 7)), votes.see(&vote(1, 7))), Default::default());
        assert_eq!(votes.see(&vote(1, 8)).evidence, Some((vote(1, 7), vote(1, 8))));
        assert_eq!(votes.see(&vote(1, 9)).evidence, None);
        let mut others = leader_votes();
        assert_eq!(
            (others.see(&vote(2, 7)), others.see(&vote(2, 8))),
            Default::default(),
            "it does not lead"
        );
    }

    #[test]
    fn a_notarization_counts_as_the_votes_in_it() {
        let (mut votes, signers) = (leader_votes(), [0, 1, 3]);
        votes.see(&vote(1, 7));
        let mut bytes = Vec::new();
        for it in signers.map(|signer| vote(signer, 8)) {
            bytes.extend_from_slice(&it.signer.get().to_be_bytes());
            bytes.extend_from_slice(&(it.signature.len() as u64).to_be_bytes());
            bytes.extend_from_slice(&it.signature);
        }
        let found = votes.see_certificate(&Certificate::of(vote(0, 8).subject, bytes));
        assert_eq!((found.evidence.clone(), sent(&found)), (Some((vote(1, 7), vote(1, 8))), vec![0, 3]));
    }

    #[test]
    fn a_view_that_is_forgotten_is_seen_anew() {
        let mut votes = leader_votes();
        votes.see(&vote(1, 7));
        votes.forget(View::new(3));
        assert_eq!(votes.see(&vote(1, 8)), Found::default());
    }
}
