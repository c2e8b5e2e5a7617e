//! Which member has which certificate, so that nobody is sent what it has.
//!
//! A member shows that it has a certificate by sending one on the same subject, or by its vote to finalize a proposal, which it casts once
//! it has the notarization. One that lies about that goes without a certificate that it can ask for: it harms nobody else.
//!
//! A certificate that more members sent than may be faulty need not be sent at all. One of them is honest; and the first honest member that
//! broadcasts it, before which no honest one sends or serves it, sends it to all that do not have it.

use crate::vote::kind_of;
use simplex_view_state::{CertificateKind, Participant, Subject, View, Vote};
use std::collections::HashMap;

/// How a member has shown that it has a certificate.
#[derive(Clone, Copy, PartialEq, Eq, PartialOrd, Ord, Debug)]
enum Shown {
    /// By a vote.
    Voted,
    /// By a certificate.
    Sent,
}

/// The certificates that members have shown to have, and those that they were sent, of the views that are not forgotten.
#[derive(Debug, Default)]
pub(super) struct Holders {
    shown: HashMap<(View, CertificateKind, Participant), (Subject, Shown)>,
    sent: HashMap<(View, CertificateKind, Participant), Subject>,
    /// The certificates that were broadcast.
    broadcast: HashMap<(View, CertificateKind), Subject>,
}

fn key_of(subject: &Subject, member: Participant) -> (View, CertificateKind, Participant) {
    (subject.round().view, kind_of(subject), member)
}

impl Holders {
    /// A member sent a certificate on this.
    pub fn show(&mut self, member: Participant, subject: Subject) {
        self.shown.insert(key_of(&subject, member), (subject, Shown::Sent));
    }

    /// A member sent a vote. Its own one to finalize shows that it has the notarization.
    pub fn show_by(&mut self, from: Participant, vote: &Vote) {
        if let Subject::Finalize(proposal) = vote.subject
            && vote.signer == from
        {
            let subject = Subject::Notarize(proposal);
            self.shown.entry(key_of(&subject, from)).or_insert((subject, Shown::Voted));
        }
    }

    /// A member was sent a certificate on this.
    pub fn sent(&mut self, member: Participant, subject: Subject) {
        self.sent.insert(key_of(&subject, member), subject);
    }

    /// The members among so many to which a certificate on this is broadcast now. The first time those are left out that have it, and all
    /// where one of those that sent it is honest. Again, it is for those that missed it: all but those that have shown to have it.
    pub fn lacking(&mut self, subject: Subject, members: u32) -> Vec<Participant> {
        let key = (subject.round().view, kind_of(&subject));
        let is_again = self.broadcast.insert(key, subject) == Some(subject);
        let all = || (0..members).map(Participant::new);
        let shown = |member| {
            self.shown
                .get(&key_of(&subject, member))
                .filter(|it| it.0 == subject)
                .map(|it| it.1)
        };
        let senders = all().filter(|it| shown(*it) == Some(Shown::Sent)).count();
        if !is_again && senders > most_faulty(members) as usize {
            return Vec::new();
        }
        let was_sent = |member| !is_again && self.sent.get(&key_of(&subject, member)) == Some(&subject);
        all().filter(|it| shown(*it).is_none() && !was_sent(*it)).collect()
    }

    /// Returns whether a certificate on this was broadcast.
    pub fn was_broadcast(&self, subject: &Subject) -> bool {
        self.broadcast.get(&(subject.round().view, kind_of(subject))) == Some(subject)
    }

    /// Nothing of the views below this one is known any more.
    pub fn forget(&mut self, lowest: View) {
        self.shown.retain(|(view, ..), _| *view >= lowest);
        self.sent.retain(|(view, ..), _| *view >= lowest);
        self.broadcast.retain(|(view, _), _| *view >= lowest);
    }
}

/// How many of so many members may be faulty.
pub(super) fn most_faulty(members: u32) -> u32 {
    members.saturating_sub(1) / 3
}

#[cfg(test)]
mod tests {
    use super::*;
    use simplex_view_state::{Digest, Proposal, Round};

    fn round(view: u64) -> Round {
        Round {
            view: View::new(view),
            ..Round::default()
        }
    }

    fn proposal(view: u64, payload: u8) -> Proposal {
        Proposal {
            round: round(view),
            parent: View::GENESIS,
            payload: Digest::new([payload; 32]),
        }
    }

    fn members(these: impl IntoIterator<Item = u32>) -> Vec<Participant> {
        these.into_iter().map(Participant::new).collect()
    }

    #[test]
    fn who_has_shown_to_have_a_certificate_is_not_sent_it() {
        let mut holders = Holders::default();
        let subject = Subject::Nullify(round(3));
        holders.show(Participant::new(1), subject);
        holders.show(Participant::new(2), Subject::Nullify(round(4)));
        assert_eq!(holders.lacking(subject, 4), members([0, 2, 3]));
        assert_eq!(holders.lacking(subject, 4), members([0, 2, 3]), "again, for those that missed it");
    }

    #[test]
    fn what_an_honest_member_sent_is_broadcast_to_nobody_but_again() {
        let subject = Subject::Nullify(round(3));
        let shown_by = |these: &[u32]| {
            let mut holders = Holders::default();
            these.iter().for_each(|it| holders.show(Participant::new(*it), subject));
            holders.show(Participant::new(6), Subject::Nullify(round(4)));
            holders
        };
        let (mut two, mut three) = (shown_by(&[1, 1, 2]), shown_by(&[1, 2, 3]));
        assert_eq!(two.lacking(subject, 7), members([0, 3, 4, 5, 6]), "both may be faulty");
        assert_eq!(three.lacking(subject, 7), members([]), "of seven three are not all faulty");
        assert_eq!(three.lacking(subject, 7), members([0, 4, 5, 6]), "again, for those that missed it");
    }

    #[test]
    fn votes_to_finalize_do_not_show_that_a_notarization_was_sent() {
        let mut holders = Holders::default();
        for signer in 1..7 {
            let vote = Vote {
                subject: Subject::Finalize(proposal(3, 7)),
                signer: Participant::new(signer),
                signature: Vec::new(),
            };
            holders.show_by(vote.signer, &vote);
        }
        assert_eq!(holders.lacking(Subject::Notarize(proposal(3, 7)), 8), members([0, 7]));
    }

    #[test]
    fn a_certificate_on_another_proposal_is_another_one() {
        let mut holders = Holders::default();
        let [one, other] = [7, 8].map(|payload| Subject::Notarize(proposal(3, payload)));
        holders.show(Participant::new(1), other);
        holders.show(Participant::new(2), Subject::Finalize(proposal(3, 7)));
        assert_eq!(holders.lacking(one, 3), members(0..3));
    }

    #[test]
    fn who_was_sent_one_is_not_sent_it_by_the_first_broadcast_and_is_by_a_second() {
        let mut holders = Holders::default();
        let subject = Subject::Nullify(round(3));
        holders.sent(Participant::new(1), subject);
        assert_eq!(holders.lacking(subject, 3), members([0, 2]));
        assert_eq!(holders.lacking(subject, 3), members(0..3), "it may be lost");
    }

    #[test]
    fn a_members_own_vote_to_finalize_shows_its_notarization() {
        let mut holders = Holders::default();
        let vote = |signer| Vote {
            subject: Subject::Finalize(proposal(3, 7)),
            signer: Participant::new(signer),
            signature: Vec::new(),
        };
        holders.show_by(Participant::new(1), &vote(1));
        holders.show_by(Participant::new(2), &vote(0));
        assert_eq!(holders.lacking(Subject::Notarize(proposal(3, 7)), 3), members([0, 2]));
        assert_eq!(holders.lacking(Subject::Finalize(proposal(3, 7)), 3), members(0..3));
    }

    #[test]
    fn views_are_forgotten() {
        let mut holders = Holders::default();
        for view in 1..10 {
            holders.show(Participant::new(1), Subject::Nullify(round(view)));
            holders.sent(Participant::new(2), Subject::Nullify(round(view)));
            holders.lacking(Subject::Nullify(round(view)), 3);
        }
        holders.forget(View::new(9));
        assert_eq!((holders.shown.len(), holders.sent.len(), holders.broadcast.len()), (1, 1, 1));
        holders.forget(View::new(10));
        assert_eq!((holders.shown.len(), holders.sent.len(), holders.broadcast.len()), (0, 0, 0));
    }
}
