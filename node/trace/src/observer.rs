//! Makes events of the inputs and outputs of an engine.

use crate::event::{CertificateKind, Event, FetchKind, Proposal, SignedVote, TimeoutReason, VoteKind, proposal_of};
use crate::withheld::Watch;
use simplex_view_state as core;
use simplex_view_state::{Context, Engine, Entries, Input, OpenFetch, Order, Output, Subject};
use std::collections::{BTreeMap, BTreeSet};

/// How many views below the highest one an observer remembers.
const REMEMBERED: u64 = 256;

/// An event, and its view.
pub type Observed = (u64, Event);

/// Makes events of the inputs and outputs of one engine, for a lifetime.
///
/// An engine does not report why it votes to nullify, nor which certificates it made itself: the observer concludes both from what came
/// before. So a timeout's reason is the first of these that was seen: the host gave the view up; the application found its proposal
/// invalid, or did not certify it; no proposal came (leader timeout); else the certification timeout.
#[derive(Clone, Debug)]
pub struct Observer {
    me: u32,
    term_length: u64,
    /// The views whose proposal came, or was built.
    proposed: BTreeSet<u64>,
    /// Why a view was abandoned.
    reasons: BTreeMap<u64, TimeoutReason>,
    /// The views that this member voted to nullify.
    nullified: BTreeSet<u64>,
    /// The views whose proposal was certified, or is final.
    certified: BTreeSet<u64>,
    /// The certificates that came.
    accepted: BTreeSet<(CertificateKind, u64)>,
    fetches: BTreeSet<(FetchKind, u64)>,
    watch: Watch,
}

impl Observer {
    /// An observer of a member's engine whose terms have this number of views.
    pub fn new(me: core::Participant, term_length: u32) -> Observer {
        Observer {
            me: me.get(),
            term_length: u64::from(term_length.max(1)),
            proposed: BTreeSet::new(),
            reasons: BTreeMap::new(),
            nullified: BTreeSet::new(),
            certified: BTreeSet::new(),
            accepted: BTreeSet::new(),
            fetches: BTreeSet::new(),
            watch: Watch::default(),
        }
    }

    /// The event of an input; call it before the engine handles it. `None` where there is none, or where the input is the member's own
    /// vote.
    pub fn before(&self, input: &Input) -> Option<Observed> {
        match input {
            Input::Proposal { from, proposal } if from.get() != self.me => {
                let (from, view) = (from.get(), proposal.view().get());
                let proposal = Proposal::from(proposal);
                Some((view, Event::ProposalReceived { from, proposal }))
            }
            Input::Vote(vote) if vote.signer.get() != self.me => {
                let (from, view) = (vote.signer.get(), vote.subject.round().view.get());
                let (kind, proposal) = (VoteKind::from(&vote.subject), proposal_of(&vote.subject));
                Some((view, Event::VoteReceived { from, kind, proposal }))
            }
            Input::Certificate(it) => {
                let (kind, proposal, signers) = parts_of(it);
                Some((it.round().view.get(), Event::CertificateAccepted { kind, proposal, signers }))
            }
            Input::Verified { view, is_valid } => Some((view.get(), Event::Verified { is_valid: *is_valid })),
            Input::Certified { view, is_success } => Some((view.get(), Event::Certified { is_success: *is_success })),
            Input::GivenUp { view, reason } => Some((
                view.get(),
                Event::Timeout {
                    reason: reason_of(*reason),
                },
            )),
            _ => None,
        }
    }

    /// Takes the event of an input, once the engine returned whether the input was ignored. Returns the event that is written: messages
    /// that came always, all else only where it was not ignored. A reason to abandon a view is written with the vote that follows.
    pub fn after(&mut self, observed: Observed, is_of_use: bool) -> Option<Observed> {
        let (view, event) = observed;
        match &event {
            Event::ProposalReceived { .. } => {
                self.proposed.insert(view);
                return Some((view, event));
            }
            Event::VoteReceived { .. } => return Some((view, event)),
            _ if !is_of_use => return None,
            Event::CertificateAccepted { kind, .. } => {
                self.accepted.insert((*kind, view));
                self.certify(*kind, view);
            }
            Event::Verified { is_valid: false } => self.give_up(view, TimeoutReason::InvalidProposal),
            Event::Certified { is_success: false } => self.give_up(view, TimeoutReason::FailedCertification),
            Event::Certified { is_success: true } => drop(self.certified.insert(view)),
            Event::Timeout { reason } => {
                self.give_up(view, *reason);
                return None;
            }
            _ => {}
        }
        Some((view, event))
    }

    fn certify(&mut self, kind: CertificateKind, view: u64) {
        if kind == CertificateKind::Finalization {
            self.certified.insert(view);
        }
    }

    fn give_up(&mut self, view: u64, reason: TimeoutReason) {
        self.reasons.entry(view).or_insert(reason);
    }

    /// The events of an output.
    pub fn output(&mut self, output: &Output) -> Vec<Observed> {
        match output {
            Output::Store(entries) => vec![stored(entries, false)],
            Output::Replace(entries) => vec![stored(entries, true)],
            Output::Vote(order) => self.vote(order),
            Output::Broadcast(it) => self.broadcast(it).into_iter().collect(),
            Output::Build(context) => vec![self.build(context)],
            Output::Fetch(it) => self.fetch(it),
            Output::Finalized(it) => {
                let (view, proposal) = (it.view().get(), Proposal::from(it));
                self.certified.insert(view);
                vec![(view, Event::Finalized { proposal })]
            }
            Output::Equivocated(first, second) => {
                let (signer, view) = (first.signer.get(), first.subject.round().view.get());
                let (first, second) = (SignedVote::from(first), SignedVote::from(second));
                vec![(view, Event::Equivocation { signer, first, second })]
            }
            Output::ProposedTwice(view, leader) => vec![(view.get(), Event::ProposedTwice { leader: leader.get() })],
            Output::Forget(_) => {
                self.forget();
                Vec::new()
            }
            Output::Verify(..) | Output::StopBuilding(_) | Output::Certify(_) => Vec::new(),
        }
    }

    /// A vote, and before one to nullify why.
    fn vote(&mut self, order: &Order) -> Vec<Observed> {
        let view = order.subject.round().view.get();
        let (kind, proposal) = (VoteKind::from(&order.subject), proposal_of(&order.subject));
        let vote = (view, Event::Vote { kind, proposal });
        if !matches!(order.subject, Subject::Nullify(_)) {
            self.proposed.insert(view);
            return vec![vote];
        }
        let reason = match self.reasons.get(&view) {
            _ if !self.nullified.insert(view) => TimeoutReason::Retry,
            Some(reason) => *reason,
            None if self.proposed.contains(&view) => TimeoutReason::CertificationTimeout,
            None => TimeoutReason::LeaderTimeout,
        };
        let withheld = self.watch.give_up(view);
        [(view, Event::Timeout { reason })]
            .into_iter()
            .chain(withheld)
            .chain([vote])
            .collect()
    }

    /// A certificate that did not come from another member was made here.
    fn broadcast(&mut self, it: &core::Certificate) -> Option<Observed> {
        let view = it.round().view.get();
        let (kind, proposal, signers) = parts_of(it);
        self.certify(kind, view);
        let is_made = !self.accepted.contains(&(kind, view));
        is_made.then_some((view, Event::CertificateMade { kind, proposal, signers }))
    }

    fn build(&self, context: &Context) -> Observed {
        let (view, parent) = (context.round.view.get(), context.parent.get());
        let is_first_of_term = (view - 1).is_multiple_of(self.term_length);
        let is_certified = parent == 0 || self.certified.contains(&parent);
        let event = if is_first_of_term && !is_certified {
            Event::Handoff { parent }
        } else {
            Event::Build { parent }
        };
        (view, event)
    }

    fn fetch(&mut self, it: &core::Fetch) -> Vec<Observed> {
        let (certificate, view) = (FetchKind::from(it.kind), it.view.get());
        let of = it.of.map(core::Participant::get);
        let is_new = self.fetches.insert((certificate, view));
        let opened = is_new.then_some((view, Event::FetchOpened { certificate }));
        let asked = (view, Event::FetchAsked { certificate, of });
        opened.into_iter().chain([asked]).collect()
    }

    /// Returns the votes that the engine withheld on the views that it has left since the last call. Call it before each poll, or at least
    /// after each turn: the last call before explains why the engine abandons a view.
    pub fn watch(&mut self, engine: &Engine) -> Vec<Observed> {
        self.watch.look(engine)
    }

    /// Returns whether fetches were opened that are not settled yet.
    pub fn has_fetches(&self) -> bool {
        !self.fetches.is_empty()
    }

    /// The fetches that are settled, of those that are open now.
    pub fn settled(&mut self, open: &[OpenFetch]) -> Vec<Observed> {
        let open: BTreeSet<(FetchKind, u64)> = open.iter().map(|it| (FetchKind::from(it.kind), it.view.get())).collect();
        let settled: Vec<_> = self.fetches.difference(&open).copied().collect();
        self.fetches.retain(|it| open.contains(it));
        let event = |(certificate, view)| (view, Event::FetchSettled { certificate });
        settled.into_iter().map(event).collect()
    }

    fn forget(&mut self) {
        let highest = self.proposed.last().copied().unwrap_or(0);
        let lowest = highest.saturating_sub(REMEMBERED);
        self.proposed = self.proposed.split_off(&lowest);
        self.reasons = self.reasons.split_off(&lowest);
        self.nullified = self.nullified.split_off(&lowest);
        self.certified = self.certified.split_off(&lowest);
        self.accepted.retain(|it| it.1 >= lowest);
    }
}

fn stored(entries: &Entries, is_replacement: bool) -> Observed {
    let (bytes, entries) = (entries.bytes.len() as u64, entries.stored.entries.get());
    (
        0,
        Event::Store {
            bytes,
            entries,
            is_replacement,
        },
    )
}

fn parts_of(it: &core::Certificate) -> (CertificateKind, Option<Proposal>, Vec<u32>) {
    let signatures = it.signatures().unwrap_or_default();
    let signers = signatures.iter().map(|it| it.0.get()).collect();
    (CertificateKind::from(it.kind()), proposal_of(&it.subject()), signers)
}

fn reason_of(reason: core::TimeoutReason) -> TimeoutReason {
    match reason {
        core::TimeoutReason::Retry => TimeoutReason::Retry,
        core::TimeoutReason::Inactivity => TimeoutReason::Inactivity,
        core::TimeoutReason::LeaderNullify => TimeoutReason::LeaderNullify,
        core::TimeoutReason::InvalidProposal => TimeoutReason::InvalidProposal,
        core::TimeoutReason::FailedCertification => TimeoutReason::FailedCertification,
        core::TimeoutReason::LeaderTimeout | core::TimeoutReason::MissingProposal => TimeoutReason::LeaderTimeout,
        _ => TimeoutReason::CertificationTimeout,
    }
}

#[cfg(test)]
mod tests {
    use super::*;
    use simplex_view_state::{Digest, Epoch, Participant, Round, View, Vote};

    fn observer() -> Observer {
        Observer::new(Participant::new(0), 2)
    }

    fn round(view: u64) -> Round {
        Round {
            epoch: Epoch::new(1),
            view: View::new(view),
        }
    }

    fn order(subject: Subject) -> Output {
        Output::Vote(Order {
            subject,
            signer: Participant::new(0),
            text: Vec::new(),
        })
    }

    fn reasons(seen: &[Observed]) -> Vec<TimeoutReason> {
        let reason = |it: &Observed| match it.1 {
            Event::Timeout { reason } => Some(reason),
            _ => None,
        };
        seen.iter().filter_map(reason).collect()
    }

    #[test]
    fn a_vote_to_nullify_has_the_reason_that_was_seen_first() {
        let mut observer = observer();
        let nullify = |view| order(Subject::Nullify(round(view)));
        assert_eq!(reasons(&observer.output(&nullify(1))), [TimeoutReason::LeaderTimeout]);
        assert_eq!(reasons(&observer.output(&nullify(1))), [TimeoutReason::Retry]);
        let tell = |observer: &mut Observer, input: Input| {
            let before = observer.before(&input);
            before.and_then(|it| observer.after(it, true))
        };
        let proposal = core::Proposal {
            round: round(2),
            parent: View::GENESIS,
            payload: Digest::default(),
        };
        let from = Participant::new(1);
        assert!(tell(&mut observer, Input::Proposal { from, proposal }).is_some());
        assert_eq!(reasons(&observer.output(&nullify(2))), [TimeoutReason::CertificationTimeout]);
        let (view, is_valid) = (View::new(3), false);
        assert!(tell(&mut observer, Input::Verified { view, is_valid }).is_some());
        assert_eq!(reasons(&observer.output(&nullify(3))), [TimeoutReason::InvalidProposal]);
    }

    #[test]
    fn a_build_on_a_parent_that_is_not_certified_is_a_handoff() {
        let mut observer = observer();
        let build = |view, parent| {
            Output::Build(Context {
                round: round(view),
                leader: Participant::new(0),
                parent: View::new(parent),
                parent_payload: Digest::default(),
            })
        };
        assert_eq!(observer.output(&build(3, 2)), [(3, Event::Handoff { parent: 2 })]);
        assert_eq!(observer.output(&build(4, 3)), [(4, Event::Build { parent: 3 })]);
        observer.after((2, Event::Certified { is_success: true }), true);
        assert_eq!(observer.output(&build(3, 2)), [(3, Event::Build { parent: 2 })]);
    }

    #[test]
    fn a_certificate_that_came_is_not_made_here() {
        let mut observer = observer();
        let certificate = core::Certificate::of(Subject::Nullify(round(5)), Vec::new());
        let made = observer.output(&Output::Broadcast(certificate.clone()));
        assert!(matches!(made[..], [(5, Event::CertificateMade { .. })]));
        let certificate = core::Certificate::of(Subject::Nullify(round(6)), Vec::new());
        let came = observer.before(&Input::Certificate(certificate.clone())).expect("an event");
        assert!(observer.after(came, true).is_some());
        assert_eq!(observer.output(&Output::Broadcast(certificate)), []);
    }

    #[test]
    fn own_votes_are_no_votes_that_came() {
        let vote = |signer| {
            let (subject, signature) = (Subject::Nullify(round(1)), Vec::new());
            let signer = Participant::new(signer);
            Input::Vote(Vote {
                subject,
                signer,
                signature,
            })
        };
        assert_eq!(observer().before(&vote(0)), None);
        assert!(observer().before(&vote(1)).is_some());
    }
}
