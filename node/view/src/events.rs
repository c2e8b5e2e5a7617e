//! Events in the form that the page has: numbers.

use simplex_trace::{CertificateKind, Event, Proposal, TimeoutReason, VoteKind, Withheld};
use std::collections::HashMap;

/// The member of an event of the network, and the other member of an event that has none.
pub const NOBODY: u32 = u32::MAX;

/// The kind of an event. The page's `data.js` has the same list, in the same order.
#[derive(Clone, Copy, PartialEq, Eq, PartialOrd, Ord, Hash, Debug)]
#[repr(u8)]
pub enum Code {
    Start,
    Resume,
    Crash,
    Partition,
    ProposalSent,
    ProposalReceived,
    Verified,
    Invalid,
    Certified,
    NotCertified,
    Notarize,
    Nullify,
    Finalize,
    NotarizeReceived,
    NullifyReceived,
    FinalizeReceived,
    NotarizationMade,
    NullificationMade,
    FinalizationMade,
    NotarizationAccepted,
    NullificationAccepted,
    FinalizationAccepted,
    Timeout,
    NotarizeWithheld,
    FinalizeWithheld,
    Build,
    Handoff,
    FetchOpened,
    FetchAsked,
    FetchServed,
    FetchSettled,
    Equivocation,
    ProposedTwice,
    Finalized,
    Stored,
    Replaced,
    Dropped,
    Violation,
}

/// An event as numbers.
#[derive(Clone, Copy, PartialEq, Eq, Debug)]
pub struct Seen {
    /// The moment, in microseconds.
    pub at: u64,
    /// The view.
    pub view: u64,
    /// The member.
    pub member: u32,
    /// The other member: who sent, asked or signed.
    pub other: u32,
    /// A number that depends on the code: a parent's view, bytes, a count, or the place of a text or of members in a table.
    pub value: u64,
    /// The kind.
    pub code: Code,
    /// Which of the view's proposals, from 1; 0 of none. Of a timeout and of a vote that is withheld the reason, of a fetch the kind.
    pub choice: u8,
}

/// The tables that events point into.
#[derive(Debug, Default)]
pub struct Tables {
    /// The proposals of each view.
    pub proposals: HashMap<u64, Vec<Proposal>>,
    /// Sets of members.
    pub sets: Vec<Vec<u32>>,
    /// Texts.
    pub texts: Vec<String>,
    places: HashMap<Vec<u32>, u64>,
}

impl Tables {
    fn choice(&mut self, view: u64, proposal: &Proposal) -> u8 {
        let all = self.proposals.entry(view).or_default();
        let place = all.iter().position(|it| it == proposal).unwrap_or_else(|| {
            all.push(proposal.clone());
            all.len() - 1
        });
        u8::try_from(place + 1).unwrap_or(u8::MAX)
    }

    fn set(&mut self, members: &[u32]) -> u64 {
        if let Some(place) = self.places.get(members) {
            return *place;
        }
        self.sets.push(members.to_vec());
        let place = self.sets.len() as u64 - 1;
        self.places.insert(members.to_vec(), place);
        place
    }

    fn text(&mut self, text: String) -> u64 {
        self.texts.push(text);
        self.texts.len() as u64 - 1
    }

    /// The numbers of an event.
    pub fn seen(&mut self, at: u64, member: Option<u32>, view: u64, event: Event) -> Seen {
        let mut seen = Seen {
            at,
            view,
            member: member.unwrap_or(NOBODY),
            other: NOBODY,
            value: 0,
            code: Code::Start,
            choice: 0,
        };
        self.fill(&mut seen, event);
        seen
    }

    fn fill(&mut self, seen: &mut Seen, event: Event) {
        let view = seen.view;
        seen.code = code_of(&event);
        match event {
            Event::Resume { entries } => seen.value = entries,
            Event::Partition { groups } => seen.value = self.text(groups_text(&groups)),
            Event::ProposalSent { to, proposal } => {
                seen.choice = self.choice(view, &proposal);
                seen.value = self.set(&to);
            }
            Event::ProposalReceived { from, proposal } => (seen.other, seen.choice) = (from, self.choice(view, &proposal)),
            Event::Vote { proposal, .. } => seen.choice = proposal.map_or(0, |it| self.choice(view, &it)),
            Event::VoteReceived { from, proposal, .. } => {
                (seen.other, seen.choice) = (from, proposal.map_or(0, |it| self.choice(view, &it)));
            }
            Event::CertificateMade { proposal, signers, .. } | Event::CertificateAccepted { proposal, signers, .. } => {
                (seen.choice, seen.value) = (proposal.map_or(0, |it| self.choice(view, &it)), self.set(&signers));
            }
            Event::Timeout { reason } => seen.choice = reason_number(reason),
            Event::Withheld { reason, .. } => seen.choice = withheld_number(reason),
            Event::Build { parent } | Event::Handoff { parent } => seen.value = parent,
            Event::FetchOpened { certificate } | Event::FetchSettled { certificate } => seen.choice = certificate as u8,
            Event::FetchAsked { certificate, of } => (seen.choice, seen.other) = (certificate as u8, of.unwrap_or(NOBODY)),
            Event::FetchServed { certificate, to } => (seen.choice, seen.other) = (certificate as u8, to),
            Event::Equivocation { signer, first, second } => {
                let evidence = [first, second].map(|it| format!("{} signed {}", it.text, it.signature));
                (seen.other, seen.value) = (signer, self.text(evidence.join(" and ")));
            }
            Event::ProposedTwice { leader } => seen.other = leader,
            Event::Finalized { proposal } => seen.choice = self.choice(view, &proposal),
            Event::Store { bytes, .. } => seen.value = bytes,
            Event::Violation { text } => seen.value = self.text(text),
            Event::Dropped { count } => seen.value = count,
            Event::Start | Event::Crash | Event::Verified { .. } | Event::Certified { .. } => {}
        }
    }
}

fn groups_text(groups: &[Vec<u32>]) -> String {
    let group = |members: &Vec<u32>| members.iter().map(u32::to_string).collect::<Vec<_>>().join(",");
    groups.iter().map(group).collect::<Vec<_>>().join("|")
}

/// The words of a timeout's reasons, by number.
pub const REASONS: [TimeoutReason; 7] = [
    TimeoutReason::Retry,
    TimeoutReason::Inactivity,
    TimeoutReason::LeaderNullify,
    TimeoutReason::LeaderTimeout,
    TimeoutReason::CertificationTimeout,
    TimeoutReason::InvalidProposal,
    TimeoutReason::FailedCertification,
];

fn reason_number(reason: TimeoutReason) -> u8 {
    let place = REASONS.iter().position(|it| *it == reason);
    place.map_or(0, |it| it as u8)
}

fn withheld_number(reason: Withheld) -> u8 {
    let place = Withheld::ALL.iter().position(|it| *it == reason);
    place.map_or(0, |it| it as u8)
}

fn code_of(event: &Event) -> Code {
    match event {
        Event::Start => Code::Start,
        Event::Resume { .. } => Code::Resume,
        Event::Crash => Code::Crash,
        Event::Partition { .. } => Code::Partition,
        Event::ProposalSent { .. } => Code::ProposalSent,
        Event::ProposalReceived { .. } => Code::ProposalReceived,
        Event::Verified { is_valid: true } => Code::Verified,
        Event::Verified { is_valid: false } => Code::Invalid,
        Event::Certified { is_success: true } => Code::Certified,
        Event::Certified { is_success: false } => Code::NotCertified,
        Event::Vote { kind, .. } => of_vote(*kind, [Code::Notarize, Code::Nullify, Code::Finalize]),
        Event::VoteReceived { kind, .. } => of_vote(*kind, [Code::NotarizeReceived, Code::NullifyReceived, Code::FinalizeReceived]),
        Event::CertificateMade { kind, .. } => {
            of_certificate(*kind, [Code::NotarizationMade, Code::NullificationMade, Code::FinalizationMade])
        }
        Event::CertificateAccepted { kind, .. } => of_certificate(
            *kind,
            [Code::NotarizationAccepted, Code::NullificationAccepted, Code::FinalizationAccepted],
        ),
        Event::Timeout { .. } => Code::Timeout,
        Event::Withheld {
            kind: VoteKind::Finalize, ..
        } => Code::FinalizeWithheld,
        Event::Withheld { .. } => Code::NotarizeWithheld,
        Event::Build { .. } => Code::Build,
        Event::Handoff { .. } => Code::Handoff,
        Event::FetchOpened { .. } => Code::FetchOpened,
        Event::FetchAsked { .. } => Code::FetchAsked,
        Event::FetchServed { .. } => Code::FetchServed,
        Event::FetchSettled { .. } => Code::FetchSettled,
        Event::Equivocation { .. } => Code::Equivocation,
        Event::ProposedTwice { .. } => Code::ProposedTwice,
        Event::Finalized { .. } => Code::Finalized,
        Event::Store { is_replacement: false, .. } => Code::Stored,
        Event::Store { is_replacement: true, .. } => Code::Replaced,
        Event::Dropped { .. } => Code::Dropped,
        Event::Violation { .. } => Code::Violation,
    }
}

fn of_vote(kind: VoteKind, codes: [Code; 3]) -> Code {
    codes[match kind {
        VoteKind::Notarize => 0,
        VoteKind::Nullify => 1,
        VoteKind::Finalize => 2,
    }]
}

fn of_certificate(kind: CertificateKind, codes: [Code; 3]) -> Code {
    codes[match kind {
        CertificateKind::Notarization => 0,
        CertificateKind::Nullification => 1,
        CertificateKind::Finalization => 2,
    }]
}
