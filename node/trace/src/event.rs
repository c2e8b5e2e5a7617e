//! The lines of a trace.

use crate::withheld::Withheld;
use serde::{Deserialize, Serialize};
use simplex_view_state as core;
use std::fmt;

/// One event of one member.
#[derive(Clone, PartialEq, Eq, Debug, Serialize, Deserialize)]
pub struct Line {
    /// The moment, in microseconds: since 1970 of a node, since the beginning of a simulation.
    pub at: u64,
    /// The member; `None` of an event of the network.
    #[serde(default, skip_serializing_if = "Option::is_none")]
    pub member: Option<u32>,
    /// The view; 0 where the event is of none.
    pub view: u64,
    /// The event.
    #[serde(flatten)]
    pub event: Event,
}

/// A proposal of the line's view.
#[derive(Clone, PartialEq, Eq, PartialOrd, Ord, Hash, Debug, Serialize, Deserialize)]
pub struct Proposal {
    /// The view of its parent; 0 of genesis.
    pub parent: u64,
    /// The first eight bytes of its payload, in hexadecimal digits.
    pub payload: String,
}

/// The kind of a vote.
#[derive(Clone, Copy, PartialEq, Eq, PartialOrd, Ord, Hash, Debug, Serialize, Deserialize)]
#[serde(rename_all = "snake_case")]
#[allow(missing_docs)]
pub enum VoteKind {
    Notarize,
    Nullify,
    Finalize,
}

/// The kind of a certificate.
#[derive(Clone, Copy, PartialEq, Eq, PartialOrd, Ord, Hash, Debug, Serialize, Deserialize)]
#[serde(rename_all = "snake_case")]
#[allow(missing_docs)]
pub enum CertificateKind {
    Notarization,
    Nullification,
    Finalization,
}

/// Which certificate a fetch is for.
#[derive(Clone, Copy, PartialEq, Eq, PartialOrd, Ord, Hash, Debug, Serialize, Deserialize)]
#[serde(rename_all = "snake_case")]
pub enum FetchKind {
    /// The view's notarization.
    Notarization,
    /// A nullification that covers the view.
    Nullification,
    /// Any certificate that decides the view.
    Decision,
}

/// Why a member votes to nullify a view, as far as its host can see.
#[derive(Clone, Copy, PartialEq, Eq, PartialOrd, Ord, Hash, Debug, Serialize, Deserialize)]
#[serde(rename_all = "snake_case")]
pub enum TimeoutReason {
    /// The vote to nullify is sent again.
    Retry,
    /// The leader was inactive for long.
    Inactivity,
    /// The leader itself voted to nullify.
    LeaderNullify,
    /// No proposal came in time.
    LeaderTimeout,
    /// The view was not certified in time.
    CertificationTimeout,
    /// The application found the proposal invalid.
    InvalidProposal,
    /// The application did not certify the proposal.
    FailedCertification,
}

/// A vote with its signature, in hexadecimal digits: evidence.
#[derive(Clone, PartialEq, Eq, Debug, Serialize, Deserialize)]
pub struct SignedVote {
    /// Its kind.
    pub kind: VoteKind,
    /// Its view.
    pub view: u64,
    /// The bytes of its subject. The text that is signed has the network's namespace before them.
    pub text: String,
    /// The signature.
    pub signature: String,
}

/// An event.
#[derive(Clone, PartialEq, Eq, Debug, Serialize, Deserialize)]
#[serde(tag = "event", rename_all = "snake_case")]
pub enum Event {
    /// A member's first process lifetime begins.
    Start,
    /// A process lifetime begins from a journal.
    Resume {
        /// How many entries the journal has.
        entries: u64,
    },
    /// The process ends, and all that is not on its disk is lost.
    Crash,
    /// The links between groups are cut; one group or none: all links are there again.
    Partition {
        /// The groups of members.
        groups: Vec<Vec<u32>>,
    },
    /// The leader sent its proposal.
    ProposalSent {
        /// The members that it is sent to; empty for all others.
        #[serde(default, skip_serializing_if = "Vec::is_empty")]
        to: Vec<u32>,
        /// The proposal.
        proposal: Proposal,
    },
    /// A proposal came.
    ProposalReceived {
        /// Who sent it.
        from: u32,
        /// The proposal.
        proposal: Proposal,
    },
    /// The application verified the view's proposal.
    Verified {
        /// True if it is valid.
        is_valid: bool,
    },
    /// The application gave its verdict on the notarized proposal.
    Certified {
        /// True if it may be built on.
        is_success: bool,
    },
    /// The member signed a vote and sent it to all.
    Vote {
        /// Its kind.
        kind: VoteKind,
        /// Its proposal; `None` of a vote to nullify.
        #[serde(default, skip_serializing_if = "Option::is_none")]
        proposal: Option<Proposal>,
    },
    /// Another member's vote came.
    VoteReceived {
        /// Who signed it.
        from: u32,
        /// Its kind.
        kind: VoteKind,
        /// Its proposal; `None` of a vote to nullify.
        #[serde(default, skip_serializing_if = "Option::is_none")]
        proposal: Option<Proposal>,
    },
    /// The engine made a certificate of votes.
    CertificateMade {
        /// Its kind.
        kind: CertificateKind,
        /// Its proposal; `None` of a nullification.
        #[serde(default, skip_serializing_if = "Option::is_none")]
        proposal: Option<Proposal>,
        /// Whose votes it is made of.
        signers: Vec<u32>,
    },
    /// The engine accepted a certificate that came.
    CertificateAccepted {
        /// Its kind.
        kind: CertificateKind,
        /// Its proposal; `None` of a nullification.
        #[serde(default, skip_serializing_if = "Option::is_none")]
        proposal: Option<Proposal>,
        /// Whose votes it is made of.
        signers: Vec<u32>,
    },
    /// The member gives the view up.
    Timeout {
        /// Why.
        reason: TimeoutReason,
    },
    /// The member left the view, or gave it up, without this vote.
    Withheld {
        /// The vote: to notarize or to finalize.
        kind: VoteKind,
        /// Why.
        reason: Withheld,
    },
    /// The leader builds on a certified parent.
    Build {
        /// The parent's view.
        parent: u64,
    },
    /// The leader of a term builds before the last view of the term below is certified.
    Handoff {
        /// The parent's view.
        parent: u64,
    },
    /// A certificate is missing.
    FetchOpened {
        /// Which one.
        certificate: FetchKind,
    },
    /// A member is asked for a missing certificate.
    FetchAsked {
        /// Which one.
        certificate: FetchKind,
        /// Who is asked; `None` where there is no other member.
        #[serde(default, skip_serializing_if = "Option::is_none")]
        of: Option<u32>,
    },
    /// A member that asked is served.
    FetchServed {
        /// The certificate that it asked for.
        certificate: FetchKind,
        /// Who asked.
        to: u32,
    },
    /// The certificate is not missing any more.
    FetchSettled {
        /// Which one.
        certificate: FetchKind,
    },
    /// Two votes of one member contradict each other.
    Equivocation {
        /// Who signed both.
        signer: u32,
        /// The one.
        first: SignedVote,
        /// The other.
        second: SignedVote,
    },
    /// Certificates show that the view's leader signed two proposals.
    ProposedTwice {
        /// The leader.
        leader: u32,
    },
    /// A proposal is final, and all its ancestors.
    Finalized {
        /// The proposal.
        proposal: Proposal,
    },
    /// The journal grew.
    Store {
        /// By how many bytes.
        bytes: u64,
        /// How many entries it has then.
        entries: u64,
        /// True if the bytes take the place of all that was stored: the record was pruned, or a lifetime begins.
        #[serde(default, skip_serializing_if = "is_false")]
        is_replacement: bool,
    },
    /// The network broke a promise: a disagreement, or a vote that was cast twice.
    Violation {
        /// In words.
        text: String,
    },
    /// Lines that the writer dropped, since its queue was full.
    Dropped {
        /// How many.
        count: u64,
    },
}

fn is_false(it: &bool) -> bool {
    !it
}

impl From<&core::Proposal> for Proposal {
    fn from(it: &core::Proposal) -> Proposal {
        Proposal {
            parent: it.parent.get(),
            payload: hex(&it.payload.bytes()[..8]),
        }
    }
}

impl From<&core::Subject> for VoteKind {
    fn from(it: &core::Subject) -> VoteKind {
        match it {
            core::Subject::Notarize(_) => VoteKind::Notarize,
            core::Subject::Nullify(_) => VoteKind::Nullify,
            core::Subject::Finalize(_) => VoteKind::Finalize,
        }
    }
}

impl From<core::CertificateKind> for CertificateKind {
    fn from(it: core::CertificateKind) -> CertificateKind {
        match it {
            core::CertificateKind::Notarization => CertificateKind::Notarization,
            core::CertificateKind::Nullification => CertificateKind::Nullification,
            core::CertificateKind::Finalization => CertificateKind::Finalization,
        }
    }
}

impl From<core::FetchKind> for FetchKind {
    fn from(it: core::FetchKind) -> FetchKind {
        match it {
            core::FetchKind::Notarization => FetchKind::Notarization,
            core::FetchKind::Nullification => FetchKind::Nullification,
            core::FetchKind::Decision => FetchKind::Decision,
        }
    }
}

impl From<&core::Vote> for SignedVote {
    fn from(it: &core::Vote) -> SignedVote {
        SignedVote {
            kind: VoteKind::from(&it.subject),
            view: it.subject.round().view.get(),
            text: hex(&it.subject.encode()),
            signature: hex(&it.signature),
        }
    }
}

/// The proposal that a subject names; `None` of a nullification.
pub(crate) fn proposal_of(subject: &core::Subject) -> Option<Proposal> {
    match subject {
        core::Subject::Notarize(it) | core::Subject::Finalize(it) => Some(Proposal::from(it)),
        core::Subject::Nullify(_) => None,
    }
}

impl fmt::Display for TimeoutReason {
    fn fmt(&self, f: &mut fmt::Formatter<'_>) -> fmt::Result {
        f.write_str(match self {
            TimeoutReason::Retry => "retry",
            TimeoutReason::Inactivity => "inactivity",
            TimeoutReason::LeaderNullify => "leader nullify",
            TimeoutReason::LeaderTimeout => "leader timeout",
            TimeoutReason::CertificationTimeout => "certification timeout",
            TimeoutReason::InvalidProposal => "invalid proposal",
            TimeoutReason::FailedCertification => "failed certification",
        })
    }
}

fn hex(bytes: &[u8]) -> String {
    const DIGITS: &[u8; 16] = b"0123456789abcdef";
    let digits = bytes.iter().flat_map(|it| [it >> 4, it & 15]);
    digits.map(|it| char::from(DIGITS[usize::from(it)])).collect()
}
