//! Why a member withholds a vote.

use std::fmt;

/// The kind of a vote.
#[derive(Clone, Copy, PartialEq, Eq, PartialOrd, Ord, Hash, Debug)]
pub enum VoteKind {
    /// The proposal may be built on.
    Notarize,
    /// The view is abandoned.
    Nullify,
    /// The proposal is final.
    Finalize,
}

impl VoteKind {
    /// Returns its number, which is that of the certificate that such votes make.
    pub(crate) fn number(self) -> u32 {
        self as u32 + 1
    }
}

/// Why a member withholds a vote: the first part of the vote's rule that is false.
#[derive(Clone, Copy, PartialEq, Eq, PartialOrd, Ord, Hash, Debug)]
#[non_exhaustive]
pub enum Withheld {
    /// The member has no key: it never votes.
    NoKey,
    /// The view is genesis, or too far ahead of the current view.
    NotAdmitted,
    /// This vote was cast before.
    AlreadyVoted,
    /// The member voted to nullify the view.
    VotedToNullify,
    /// The member voted to finalize the view.
    VotedToFinalize,
    /// No proposal of the view was received.
    NoProposal,
    /// The view's leader signed two proposals.
    Equivocated,
    /// The application has not found the proposal valid.
    NotVerified,
    /// The view builds on a parent that is not certified yet, and the view before offers no payload.
    AncestryNotReady,
    /// The proposal was verified on a parent, with its payload, that the view may no longer build on.
    BindingChanged,
    /// The view is not the current one.
    NotCurrent,
    /// The view, or one above it, is finalized.
    AlreadyFinalized,
    /// The member voted to nullify a view below in the term, and nothing from there on is finalized.
    ConflictingNullify,
    /// The proposal's parent must be certified first.
    ParentNotCertified,
    /// The view has no notarization.
    NotNotarized,
    /// The application refused to certify the proposal.
    CertificationFailed,
    /// The application has not certified the proposal.
    NotCertified,
}

impl Withheld {
    const ALL: [Withheld; 17] = [
        Withheld::NoKey,
        Withheld::NotAdmitted,
        Withheld::AlreadyVoted,
        Withheld::VotedToNullify,
        Withheld::VotedToFinalize,
        Withheld::NoProposal,
        Withheld::Equivocated,
        Withheld::NotVerified,
        Withheld::AncestryNotReady,
        Withheld::BindingChanged,
        Withheld::NotCurrent,
        Withheld::AlreadyFinalized,
        Withheld::ConflictingNullify,
        Withheld::ParentNotCertified,
        Withheld::NotNotarized,
        Withheld::CertificationFailed,
        Withheld::NotCertified,
    ];

    /// Returns the reason of a number of the library, which uses no other; `None` for 0: the vote is not withheld.
    pub(crate) fn of(number: u32) -> Option<Withheld> {
        let index = number.checked_sub(1)?;
        Some(Withheld::ALL[index as usize])
    }
}

impl fmt::Display for Withheld {
    fn fmt(&self, f: &mut fmt::Formatter<'_>) -> fmt::Result {
        f.write_str(match self {
            Withheld::NoKey => "the member has no key",
            Withheld::NotAdmitted => "the view is too far ahead of the current one",
            Withheld::AlreadyVoted => "the member cast this vote before",
            Withheld::VotedToNullify => "the member voted to nullify the view",
            Withheld::VotedToFinalize => "the member voted to finalize the view",
            Withheld::NoProposal => "no proposal was received",
            Withheld::Equivocated => "the leader signed two proposals",
            Withheld::NotVerified => "the application has not found the proposal valid",
            Withheld::AncestryNotReady => "the view before offers nothing to build on",
            Withheld::BindingChanged => "the proposal was verified on a parent that the view may no longer build on",
            Withheld::NotCurrent => "the view is not the current one",
            Withheld::AlreadyFinalized => "the view or one above it is finalized",
            Withheld::ConflictingNullify => "the member voted to nullify a view below in the term",
            Withheld::ParentNotCertified => "the proposal's parent is not certified",
            Withheld::NotNotarized => "the view has no notarization",
            Withheld::CertificationFailed => "the application refused to certify the proposal",
            Withheld::NotCertified => "the application has not certified the proposal",
        })
    }
}
