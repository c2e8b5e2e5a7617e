//! Why views time out, and why handoffs are abandoned.

use std::fmt;

/// Why a view times out.
#[derive(Clone, Copy, PartialEq, Eq, Hash, Debug)]
#[non_exhaustive]
pub enum TimeoutReason {
    /// A vote to nullify is sent again.
    Retry,
    /// The leader was inactive for long.
    Inactivity,
    /// The leader itself voted to nullify.
    LeaderNullify,
    /// No proposal came in time.
    LeaderTimeout,
    /// The view was not certified in time.
    CertificationTimeout,
    /// The term stalled.
    StallTimeout,
    /// The proposal could not be had.
    MissingProposal,
    /// The application left the proposal unanswered.
    IgnoredProposal,
    /// The proposal is invalid.
    InvalidProposal,
    /// The certification failed.
    FailedCertification,
}

impl TimeoutReason {
    const ALL: [TimeoutReason; 10] = [
        TimeoutReason::Retry,
        TimeoutReason::Inactivity,
        TimeoutReason::LeaderNullify,
        TimeoutReason::LeaderTimeout,
        TimeoutReason::CertificationTimeout,
        TimeoutReason::StallTimeout,
        TimeoutReason::MissingProposal,
        TimeoutReason::IgnoredProposal,
        TimeoutReason::InvalidProposal,
        TimeoutReason::FailedCertification,
    ];

    /// Returns the reason of a number of the library, which uses no other number.
    pub(crate) fn of(number: u32) -> TimeoutReason {
        TimeoutReason::ALL[number as usize]
    }

    /// Returns its number.
    pub(crate) fn number(self) -> u32 {
        self as u32
    }
}

impl fmt::Display for TimeoutReason {
    fn fmt(&self, f: &mut fmt::Formatter<'_>) -> fmt::Result {
        fmt::Debug::fmt(self, f)
    }
}

/// Why a handoff, a proposal that is built before its parent is certified, must be abandoned.
#[derive(Clone, Copy, PartialEq, Eq, Hash, Debug)]
#[non_exhaustive]
pub enum HandoffAbandonedReason {
    /// The member left the view.
    ViewExit,
    /// The proposal must be built on another parent.
    AncestrySuperseded,
    /// The parent may no longer be built on.
    AncestryInvalidated,
    /// The parent's view was nullified.
    ParentNullify,
    /// The view was nullified.
    ViewNullify,
    /// The application returned nothing.
    ResponseClosed,
    /// The built block could no longer be recorded.
    IneligibleAtRecording,
}

impl HandoffAbandonedReason {
    const ALL: [HandoffAbandonedReason; 7] = [
        HandoffAbandonedReason::ViewExit,
        HandoffAbandonedReason::AncestrySuperseded,
        HandoffAbandonedReason::AncestryInvalidated,
        HandoffAbandonedReason::ParentNullify,
        HandoffAbandonedReason::ViewNullify,
        HandoffAbandonedReason::ResponseClosed,
        HandoffAbandonedReason::IneligibleAtRecording,
    ];

    /// Returns the reason of a number of the library, which uses no other number.
    pub(crate) fn of(number: u32) -> HandoffAbandonedReason {
        HandoffAbandonedReason::ALL[number as usize]
    }
}

impl fmt::Display for HandoffAbandonedReason {
    fn fmt(&self, f: &mut fmt::Formatter<'_>) -> fmt::Result {
        fmt::Debug::fmt(self, f)
    }
}
