//! The inputs of an engine.

use crate::ffi;
use crate::messages::{Certificate, Context, Proposal, Vote};
use crate::numbers::{Digest, Participant, View};
use crate::reasons::TimeoutReason;

/// One input. Time is no input: [`Engine::poll`](crate::Engine::poll) takes the moment.
#[derive(Clone, PartialEq, Eq, Debug)]
#[non_exhaustive]
pub enum Input {
    /// A proposal, and the member that sent it, whose signature the host has verified. A leader's vote to notarize is its proposal too:
    /// pass it as both.
    Proposal {
        /// Who sent it.
        from: Participant,
        /// The proposal.
        proposal: Proposal,
    },
    /// A vote whose signature the host has verified; also each of the engine's own, once it was sent. A vote of another epoch is ignored.
    Vote(Vote),
    /// A certificate that the host has verified.
    Certificate(Certificate),
    /// The result of an [`Output::Verify`](crate::Output::Verify).
    Verified {
        /// Its view.
        view: View,
        /// True if it is valid.
        is_valid: bool,
    },
    /// The result of an [`Output::Build`](crate::Output::Build).
    Built {
        /// The context of the output.
        context: Context,
        /// The payload's digest.
        payload: Digest,
    },
    /// The application's verdict on a notarized proposal. It is ignored if no [`Output::Certify`](crate::Output::Certify) of this lifetime
    /// named the proposal, or the proposal has its verdict.
    Certified {
        /// Its view.
        view: View,
        /// True if it may be built on.
        is_success: bool,
    },
    /// The view times out for a reason that the engine can't see by itself: its leader nullifies it, or is silent.
    GivenUp {
        /// The view.
        view: View,
        /// Its reason.
        reason: TimeoutReason,
    },
}

impl Input {
    /// Returns what the library takes of it, except for its bytes.
    pub(crate) fn flat(&self) -> ffi::Input {
        let kind = self.kind();
        match self {
            Input::Proposal { from, proposal } => ffi::Input {
                subject: ffi::Subject {
                    member: from.get(),
                    proposal: proposal.flat(),
                    ..Default::default()
                },
                ..of_kind(kind)
            },
            Input::Vote(vote) => ffi::Input {
                subject: of_subject(vote.subject.flat(), vote.signer.get()),
                ..of_kind(kind)
            },
            Input::Certificate(it) => ffi::Input {
                subject: of_subject(it.subject().flat(), ffi::NOBODY),
                ..of_kind(kind)
            },
            Input::Verified { view, is_valid } => of_verdict(kind, *view, *is_valid),
            Input::Built { context, payload } => built(kind, context, *payload),
            Input::Certified { view, is_success } => of_verdict(kind, *view, *is_success),
            Input::GivenUp { view, reason } => ffi::Input {
                reason: reason.number(),
                view: view.get(),
                ..of_kind(kind)
            },
        }
    }

    fn kind(&self) -> u32 {
        match self {
            Input::Proposal { .. } => 1,
            Input::Vote(_) => 2,
            Input::Certificate(_) => 3,
            Input::Verified { .. } => 4,
            Input::Built { .. } => 5,
            Input::Certified { .. } => 6,
            Input::GivenUp { .. } => 7,
        }
    }

    /// Returns the bytes that the library takes with it.
    pub(crate) fn bytes(&self) -> &[u8] {
        match self {
            Input::Vote(vote) => &vote.signature,
            Input::Certificate(it) => it.bytes(),
            _ => &[],
        }
    }
}

impl Proposal {
    /// Returns the input that says whether this proposal of an [`Output::Verify`](crate::Output::Verify) is valid.
    pub const fn verified(&self, is_valid: bool) -> Input {
        Input::Verified {
            view: self.view(),
            is_valid,
        }
    }

    /// Returns the input that says whether this proposal of an [`Output::Certify`](crate::Output::Certify) may be built on.
    pub const fn certified(&self, is_success: bool) -> Input {
        Input::Certified {
            view: self.view(),
            is_success,
        }
    }
}

impl Context {
    /// Returns the input that says which payload was built for an [`Output::Build`](crate::Output::Build) of this context.
    pub const fn built(&self, payload: Digest) -> Input {
        Input::Built { context: *self, payload }
    }
}

fn of_kind(kind: u32) -> ffi::Input {
    ffi::Input {
        kind,
        ..Default::default()
    }
}

fn of_subject((kind, proposal): (u32, ffi::Proposal), member: u32) -> ffi::Subject {
    ffi::Subject { kind, member, proposal }
}

fn of_verdict(kind: u32, view: View, verdict: bool) -> ffi::Input {
    ffi::Input {
        success: u32::from(verdict),
        view: view.get(),
        ..of_kind(kind)
    }
}

fn built(kind: u32, context: &Context, payload: Digest) -> ffi::Input {
    let proposal = ffi::Proposal {
        payload: *payload.bytes(),
        ..Default::default()
    };
    ffi::Input {
        subject: of_subject((0, proposal), context.leader.get()),
        context: context.flat(),
        ..of_kind(kind)
    }
}
