//! The votes that a member withholds.

use crate::event::{Event, VoteKind};
use crate::observer::Observed;
use serde::{Deserialize, Serialize};
use simplex_view_state as core;
use simplex_view_state::{Engine, View};
use std::fmt;

/// Why a member withholds its vote to notarize or to finalize a view: the core's names.
#[derive(Clone, Copy, PartialEq, Eq, PartialOrd, Ord, Hash, Debug, Serialize, Deserialize)]
#[serde(rename_all = "snake_case")]
#[allow(missing_docs)]
pub enum Withheld {
    NotAdmitted,
    VotedToNullify,
    NoProposal,
    Equivocated,
    NotVerified,
    AncestryNotReady,
    BindingChanged,
    AlreadyFinalized,
    ConflictingNullify,
    ParentNotCertified,
    NotNotarized,
    CertificationFailed,
    NotCertified,
}

impl Withheld {
    /// All reasons. The page of a run numbers them by their places.
    pub const ALL: [Withheld; 13] = [
        Withheld::NotAdmitted,
        Withheld::VotedToNullify,
        Withheld::NoProposal,
        Withheld::Equivocated,
        Withheld::NotVerified,
        Withheld::AncestryNotReady,
        Withheld::BindingChanged,
        Withheld::AlreadyFinalized,
        Withheld::ConflictingNullify,
        Withheld::ParentNotCertified,
        Withheld::NotNotarized,
        Withheld::CertificationFailed,
        Withheld::NotCertified,
    ];

    fn core(self) -> core::Withheld {
        match self {
            Withheld::NotAdmitted => core::Withheld::NotAdmitted,
            Withheld::VotedToNullify => core::Withheld::VotedToNullify,
            Withheld::NoProposal => core::Withheld::NoProposal,
            Withheld::Equivocated => core::Withheld::Equivocated,
            Withheld::NotVerified => core::Withheld::NotVerified,
            Withheld::AncestryNotReady => core::Withheld::AncestryNotReady,
            Withheld::BindingChanged => core::Withheld::BindingChanged,
            Withheld::AlreadyFinalized => core::Withheld::AlreadyFinalized,
            Withheld::ConflictingNullify => core::Withheld::ConflictingNullify,
            Withheld::ParentNotCertified => core::Withheld::ParentNotCertified,
            Withheld::NotNotarized => core::Withheld::NotNotarized,
            Withheld::CertificationFailed => core::Withheld::CertificationFailed,
            Withheld::NotCertified => core::Withheld::NotCertified,
        }
    }

    /// `None` of what a trace leaves out: a member without a key, and a vote that was cast.
    fn of(reason: core::Withheld) -> Option<Withheld> {
        Withheld::ALL.into_iter().find(|it| it.core() == reason)
    }
}

impl fmt::Display for Withheld {
    fn fmt(&self, f: &mut fmt::Formatter<'_>) -> fmt::Result {
        self.core().fmt(f)
    }
}

/// The votes whose absence a trace explains.
const KINDS: [(VoteKind, core::VoteKind); 2] = [
    (VoteKind::Notarize, core::VoteKind::Notarize),
    (VoteKind::Finalize, core::VoteKind::Finalize),
];

/// The events of the votes that an engine withholds on a view now.
fn withheld(engine: &Engine, view: u64) -> Vec<Observed> {
    let event = |(kind, asked)| {
        let reason = engine.withheld(asked, View::new(view)).ok()??;
        let reason = Withheld::of(reason)?;
        Some((view, Event::Withheld { kind, reason }))
    };
    KINDS.into_iter().filter_map(event).collect()
}

/// The votes that an engine withheld on its current view when it was looked at last.
#[derive(Clone, Debug, Default)]
pub(crate) struct Watch {
    /// 0 before the first look.
    current: u64,
    withheld: Vec<Observed>,
    is_given_up: bool,
}

impl Watch {
    /// Returns what the engine withheld on the views that it has left since the last look, but for one that it gave up.
    pub(crate) fn look(&mut self, engine: &Engine) -> Vec<Observed> {
        let Some(views) = engine.views() else { return Vec::new() };
        let current = views.current.get();
        let left = match self.current {
            0 => current..current,
            it => (it + u64::from(self.is_given_up)).max(views.min_active.get())..current,
        };
        let is_tracked = |view: &u64| engine.is_tracked(View::new(*view));
        let events = left.filter(is_tracked).flat_map(|view| withheld(engine, view)).collect();
        let is_new = self.current != current;
        // Once the engine decides to give the view up, that is why it withholds each vote.
        if is_new || !engine.voted_nullify(views.current) {
            self.withheld = withheld(engine, current);
        }
        self.is_given_up &= !is_new;
        self.current = current;
        events
    }

    /// Returns what the engine withheld on a view before it gave it up: after that, it withholds each vote for that reason.
    pub(crate) fn give_up(&mut self, view: u64) -> Vec<Observed> {
        if view != self.current || self.is_given_up {
            return Vec::new();
        }
        self.is_given_up = true;
        std::mem::take(&mut self.withheld)
    }
}

#[cfg(test)]
mod tests {
    use super::*;
    use crate::event::TimeoutReason;
    use crate::observer::Observer;
    use simplex_view_state::{
        Config, Digest, Epoch, Input, Moment, Namespace, Nullification, Options, Output, Participant, Proposal, Round,
    };

    type Tested = Result<(), Box<dyn std::error::Error>>;

    /// The engine of member 3 of four, which leads no view before view 4, and its observer.
    fn watched() -> Result<(Engine, Observer), Box<dyn std::error::Error>> {
        let me = Participant::new(3);
        let config = Config::new(Namespace::new([1; 32]), 4.try_into()?, Some(me), Epoch::new(1), Digest::default());
        let engine = Engine::start(&config, &Options::default(), Moment::from_millis(0))?;
        Ok((engine, Observer::new(me, 1)))
    }

    fn round(view: u64) -> Round {
        Round {
            epoch: Epoch::new(1),
            view: View::new(view),
        }
    }

    /// Returns what is observed until an engine is quiet.
    fn turn(engine: &mut Engine, observer: &mut Observer, now: Moment) -> Result<Vec<Observed>, core::EngineError> {
        let mut seen = observer.watch(engine);
        while let Some(output) = engine.poll(now)? {
            seen.extend(observer.output(&output));
            if let Output::Verify(_, proposal) = output {
                let view = proposal.view();
                engine.handle(Input::Verified { view, is_valid: true }, now)?;
            }
            seen.extend(observer.watch(engine));
        }
        seen.retain(|it| !matches!(it.1, Event::Store { .. }));
        Ok(seen)
    }

    fn withheld(view: u64, kind: VoteKind, reason: Withheld) -> Observed {
        (view, Event::Withheld { kind, reason })
    }

    #[test]
    fn an_abandoned_view_is_explained_before_the_vote_to_nullify() -> Tested {
        let (mut engine, mut observer) = watched()?;
        assert_eq!(turn(&mut engine, &mut observer, Moment::from_millis(0))?, []);
        let due = engine.wake();
        let expected = [
            (
                1,
                Event::Timeout {
                    reason: TimeoutReason::LeaderTimeout,
                },
            ),
            withheld(1, VoteKind::Notarize, Withheld::NoProposal),
            withheld(1, VoteKind::Finalize, Withheld::NoProposal),
            (
                1,
                Event::Vote {
                    kind: VoteKind::Nullify,
                    proposal: None,
                },
            ),
        ];
        assert_eq!(turn(&mut engine, &mut observer, due)?, expected);
        let (round, certificate) = (round(1), vec![7]);
        let nullification = core::Certificate::Nullification(Nullification { round, certificate });
        engine.handle(Input::Certificate(nullification), due)?;
        let seen = turn(&mut engine, &mut observer, due)?;
        assert!(!seen.iter().any(|it| matches!(it.1, Event::Withheld { .. })), "{seen:?}");
        Ok(())
    }

    #[test]
    fn a_view_that_is_left_is_explained_then() -> Tested {
        let ((mut engine, mut observer), now) = (watched()?, Moment::from_millis(0));
        let (from, payload) = (Participant::new(0), Digest::default());
        let (round, parent) = (round(1), View::GENESIS);
        let proposal = Proposal { round, parent, payload };
        engine.handle(Input::Proposal { from, proposal }, now)?;
        let seen = turn(&mut engine, &mut observer, now)?;
        let vote = Event::Vote {
            kind: VoteKind::Notarize,
            proposal: Some((&proposal).into()),
        };
        assert_eq!(seen, [(1, vote)]);
        let nullification = core::Certificate::Nullification(Nullification {
            round,
            certificate: vec![7],
        });
        engine.handle(Input::Certificate(nullification), now)?;
        let seen = turn(&mut engine, &mut observer, now)?;
        let expected = withheld(1, VoteKind::Finalize, Withheld::NotNotarized);
        assert_eq!(
            seen.iter().filter(|it| matches!(it.1, Event::Withheld { .. })).collect::<Vec<_>>(),
            [&expected]
        );
        Ok(())
    }
}
