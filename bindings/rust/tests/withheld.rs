//! Why a member withholds a vote: each reason once, and none exactly where the vote is returned.

use simplex_view_state::{
    Config, Digest, Engine, EngineError, Epoch, Finalization, Input, Member, Moment, Namespace, Notarization, Nullification, Options,
    Participant, Proposal, Refusal, Round, Terms, TimeoutReason, Verify, View, ViewDelta, VoteKind, Withheld,
};
use std::collections::BTreeSet;
use std::error::Error;

type Tested = Result<(), Box<dyn Error>>;

const START: Moment = Moment::from_millis(0);
const KINDS: [VoteKind; 3] = [VoteKind::Notarize, VoteKind::Nullify, VoteKind::Finalize];

/// Member 3 of four, which leads no view of the first three terms.
fn config(length: u32, optimistic: u64) -> Config {
    let members = 4.try_into().expect("not 0");
    let mut config = Config::new(
        Namespace::new([1; 32]),
        members,
        Some(Participant::new(3)),
        Epoch::new(1),
        Digest::default(),
    );
    config.terms = Terms {
        length: length.try_into().expect("not 0"),
        optimistic_views: ViewDelta::new(optimistic),
        stall_timeout: None,
    };
    config
}

fn round(view: u64) -> Round {
    Round {
        epoch: Epoch::new(1),
        view: View::new(view),
    }
}

fn proposal(view: u64, payload: u8) -> Proposal {
    Proposal {
        round: round(view),
        parent: View::new(view - 1),
        payload: Digest::new([payload; 32]),
    }
}

fn notarization(proposal: Proposal) -> Notarization {
    let certificate = vec![7];
    Notarization { proposal, certificate }
}

/// A member, and the reasons that it has given.
struct Asked {
    member: Member,
    seen: BTreeSet<Withheld>,
}

impl Asked {
    fn new(config: &Config) -> Result<Asked, Box<dyn Error>> {
        let member = Member::start(config, START)?;
        let seen = BTreeSet::new();
        Ok(Asked { member, seen })
    }

    /// Takes a proposal; whether another one of the view was taken does not matter.
    fn propose(&mut self, view: u64, payload: u8) -> Tested {
        self.member.set_proposal(&proposal(view, payload))?;
        Ok(())
    }

    /// Has the application find a proposal valid.
    fn verify(&mut self, view: u64) -> Tested {
        let Verify::Ready(..) = self.member.try_verify()? else {
            return Err("there is nothing to verify".into());
        };
        assert!(self.member.verified(View::new(view))?);
        Ok(())
    }

    fn certify(&mut self, view: u64, is_success: bool) -> Tested {
        assert_eq!(self.member.certify_candidates()?.proposals.len(), 1);
        self.member.certified(View::new(view), is_success, START)?;
        Ok(())
    }

    /// Compares why a vote is withheld, and whether it is returned.
    fn is(&mut self, kind: VoteKind, view: u64, withheld: Option<Withheld>) -> Tested {
        let before = format!("{:?}", self.member);
        assert_eq!(self.member.withheld(kind, View::new(view))?, withheld, "{kind:?} {view}");
        assert_eq!(format!("{:?}", self.member), before);
        assert_eq!(
            casts(&mut self.member, kind, View::new(view))?,
            withheld.is_none(),
            "{kind:?} {view}"
        );
        self.seen.extend(withheld);
        Ok(())
    }
}

/// Returns whether a vote is returned.
fn casts(member: &mut Member, kind: VoteKind, view: View) -> Result<bool, Refusal> {
    Ok(match kind {
        VoteKind::Notarize => member.construct_notarize(view)?.is_some(),
        VoteKind::Nullify => member.construct_nullify(view, TimeoutReason::LeaderTimeout)?.is_some(),
        VoteKind::Finalize => member.construct_finalize(view)?.is_some(),
    })
}

#[test]
fn a_view_withholds_the_votes_on_it_until_it_is_their_turn() -> Tested {
    use VoteKind::{Finalize, Notarize, Nullify};
    let mut it = Asked::new(&config(1, 0))?;
    it.is(Notarize, 1, Some(Withheld::NoProposal))?;
    it.is(Notarize, 9, Some(Withheld::NotAdmitted))?;
    it.is(Nullify, 2, Some(Withheld::NotCurrent))?;
    it.is(Finalize, 0, Some(Withheld::AlreadyFinalized))?;
    it.is(Finalize, 9, Some(Withheld::NotAdmitted))?;
    it.is(Finalize, 1, Some(Withheld::NoProposal))?;
    it.propose(1, 1)?;
    it.is(Notarize, 1, Some(Withheld::NotVerified))?;
    it.is(Finalize, 1, Some(Withheld::NotNotarized))?;
    it.verify(1)?;
    it.is(Notarize, 1, None)?;
    it.is(Notarize, 1, Some(Withheld::AlreadyVoted))?;
    it.member.add_notarization(&notarization(proposal(1, 1)))?;
    it.is(Finalize, 1, Some(Withheld::NotCertified))?;
    it.certify(1, true)?;
    it.is(Finalize, 1, None)?;
    it.is(Finalize, 1, Some(Withheld::AlreadyVoted))?;
    it.is(Nullify, 1, Some(Withheld::NotCurrent))?;
    it.propose(2, 2)?;
    it.propose(2, 3)?;
    it.is(Notarize, 2, Some(Withheld::Equivocated))?;
    it.is(Finalize, 2, Some(Withheld::Equivocated))?;
    it.is(Nullify, 2, None)?;
    it.is(Nullify, 2, None)?;
    it.is(Notarize, 2, Some(Withheld::VotedToNullify))?;
    it.is(Finalize, 2, Some(Withheld::VotedToNullify))?;
    assert_eq!(it.seen.len(), 10, "{:?}", it.seen);
    Ok(())
}

#[test]
fn views_below_in_the_term_withhold_a_vote() -> Tested {
    use VoteKind::{Finalize, Notarize, Nullify};
    let mut it = Asked::new(&config(3, 2))?;
    it.propose(1, 1)?;
    it.verify(1)?;
    it.is(Notarize, 1, None)?;
    it.propose(2, 2)?;
    it.is(Finalize, 2, Some(Withheld::ParentNotCertified))?;
    it.verify(2)?;
    it.member.add_notarization(&notarization(proposal(1, 5)))?;
    it.is(Notarize, 2, Some(Withheld::BindingChanged))?;
    it.certify(1, false)?;
    it.is(Notarize, 2, Some(Withheld::AncestryNotReady))?;
    it.is(Nullify, 1, None)?;
    it.is(Finalize, 2, Some(Withheld::ConflictingNullify))?;
    let mut it = Asked::new(&config(1, 0))?;
    it.propose(1, 1)?;
    it.member.add_notarization(&notarization(proposal(1, 1)))?;
    it.certify(1, false)?;
    it.is(Finalize, 1, Some(Withheld::CertificationFailed))
}

#[test]
fn a_member_without_a_key_withholds_each_vote() -> Tested {
    let mut config = config(1, 0);
    config.signer = None;
    let mut it = Asked::new(&config)?;
    it.propose(1, 1)?;
    it.verify(1)?;
    for kind in KINDS {
        it.is(kind, 1, Some(Withheld::NoKey))?;
    }
    Ok(())
}

#[test]
fn an_engine_says_what_its_member_says() -> Tested {
    let mut engine = Engine::start(&config(1, 0), &Options::default(), START)?;
    let said = |engine: &Engine| -> Result<Vec<Option<Withheld>>, EngineError> {
        KINDS.iter().map(|kind| engine.withheld(*kind, View::new(1))).collect()
    };
    assert_eq!(said(&engine)?, [Some(Withheld::NoProposal), None, Some(Withheld::NoProposal)]);
    let (from, proposal) = (Participant::new(0), proposal(1, 1));
    assert!(engine.handle(Input::Proposal { from, proposal }, START)?);
    assert_eq!(said(&engine)?, [Some(Withheld::NotVerified), None, Some(Withheld::NotNotarized)]);
    Ok(())
}

/// Numbers drawn one after another.
struct Drawn(u64);

impl Drawn {
    fn below(&mut self, end: u64) -> u64 {
        self.0 = self.0.wrapping_mul(6364136223846793005).wrapping_add(1442695040888963407);
        (self.0 >> 33) % end
    }
}

/// An event round a view.
fn step(it: &mut Asked, drawn: &mut Drawn, view: u64) -> Tested {
    let payload = drawn.below(8) as u8 / 7;
    // A call that is not allowed changes nothing.
    let refused = match drawn.below(10) {
        0..3 => it.member.set_proposal(&proposal(view, payload)).err(),
        3 => it.member.add_notarization(&notarization(proposal(view, payload))).err(),
        4 => match drawn.below(4) {
            0 => {
                let (proposal, certificate) = (proposal(view, payload), vec![7]);
                it.member.add_finalization(&Finalization { proposal, certificate }, START).err()
            }
            _ => {
                let (round, certificate) = (round(view), vec![7]);
                it.member.add_nullification(&Nullification { round, certificate }, START).err()
            }
        },
        5..8 => match it.member.try_verify()? {
            Verify::Ready(_, proposal) => it.member.verified(proposal.view()).err(),
            _ => None,
        },
        _ => {
            let is_success = drawn.below(4) > 0;
            let candidates = it.member.certify_candidates()?.proposals;
            let certified = |it: &Proposal| (it.view(), is_success);
            let verdicts: Vec<(View, bool)> = candidates.iter().map(certified).collect();
            for (view, is_success) in verdicts {
                it.member.certified(view, is_success, START)?;
            }
            None
        }
    };
    assert!(matches!(refused, None | Some(Refusal::NotAllowed)), "{refused:?}");
    Ok(())
}

#[test]
fn a_vote_is_withheld_exactly_where_none_is_returned() -> Tested {
    let (mut seen, mut cast) = (BTreeSet::new(), 0);
    for seed in 0..200 {
        let mut drawn = Drawn(seed);
        let (length, optimistic) = [(1, 0), (3, 2), (5, 3)][seed as usize % 3];
        let mut it = Asked::new(&config(length, optimistic))?;
        for _ in 0..120 {
            let current = it.member.views().ok_or("it has not failed")?.current.get();
            let view = (current + drawn.below(5)).saturating_sub(2).max(1);
            step(&mut it, &mut drawn, view)?;
            if drawn.below(3) == 0 {
                let kind = [VoteKind::Notarize, VoteKind::Finalize, VoteKind::Notarize, VoteKind::Nullify][drawn.below(4) as usize];
                let withheld = it.member.withheld(kind, View::new(view))?;
                cast += u32::from(withheld.is_none());
                it.is(kind, view, withheld)?;
            }
        }
        seen.extend(it.seen);
    }
    assert!(cast > 500 && seen.len() >= 12, "{cast} votes, {seen:?}");
    Ok(())
}
