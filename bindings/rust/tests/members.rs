//! Members through the package: their lifetimes, their journals, and what is refused.

use simplex_view_state::{
    Certificate, CertificateKind, Config, Cut, Digest, Ending, EntryCount, Epoch, Finalization, Floor, Member, Moment, Namespace,
    Notarization, OpenError, Participant, Proposal, RecoverError, Refusal, Round, SettingsError, Stored, Subject, TimeoutReason, View,
    ViewDelta, scan,
};
use std::error::Error;
use std::thread;
use std::time::Duration;

type Tested = Result<(), Box<dyn Error>>;

const START: Moment = Moment::from_millis(0);

/// These settings, but for what is changed.
fn changed<T>(mut settings: T, change: impl FnOnce(&mut T)) -> T {
    change(&mut settings);
    settings
}

const NAMESPACE: Namespace = Namespace::new([7; 32]);

fn config() -> Config {
    let members = 4.try_into().expect("not 0");
    Config::new(NAMESPACE, members, Some(Participant::new(0)), Epoch::new(1), Digest::default())
}

fn proposal(view: u64, parent: u64) -> Proposal {
    Proposal {
        round: Round {
            epoch: Epoch::new(1),
            view: View::new(view),
        },
        parent: View::new(parent),
        payload: Digest::new([view as u8; 32]),
    }
}

fn finalization(view: u64, parent: u64) -> Finalization {
    Finalization {
        proposal: proposal(view, parent),
        certificate: vec![7; 3000],
    }
}

/// A member that voted in view 1 and finalized it.
fn member() -> Result<Member, Box<dyn Error>> {
    let mut member = Member::start(&config(), START)?;
    member.try_propose()?.ok_or("it leads")?;
    assert!(member.proposed(View::new(1), Digest::new([1; 32]), START)?);
    let vote = member.construct_notarize(View::new(1))?.ok_or("its own proposal")?;
    assert_eq!(vote.text, Subject::Notarize(proposal(1, 0)).text(&NAMESPACE));
    assert_eq!(vote.signer, Participant::new(0));
    member.add_finalization(&finalization(1, 0), START)?;
    Ok(member)
}

#[test]
fn a_certificate_comes_back_whole() -> Tested {
    let mut member = member()?;
    let found = member.certificate(CertificateKind::Finalization, View::new(1))?;
    assert_eq!(found, Some(Certificate::Finalization(finalization(1, 0))));
    assert_eq!(member.broadcast_finalization(View::new(1))?, found);
    assert_eq!(member.broadcast_finalization(View::new(1))?, None);
    assert_eq!(member.certificate(CertificateKind::Nullification, View::new(1))?, None);
    Ok(())
}

#[test]
fn a_member_continues_from_its_journal() -> Tested {
    let mut first = member()?;
    let mut journal = first.entries_since(EntryCount::ZERO)?;
    let vote = first.construct_nullify(View::new(2), TimeoutReason::LeaderTimeout)?;
    assert!(vote.is_some_and(|vote| !vote.is_repeat));
    let grown = first.entries_since(journal.stored.entries)?;
    assert!(!grown.bytes.is_empty());
    journal.bytes.extend_from_slice(&grown.bytes);
    let stored = Stored::from_bytes(&grown.stored.to_bytes()).ok_or("its own bytes")?;
    let mut second = Member::resume(&config(), START, &stored, &journal.bytes)?;
    assert_eq!(second.views(), first.views());
    let repeat = second
        .construct_nullify(View::new(2), TimeoutReason::LeaderTimeout)?
        .ok_or("a repeat")?;
    assert!(repeat.is_repeat && second.voted_nullify(View::new(2)));
    Ok(())
}

#[test]
fn a_journal_that_is_cut_or_changed_is_refused() -> Tested {
    let mut journal = member()?.entries_since(EntryCount::ZERO)?;
    let len = journal.bytes.len();
    for cut in [1, len / 2, len - 1] {
        let front = scan(&journal.bytes[..cut]);
        assert_eq!(front.ending, Ending::Cut);
        let resumed = Member::resume(&config(), START, &journal.stored, &journal.bytes[..cut]);
        assert_eq!(resumed.err(), Some(OpenError::Damaged));
        let resumed = Member::resume(&config(), START, &journal.stored, &journal.bytes[..front.bytes]);
        assert_eq!(resumed.err(), Some(OpenError::EntriesLost));
    }
    journal.bytes[len - 1] ^= 1;
    assert_eq!(scan(&journal.bytes).ending, Ending::Damaged);
    Ok(())
}

#[test]
fn a_finalized_floor_is_recorded() -> Tested {
    let floor = changed(config(), |it| it.floor = Floor::Finalized(finalization(90, 80)));
    let mut member = Member::start(&floor, START)?;
    let views = member.views().ok_or("it has failed")?;
    assert_eq!((views.last_finalized, views.current), (View::new(90), View::new(91)));
    assert_eq!(member.entries_since(EntryCount::ZERO)?.stored.entries, EntryCount::new(1));
    Ok(())
}

#[test]
fn a_restart_prunes_and_keeps_no_more_views_then() -> Tested {
    let mut member = member()?;
    member.add_finalization(&finalization(40, 1), START)?;
    let before = member.stored().entries;
    member.restart(
        &config(),
        START,
        Cut {
            last: EntryCount::ZERO,
            prune: true,
        },
    )?;
    assert!(member.stored().entries < before);
    let more = changed(config(), |it| it.view_retention = ViewDelta::new(20));
    let restarted = member.restart(&more, START, Cut::default());
    assert_eq!(restarted, Err(OpenError::Recover(RecoverError::RetentionGrown)));
    assert!(!member.is_failed());
    Ok(())
}

#[test]
fn settings_that_break_a_rule_are_refused() {
    let refusals = [
        (
            changed(config(), |it| it.leader_timeout = Duration::ZERO),
            SettingsError::LeaderTimeoutZero,
        ),
        (changed(config(), |it| it.timeout_retry = Duration::MAX), SettingsError::TimeTooLong),
        (
            changed(config(), |it| it.signer = Some(Participant::new(4))),
            SettingsError::NoSuchMember,
        ),
        (
            changed(config(), |it| it.view_retention = ViewDelta::new(0)),
            SettingsError::RetentionZero,
        ),
    ];
    for (refused, error) in refusals {
        assert_eq!(Member::start(&refused, START).err(), Some(OpenError::Settings(error)));
    }
}

#[test]
fn a_certificate_of_another_epoch_is_not_allowed() -> Tested {
    let mut member = member()?;
    let before = member.stored();
    let mut other = Notarization {
        proposal: proposal(2, 1),
        certificate: Vec::new(),
    };
    other.proposal.round.epoch = Epoch::new(2);
    assert_eq!(member.add_notarization(&other), Err(Refusal::NotAllowed));
    assert_eq!(member.stored(), before);
    Ok(())
}

#[test]
fn a_member_goes_from_thread_to_thread() -> Tested {
    let member = member()?;
    let views = thread::spawn(move || member.views()).join().expect("it does not panic");
    assert_eq!(views.ok_or("it has failed")?.last_finalized, View::new(1));
    Ok(())
}
