use super::*;
use crate::settings::Settings;
use simplex_view_state::{Digest, Proposal, Round, View};
use std::sync::Barrier;
use std::thread;
use std::time::Duration;

/// Members 0 to 3, and the readers of the first one.
struct Members {
    keys: Vec<Keys>,
    reader: Reader,
}

impl Members {
    fn new(name: &str) -> Members {
        let mut settings: Settings = toml::from_str(include_str!("../../../../node.toml")).expect("settings");
        let folder = crate::trace::scratch(name);
        for (index, member) in settings.members.iter_mut().enumerate() {
            member.key = crate::crypto::make_key(&folder.join(format!("{index}.pem"))).expect("a key");
        }
        let read = |index: u32| {
            let (mut settings, key) = (settings.clone(), folder.join(format!("{index}.pem")));
            (settings.index, settings.key) = (index, key);
            Keys::read(&settings).expect("a key")
        };
        let reader = Reader {
            keys: Arc::new(read(0)),
            horizon: Arc::default(),
            counters: Arc::default(),
            inbox: Arc::new(Inbox::new(4)),
            epoch: Epoch::new(1),
            turns: settings.turns(),
        };
        let keys = (0..4).map(read).collect();
        Members { keys, reader }
    }

    fn vote(&self, signer: usize, subject: Subject) -> Vote {
        Vote {
            subject,
            signer: Participant::new(signer as u32),
            signature: self.keys[signer].sign(&subject).expect("a signature").to_vec(),
        }
    }

    /// The certificate of these votes.
    fn certificate(votes: &[Vote]) -> Certificate {
        let mut bytes = Vec::new();
        for vote in votes {
            bytes.extend_from_slice(&vote.signer.get().to_be_bytes());
            bytes.extend_from_slice(&(vote.signature.len() as u64).to_be_bytes());
            bytes.extend_from_slice(&vote.signature);
        }
        Certificate::of(votes[0].subject, bytes)
    }

    fn votes(&self, signers: &[usize], subject: Subject) -> Vec<Vote> {
        signers.iter().map(|signer| self.vote(*signer, subject)).collect()
    }

    /// Returns whether a message of a member is passed on, and how many signatures are verified for that.
    fn reads(&self, from: u32, message: &Message) -> (bool, u64) {
        let (before, frame) = (self.reader.keys.verified(), message.frame());
        let mut link = self.reader.connection(Participant::new(from));
        let message = link.verify(&frame[4..]).expect("a message");
        let is_passed = message.is_some_and(|it| link.take(it, frame.len()));
        (is_passed, self.reader.keys.verified() - before)
    }

    fn forged(&self) -> u64 {
        self.reader.counters.forged.load(Relaxed)
    }
}

fn nullify(view: u64) -> Subject {
    Subject::Nullify(round(view))
}

fn round(view: u64) -> Round {
    let (epoch, view) = (Epoch::new(1), View::new(view));
    Round { epoch, view }
}

fn notarize(view: u64, payload: u8) -> Subject {
    Subject::Notarize(Proposal {
        round: round(view),
        parent: View::GENESIS,
        payload: Digest::new([payload; 32]),
    })
}

#[test]
fn a_block_that_nobody_asked_for_is_ignored() {
    let members = Members::new("reader");
    let block = vec![7; 100];
    let message = Message::Block(block.clone());
    let is_of_use = |wanted: &[Digest]| {
        members.reader.horizon.want(wanted.iter().copied().collect());
        members.reads(1, &message).0
    };
    assert!(!is_of_use(&[]) && !is_of_use(&[digest(b"another")]));
    assert!(is_of_use(&[digest(&block), digest(b"another")]));
}

#[test]
fn a_signature_that_is_not_good_is_verified_and_refused_each_time() {
    let members = Members::new("forged");
    let forged = Vote {
        signer: Participant::new(2),
        ..members.vote(1, nullify(1))
    };
    for time in 1..4 {
        assert_eq!(members.reads(1 + time % 2, &Message::Vote(forged.clone())), (false, 1));
        assert_eq!(members.forged(), u64::from(time));
    }
    let votes = [members.vote(1, nullify(1)), forged, members.vote(3, nullify(1))];
    assert!(!members.reads(3, &Message::Certificate(Members::certificate(&votes))).0);
    assert_eq!(members.forged(), 4);
}

#[test]
fn a_signature_serves_for_no_other_vote_of_its_signer() {
    let members = Members::new("other");
    let good = members.vote(1, nullify(1));
    assert_eq!(members.reads(1, &Message::Vote(good.clone())), (true, 1));
    assert_eq!(members.reads(2, &Message::Vote(good.clone())), (true, 0), "it is remembered");
    for subject in [notarize(1, 7), notarize(1, 8), nullify(2)] {
        let other = Vote { subject, ..good.clone() };
        assert_eq!(members.reads(1, &Message::Vote(other)), (false, 1), "{subject:?}");
    }
}

#[test]
fn of_a_certificate_the_signatures_are_verified_that_were_not_good_before() {
    let members = Members::new("certificate");
    let votes = members.votes(&[1, 2, 3], nullify(1));
    members.reads(1, &Message::Vote(votes[0].clone()));
    let message = Message::Certificate(Members::certificate(&votes));
    assert_eq!(members.reads(2, &message), (true, 2));
}

#[test]
fn one_certificate_on_a_subject_is_passed_until_the_member_has_taken_it() {
    let members = Members::new("once");
    let [one, other] = [[1, 2, 3], [0, 1, 3]].map(|signers| Members::certificate(&members.votes(&signers, nullify(1))));
    assert_eq!(members.reads(1, &Message::Certificate(one.clone())), (true, 3));
    assert_eq!(members.reads(2, &Message::Certificate(other.clone())), (false, 0), "one is passed");
    members.reader.horizon.took(nullify(1));
    assert_eq!(members.reads(2, &Message::Certificate(other)), (true, 1), "that one was ignored");
    members.reader.horizon.know(nullify(1));
    members.reader.horizon.took(nullify(1));
    assert_eq!(members.reads(3, &Message::Certificate(one)), (false, 0), "the member has one");
}

#[test]
fn a_certificate_comes_before_what_its_sender_sent_before() {
    let members = Members::new("before");
    for view in 1..50 {
        assert!(members.reads(1, &Message::Vote(members.vote(1, nullify(view)))).0);
    }
    let certificate = Members::certificate(&members.votes(&[1, 2, 3], nullify(1)));
    assert!(members.reads(1, &Message::Certificate(certificate)).0);
    let first = members.reader.inbox.take(Duration::ZERO);
    assert!(matches!(first, Some(Event::Message(_, Message::Certificate(_)))), "{first:?}");
}

#[test]
fn readers_of_the_same_certificate_share_its_verifications_and_pass_one() {
    let members = Members::new("same");
    for view in 1..20 {
        let certificate = Message::Certificate(Members::certificate(&members.votes(&[1, 2, 3], nullify(view))));
        let barrier = Barrier::new(3);
        thread::scope(|scope| {
            for from in 1..4 {
                let (members, certificate, barrier) = (&members, &certificate, &barrier);
                scope.spawn(move || {
                    barrier.wait();
                    members.reads(from, certificate)
                });
            }
        });
        let passed = members.reader.inbox.take(Duration::ZERO);
        assert!(matches!(passed, Some(Event::Message(_, Message::Certificate(_)))));
        assert!(members.reader.inbox.take(Duration::ZERO).is_none(), "one is passed");
    }
    // (a reader that waits for another one's verification in vain, as on a busy machine, verifies too)
    let verified = members.reader.keys.verified();
    assert!((57..100).contains(&verified), "{verified} of 19 certificates of three signatures");
}

#[test]
fn of_views_far_ahead_nothing_is_remembered() {
    let members = Members::new("ahead");
    let message = |view| Message::Certificate(Members::certificate(&members.votes(&[1, 2, 3], nullify(view))));
    for _ in 0..2 {
        assert_eq!(
            members.reads(1, &message(65)),
            (true, 3),
            "each is verified, and passed as any message"
        );
    }
    assert_eq!(
        (members.reads(1, &message(64)), members.reads(2, &message(64))),
        ((true, 3), (false, 0))
    );
    members.reader.horizon.moved(View::new(70), View::new(65));
    assert_eq!(members.reads(1, &message(64)), (false, 0), "a view that is not kept");
}
