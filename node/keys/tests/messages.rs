//! A message of a member is accepted where it is verified, and refused as a forgery where it is not.

use simplex_keys::{FromMember, Keys, Messages, public_key};
use simplex_net::{Connection, Inbox, Receiver};
use simplex_view_state::{Certificate, Context, Digest, Epoch, FetchKind, Participant, Proposal, Round, Subject, View, Vote};
use simplex_wire::{Block, Manifest, Message, Range};
use std::io::ErrorKind;
use std::sync::Arc;
use std::time::Duration;

const MEMBERS: u8 = 4;

fn keys(me: u32) -> Arc<Keys> {
    let public: Vec<_> = (0..MEMBERS).map(|it| public_key(&[it + 1; 32]).expect("a key")).collect();
    let name = "test".to_owned().try_into().expect("a name");
    Arc::new(Keys::new(name, 3, 5, Participant::new(me), &[me as u8 + 1; 32], &public).expect("its own key"))
}

fn round() -> Round {
    let (epoch, view) = (Epoch::new(1), View::new(7));
    Round { epoch, view }
}

fn vote(signer: u32, subject: Subject) -> Vote {
    let keys = keys(signer);
    let signature = keys.sign(&subject.text(keys.public().namespace())).expect("a signature");
    let signer = Participant::new(signer);
    Vote {
        subject,
        signer,
        signature,
    }
}

fn certificate(signers: &[u32], subject: Subject) -> Certificate {
    let mut bytes = Vec::new();
    for it in signers {
        let signature = vote(*it, subject).signature;
        bytes.extend_from_slice(&it.to_be_bytes());
        bytes.extend_from_slice(&(signature.len() as u64).to_be_bytes());
        bytes.extend_from_slice(&signature);
    }
    Certificate::of(subject, bytes)
}

/// A block of view 7, and the proposal that names it.
fn block() -> (Block, Proposal) {
    let (leader, parent, parent_payload) = (Participant::new(2), View::new(6), Digest::default());
    let context = Context {
        round: round(),
        leader,
        parent,
        parent_payload,
    };
    let block = Block::new(&context, b"a payment");
    let (round, payload) = (round(), block.payload());
    let proposal = Proposal { round, parent, payload };
    (block, proposal)
}

/// Returns whether a message of member 2 is taken; one that is not is refused as a forgery.
fn is_taken(message: &Message) -> bool {
    let (messages, inbox): (Messages, Arc<Inbox<FromMember>>) = Messages::new(keys(0));
    let mut link = messages.connection(Participant::new(2));
    match link.verify(&message.frame()[4..]) {
        Ok(Some(read)) => {
            assert!(read == *message && link.take(read, 9));
            let (from, taken) = inbox.take(Duration::ZERO).expect("it waits");
            from == Participant::new(2) && taken == *message
        }
        refused => {
            assert_eq!(refused.expect_err("nothing is ignored").kind(), ErrorKind::PermissionDenied);
            false
        }
    }
}

#[test]
fn votes_are_their_signers() {
    let good = vote(1, Subject::Nullify(round()));
    assert!(is_taken(&Message::Vote(good.clone())));
    let signer = Participant::new(3);
    assert!(!is_taken(&Message::Vote(Vote { signer, ..good.clone() })), "of another member");
    let subject = Subject::Nullify(Round {
        view: View::new(8),
        ..round()
    });
    assert!(!is_taken(&Message::Vote(Vote { subject, ..good })), "on another view");
}

#[test]
fn proposals_come_with_their_own_blocks() {
    let (block, proposal) = block();
    let vote = vote(2, Subject::Notarize(proposal));
    assert!(is_taken(&Message::of_vote(vote.clone(), Some(&block))));
    let mut other = block.bytes().to_vec();
    other.push(0);
    assert!(!is_taken(&Message::Proposal(vote, other)));
}

#[test]
fn certificates_are_of_a_quorum() {
    let subject = Subject::Nullify(round());
    assert!(is_taken(&Message::Certificate(certificate(&[0, 1, 3], subject))));
    for signers in [&[0, 1][..], &[0, 1, 1], &[1, 0, 3], &[0, 1, 2, 3]] {
        assert!(
            !is_taken(&Message::Certificate(certificate(signers, subject))),
            "signed by {signers:?}"
        );
    }
    let (block, proposal) = block();
    let range = |certificate, blocks| {
        let after = View::new(1);
        Message::Range(Range {
            after,
            certificate,
            blocks,
        })
    };
    let good = certificate(&[0, 1, 3], Subject::Finalize(proposal));
    assert!(is_taken(&range(good.clone(), vec![block.clone()])));
    assert!(!is_taken(&range(good, Vec::new())), "without the block that it finalizes");
    assert!(!is_taken(&range(certificate(&[0, 1], Subject::Finalize(proposal)), vec![block])));
}

#[test]
fn offers_of_snapshots_have_a_quorum_and_linked_blocks() {
    let (block, proposal) = block();
    let offer = |signers, blocks| {
        let manifest = Manifest::of(5, View::new(7), block.payload(), b"balances").expect("a manifest");
        let (after, certificate) = (View::new(1), certificate(signers, Subject::Finalize(proposal)));
        let range = Range {
            after,
            certificate,
            blocks,
        };
        Message::Snapshot(manifest, range)
    };
    assert!(is_taken(&offer(&[0, 1, 3], vec![block.clone()])));
    assert!(!is_taken(&offer(&[0, 1], vec![block.clone()])), "signed by too few");
    assert!(!is_taken(&offer(&[0, 1, 3], Vec::new())), "without the block that it finalizes");
}

#[test]
fn requests_need_no_signature() {
    assert!(is_taken(&Message::AskCertificate(FetchKind::Decision, View::new(3))));
}

#[test]
fn a_secret_key_of_another_member_is_refused() {
    let public: Vec<_> = (0..MEMBERS).map(|it| public_key(&[it + 1; 32]).expect("a key")).collect();
    let name = || "test".to_owned().try_into().expect("a name");
    for me in [1, 4] {
        let refused = Keys::new(name(), 3, 5, Participant::new(me), &[1; 32], &public)
            .err()
            .expect("it is refused");
        assert!(refused.to_string().contains("is not that of member"), "{refused}");
    }
    let config = keys(1).config().expect("settings");
    assert_eq!(
        (config.members.get(), config.epoch, config.terms.length.get()),
        (4, Epoch::new(3), 5)
    );
}

#[test]
fn a_vote_of_one_network_counts_in_no_other() {
    let public: Vec<_> = (0..MEMBERS).map(|it| public_key(&[it + 1; 32]).expect("a key")).collect();
    let others = [("other", 3, 5), ("test", 4, 5), ("test", 3, 6)];
    let good = vote(1, Subject::Nullify(round()));
    assert!(keys(2).public().is_vote(&good));
    for (name, epoch, term_length) in others {
        let name = name.to_owned().try_into().expect("a name");
        let other = Keys::new(name, epoch, term_length, Participant::new(0), &[1; 32], &public).expect("its own key");
        assert!(!other.public().is_vote(&good), "{:?}", other.identity());
        assert_eq!(other.config().expect("settings").namespace, *other.public().namespace());
    }
}
