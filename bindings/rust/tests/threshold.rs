//! The engines whose certificates are one threshold signature each.

#[path = "../examples/threshold/host.rs"]
mod host;
#[path = "../examples/threshold/network.rs"]
mod network;
#[path = "../examples/threshold/scheme.rs"]
mod scheme;

use simplex_view_state::{Certificate, Epoch, Participant, Round, Subject, View, Vote};

const TEXT: &[u8] = b"a text";

fn member(index: u32) -> Participant {
    Participant::new(index)
}

/// The shares of these members on a text, combined.
fn combined(members: &[u32], text: &[u8]) -> Option<Vec<u8>> {
    let shares: Vec<_> = members
        .iter()
        .map(|index| (member(*index), scheme::share(member(*index), text)))
        .collect();
    let shares: Vec<_> = shares.iter().map(|(member, share)| (*member, &share[..])).collect();
    scheme::combine(&shares)
}

fn subject(view: u64) -> Subject {
    Subject::Nullify(Round {
        epoch: Epoch::new(1),
        view: View::new(view),
    })
}

#[test]
fn any_quorum_makes_one_signature() {
    let first = combined(&[0, 1, 2], TEXT).expect("a quorum");
    for others in [[0, 1, 3], [0, 2, 3], [1, 2, 3]] {
        assert_eq!(combined(&others, TEXT).as_ref(), Some(&first));
    }
    assert!(scheme::is_signature(TEXT, &first));
    assert!(!scheme::is_signature(b"another text", &first));
    assert_eq!(combined(&[0, 1], TEXT), None);
}

#[test]
fn two_shares_and_a_wrong_one_make_no_signature() {
    let (one, other, wrong) = (
        scheme::share(member(0), TEXT),
        scheme::share(member(1), TEXT),
        scheme::share(member(3), TEXT),
    );
    let made = scheme::combine(&[(member(0), &one), (member(1), &other), (member(2), &wrong)]).expect("three shares");
    assert!(!scheme::is_signature(TEXT, &made));
}

#[test]
fn a_certificate_on_another_subject_is_refused() {
    let good = Certificate::of(
        subject(7),
        combined(&[0, 1, 2], &subject(7).text(&host::NAMESPACE)).expect("a quorum"),
    );
    assert!(host::is_good(&good));
    assert!(!host::is_good(&Certificate::of(subject(8), good.bytes().to_vec())));
}

#[test]
fn a_vote_with_another_members_share_is_refused() {
    let vote = |signer, share| {
        host::is_good_vote(&Vote {
            subject: subject(7),
            signer: member(signer),
            signature: scheme::share(member(share), &subject(7).text(&host::NAMESPACE)),
        })
    };
    assert!(vote(2, 2));
    assert!(!vote(2, 3));
    assert!(!vote(4, 4), "there are four members");
}

#[test]
fn members_agree_and_send_certificates_of_one_signature() -> host::Outcome {
    let run = network::run(8)?;
    for chain in &run.chains {
        assert_eq!(chain[..8], run.chains[0][..8]);
    }
    assert!(run.certificates.len() >= 8, "{}", run.certificates.len());
    for certificate in &run.certificates {
        assert_eq!(certificate.bytes().len(), scheme::SIZE);
        assert!(host::is_good(certificate));
    }
    assert!(run.journal > 0);
    Ok(())
}
