//! Signatures of a simulation: nobody but a member's own host or fault makes them here, so they need not be hard to forge.

use crate::random::hash;
use simplex_view_state::{Certificate, Namespace, Participant, Subject, Vote};
use std::num::NonZeroU32;

/// The namespace of the simulated network.
pub(crate) const NAMESPACE: Namespace = Namespace::new([1; 32]);

/// A member's vote.
pub(crate) fn sign(signer: Participant, subject: Subject) -> Vote {
    let signature = signature(signer, &subject.text(&NAMESPACE));
    Vote {
        subject,
        signer,
        signature,
    }
}

/// A member's signature on a text.
pub(crate) fn signature(signer: Participant, text: &[u8]) -> Vec<u8> {
    hash(u64::from(signer.get()), text).to_be_bytes().to_vec()
}

/// Returns whether a vote's signature is good.
pub fn is_signed(vote: &Vote) -> bool {
    vote.signature == signature(vote.signer, &vote.subject.text(&NAMESPACE))
}

/// Returns whether a certificate has good signatures of n - f members.
pub fn is_good(certificate: &Certificate, members: NonZeroU32) -> bool {
    let quorum = members.get() - (members.get() - 1) / 3;
    let text = certificate.subject().text(&NAMESPACE);
    let is_good = |(signer, it): &(Participant, &[u8])| signer.get() < members.get() && *it == signature(*signer, &text);
    certificate.signatures().is_some_and(|signatures| {
        let is_rising = signatures.windows(2).all(|it| it[0].0 < it[1].0);
        signatures.len() >= quorum as usize && is_rising && signatures.iter().all(is_good)
    })
}
