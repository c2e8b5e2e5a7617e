//! The public keys of all members.

use openssl::pkey::{Id, PKey, Public};
use openssl::sign::Verifier;
use simplex_view_state::{Certificate, Namespace, Participant, Vote};
use std::io;

/// How many bytes a signature has.
pub const SIGNATURE: usize = 64;

/// The public keys of all members, and the namespace of their network, with which each text of a vote begins.
pub struct PublicKeys {
    namespace: Namespace,
    keys: Vec<PKey<Public>>,
}

impl PublicKeys {
    /// The keys of a network's members, in order.
    ///
    /// # Errors
    ///
    /// Where 32 bytes are no key.
    pub fn new(namespace: Namespace, keys: &[[u8; 32]]) -> io::Result<PublicKeys> {
        let keys = keys.iter().map(|it| PKey::public_key_from_raw_bytes(it, Id::ED25519));
        let keys = keys.collect::<Result<_, _>>()?;
        Ok(PublicKeys { namespace, keys })
    }

    /// Returns the namespace of the network.
    pub fn namespace(&self) -> &Namespace {
        &self.namespace
    }

    /// Returns how many members there are.
    pub fn count(&self) -> usize {
        self.keys.len()
    }

    /// Returns how many votes make a certificate: those of all members but a third, rounded down.
    pub fn quorum(&self) -> usize {
        self.keys.len() - self.keys.len().saturating_sub(1) / 3
    }

    /// Returns whether a member signed a text.
    pub fn is_signed(&self, by: Participant, text: &[u8], signature: &[u8]) -> bool {
        let Some(key) = self.keys.get(by.get() as usize).filter(|_| signature.len() == SIGNATURE) else {
            return false;
        };
        let verified = Verifier::new_without_digest(key).and_then(|mut it| it.verify_oneshot(signature, text));
        verified.unwrap_or(false)
    }

    /// Returns whether a vote is its signer's in this network.
    pub fn is_vote(&self, vote: &Vote) -> bool {
        self.is_signed(vote.signer, &vote.subject.text(&self.namespace), &vote.signature)
    }

    /// Returns the votes in a certificate, whose signatures are not verified yet. `None` where it is none that an engine makes: its bytes are
    /// signatures on its subject, of just as many different members as it takes, by rising index.
    pub fn votes_in(&self, it: &Certificate) -> Option<Vec<Vote>> {
        let (subject, signed) = (it.subject(), it.signatures()?);
        let is_quorum = signed.len() == self.quorum() && signed.iter().all(|(_, it)| it.len() == SIGNATURE);
        let vote = |(signer, signature): (Participant, &[u8])| Vote {
            subject,
            signer,
            signature: signature.to_vec(),
        };
        is_quorum.then(|| signed.into_iter().map(vote).collect())
    }

    /// Returns whether a certificate is one that an engine makes of good votes.
    pub fn is_certificate(&self, it: &Certificate) -> bool {
        self.votes_in(it).is_some_and(|votes| votes.iter().all(|it| self.is_vote(it)))
    }
}
