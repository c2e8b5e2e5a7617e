//! Toys in place of keys and blocks: anyone can make these signatures, and everyone knows the next block.

use simplex_view_state::{Certificate, Context, Digest, Namespace, Participant};
use std::hash::{DefaultHasher, Hash, Hasher};

/// How many members there are.
pub const MEMBERS: u32 = 4;

/// The beginning of each text to sign: a digest of a real network's name, epoch and members.
pub const NAMESPACE: Namespace = Namespace::new([1; 32]);

/// A member's signature on a text.
pub fn signature(signer: Participant, text: &[u8]) -> Vec<u8> {
    hash_of(&(signer, text)).to_be_bytes().to_vec()
}

/// Returns whether a certificate has good signatures of n - f members on its subject.
pub fn is_good(certificate: &Certificate) -> bool {
    let quorum = MEMBERS - (MEMBERS - 1) / 3;
    let text = certificate.subject().text(&NAMESPACE);
    certificate.signatures().is_some_and(|signatures| {
        signatures.len() >= quorum as usize
            && signatures
                .iter()
                .all(|(signer, it)| signer.get() < MEMBERS && *it == signature(*signer, &text))
    })
}

/// The block that is built in a context: its digest binds the view and the parent.
pub fn block_on(context: &Context) -> Digest {
    let mut bytes = [0; 32];
    for (place, word) in (0u8..).zip(bytes.chunks_exact_mut(8)) {
        word.copy_from_slice(&hash_of(&(place, context.round.view, context.parent_payload)).to_be_bytes());
    }
    Digest::new(bytes)
}

fn hash_of(it: &impl Hash) -> u64 {
    let mut hasher = DefaultHasher::new();
    it.hash(&mut hasher);
    hasher.finish()
}
