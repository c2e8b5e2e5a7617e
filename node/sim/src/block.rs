//! Blocks.

use crate::random::hash;
use simplex_view_state::{Context, Digest, Proposal, View};

/// A block: its digest is the payload of a proposal.
#[derive(Clone, Copy, PartialEq, Eq, Debug)]
pub struct Block {
    /// The view that it is built in.
    pub view: View,
    /// The view and the digest of the block below it.
    pub parent: (View, Digest),
    /// The application's part of it.
    pub content: u64,
}

impl Block {
    /// The block with a content in a context.
    pub fn new(context: &Context, content: u64) -> Block {
        Block {
            view: context.round.view,
            parent: (context.parent, context.parent_payload),
            content,
        }
    }

    /// Its digest.
    pub fn digest(&self) -> Digest {
        let mut bytes = Vec::with_capacity(56);
        for number in [self.view.get(), self.parent.0.get(), self.content] {
            bytes.extend(number.to_be_bytes());
        }
        bytes.extend(self.parent.1.bytes());
        let mut digest = [0; 32];
        for (place, word) in (0..).zip(digest.chunks_exact_mut(8)) {
            word.copy_from_slice(&hash(place, &bytes).to_be_bytes());
        }
        Digest::new(digest)
    }

    /// Returns whether a proposal is for this block: view, parent's view and payload are equal.
    pub fn is_of(&self, proposal: &Proposal) -> bool {
        proposal.view() == self.view && proposal.parent == self.parent.0 && proposal.payload == self.digest()
    }
}
