//! Blocks: a head that links them, and content of the application.

use crate::message::Malformed;
use sha2::{Digest as _, Sha256};
use simplex_view_state::{Context, Digest, Proposal, View};
use std::time::{SystemTime, UNIX_EPOCH};

/// A block's view, its parent's view and digest, and when it was built.
const HEAD: usize = 8 + 8 + 32 + 8;

/// The SHA-256 digest of bytes.
pub fn digest(bytes: &[u8]) -> Digest {
    Digest::new(Sha256::digest(bytes).into())
}

/// A block.
#[derive(Clone, Debug, PartialEq, Eq)]
pub struct Block {
    /// Its view.
    pub view: View,
    /// Its parent's view and digest.
    pub parent: (View, Digest),
    /// When it was built, in microseconds since 1970.
    pub built_us: u64,
    payload: Digest,
    bytes: Vec<u8>,
}

/// Microseconds since 1970, of a clock that may be set. It measures how long blocks take, and decides nothing.
pub fn now_us() -> u64 {
    SystemTime::now().duration_since(UNIX_EPOCH).map_or(0, |it| it.as_micros() as u64)
}

impl Block {
    /// A block in its context.
    pub fn new(context: &Context, content: &[u8]) -> Block {
        let built_us = now_us();
        let mut bytes = Vec::with_capacity(HEAD + content.len());
        bytes.extend_from_slice(&context.round.view.get().to_be_bytes());
        bytes.extend_from_slice(&context.parent.get().to_be_bytes());
        bytes.extend_from_slice(context.parent_payload.bytes());
        bytes.extend_from_slice(&built_us.to_be_bytes());
        bytes.extend_from_slice(content);
        let payload = digest(&bytes);
        let (view, parent) = (context.round.view, (context.parent, context.parent_payload));
        Block {
            view,
            parent,
            built_us,
            payload,
            bytes,
        }
    }

    /// The block that bytes are.
    ///
    /// # Errors
    ///
    /// Where they are shorter than a head.
    pub fn decode(bytes: Vec<u8>) -> Result<Block, Malformed> {
        let payload = digest(&bytes);
        Block::of(bytes, payload)
    }

    /// The block that bytes are, whose digest is known already, since a thread that reads has hashed them. It is not tested.
    ///
    /// # Errors
    ///
    /// Where they are shorter than a head.
    pub fn of(bytes: Vec<u8>, payload: Digest) -> Result<Block, Malformed> {
        Block::parse(bytes, payload).ok_or(Malformed("a block is shorter than its head"))
    }

    fn parse(bytes: Vec<u8>, payload: Digest) -> Option<Block> {
        let (view, rest) = bytes.split_first_chunk::<8>()?;
        let (parent, rest) = rest.split_first_chunk::<8>()?;
        let (parent_payload, rest) = rest.split_first_chunk::<32>()?;
        let (built, _) = rest.split_first_chunk::<8>()?;
        Some(Block {
            view: View::new(u64::from_be_bytes(*view)),
            parent: (View::new(u64::from_be_bytes(*parent)), Digest::new(*parent_payload)),
            built_us: u64::from_be_bytes(*built),
            payload,
            bytes,
        })
    }

    /// Its bytes.
    pub fn bytes(&self) -> &[u8] {
        &self.bytes
    }

    /// Returns what it holds.
    pub fn content(&self) -> &[u8] {
        &self.bytes[HEAD..]
    }

    /// The digest that proposals name it by.
    pub fn payload(&self) -> Digest {
        self.payload
    }

    /// Returns whether it is the block of this proposal, in its place.
    pub fn is_of(&self, proposal: &Proposal) -> bool {
        self.view == proposal.round.view && self.parent.0 == proposal.parent
    }
}
