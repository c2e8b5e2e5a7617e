//! The messages between members.

use crate::block::Block;
use simplex_view_state::{Certificate, Digest, FetchKind, Participant, View, Vote};

/// A message.
#[derive(Clone, Debug)]
pub enum Message {
    /// The leader's vote to notarize, with its block.
    Proposal(Vote, Block),
    /// A vote.
    Vote(Vote),
    /// A certificate.
    Certificate(Certificate),
    /// A missing certificate is asked for.
    Ask(FetchKind, View),
    /// A missing block is asked for.
    AskBlock(Digest),
    /// A block that was asked for.
    Block(Block),
}

impl Message {
    /// The vote in it.
    pub fn vote(&self) -> Option<&Vote> {
        match self {
            Message::Proposal(vote, _) | Message::Vote(vote) => Some(vote),
            _ => None,
        }
    }
}

/// A message from one member to another.
#[derive(Clone, Debug)]
pub struct Sent {
    /// Who sends it.
    pub from: Participant,
    /// Who gets it.
    pub to: Participant,
    /// The message.
    pub message: Message,
}
