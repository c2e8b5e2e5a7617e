//! The messages of a faulty node.

use super::Replica;
use crate::settings::Outcome;
use simplex_view_state::{Context, Participant, Proposal, Subject, Vote};
use simplex_wire::{Block, Message};

impl Replica {
    /// A second block for the same view, signed behind the engine's back: every other member gets it in place of the first.
    pub(super) fn send_two_proposals(&mut self, vote: &Vote, block: Vec<u8>) -> Outcome {
        let Subject::Notarize(first) = vote.subject else { return Ok(()) };
        let Ok(built) = Block::decode(block.clone()) else { return Ok(()) };
        let context = Context {
            round: first.round,
            leader: vote.signer,
            parent: built.parent.0,
            parent_payload: built.parent.1,
        };
        let content: Vec<u8> = built.content().iter().map(|byte| !byte).collect();
        let other = Block::new(&context, &content);
        let subject = Subject::Notarize(Proposal {
            payload: other.payload(),
            ..first
        });
        let second = Vote {
            subject,
            signer: vote.signer,
            signature: self.parts.keys.sign(&subject)?.to_vec(),
        };
        for index in 0..self.heard.len() as u32 {
            let message = match index % 2 {
                0 => Message::Proposal(vote.clone(), block.clone()),
                _ => Message::Proposal(second.clone(), other.bytes().to_vec()),
            };
            self.parts.peers.send(Participant::new(index), &message);
        }
        Ok(())
    }

    /// Bytes in a frame that are no message, and a frame that claims to be of 4 GiB.
    pub(super) fn send_garbage(&mut self) -> Outcome {
        let mut bytes = [0; 100];
        openssl::rand::rand_bytes(&mut bytes)?;
        let mut frame = 100_u32.to_be_bytes().to_vec();
        frame.extend_from_slice(&bytes);
        self.parts.peers.send_frame_to_all(frame);
        self.parts.peers.send_frame_to_all(u32::MAX.to_be_bytes().to_vec());
        Ok(())
    }

    /// Votes to nullify the view in the names of all others, with a signature of this node's own.
    pub(super) fn forge(&mut self, vote: &Vote) {
        for signer in (0..self.heard.len() as u32).map(Participant::new).filter(|it| *it != vote.signer) {
            let subject = Subject::Nullify(vote.subject.round());
            let forged = Vote {
                subject,
                signer,
                signature: vote.signature.clone(),
            };
            self.parts.peers.send_to_all(&Message::Vote(forged));
        }
    }

    /// Sends an old vote of somebody again.
    pub(super) fn replay(&mut self, vote: &Vote) {
        self.old_votes.push(vote.clone());
        if self.old_votes.len() > 1000 {
            let old = self.old_votes.swap_remove(vote.subject.round().view.get() as usize % 1000);
            self.parts.peers.send_to_all(&Message::Vote(old));
        }
    }
}
