//! Votes of this member, and the evidence of others' that contradict each other.

use super::Replica;
use crate::crypto::hex;
use crate::evidence::Evidence;
use crate::faults::Fault;
use crate::leader_votes::Found;
use crate::settings::Outcome;
use simplex_view_state::{Order, Participant, Proposal, Subject, View, Vote};
use simplex_wire::Message;
use std::sync::atomic::Ordering::Relaxed;
use std::time::Instant;
use tracing::{info, warn};

impl Replica {
    /// Signs a vote that is stored, sends it to all, and passes it to the engine.
    pub(super) fn cast(&mut self, order: &Order) -> Outcome {
        let begun = Instant::now();
        let vote = order.signed(self.parts.keys.sign_vote(&order.subject, &order.text)?.to_vec());
        self.spent(&self.parts.counters.sign_us, begun);
        self.parts.counters.durations.sign(begun.elapsed().as_secs_f64());
        let (counter, block) = match &order.subject {
            Subject::Notarize(it) => (&self.parts.counters.notarizes, self.own_block(it)),
            Subject::Nullify(_) => (&self.parts.counters.nullifies, None),
            Subject::Finalize(_) => (&self.parts.counters.finalizes, None),
        };
        counter.fetch_add(1, Relaxed);
        self.note(&order.subject);
        match block {
            Some(block) => self.send_proposal(&vote, block)?,
            None => self.parts.peers.send_to_all(&Message::Vote(vote.clone())),
        }
        self.take_vote(vote)
    }

    /// Logs each abandoned view once: a vote to nullify is sent again and again.
    fn note(&mut self, subject: &Subject) {
        let view = subject.round().view;
        if matches!(subject, Subject::Nullify(_)) && view > self.nullified {
            self.nullified = view;
            info!(view = view.get(), "the view is abandoned");
        }
    }

    /// The block of a proposal of this node's own.
    fn own_block(&self, proposal: &Proposal) -> Option<Vec<u8>> {
        let is_own = self.turns.leader(proposal.view()) == self.parts.keys.me;
        let block = self.parts.blocks.get(&proposal.payload).filter(|_| is_own);
        block.map(|it| it.bytes().to_vec())
    }

    fn send_proposal(&mut self, vote: &Vote, block: Vec<u8>) -> Outcome {
        self.parts.counters.proposals.fetch_add(1, Relaxed);
        match self.parts.settings.trial.fault {
            Some(Fault::Silent) => {}
            Some(Fault::Equivocates) => self.send_two_proposals(vote, block)?,
            Some(Fault::Garbage) => {
                self.send_garbage()?;
                self.parts.peers.send_to_all(&Message::Proposal(vote.clone(), block));
            }
            _ => self.parts.peers.send_to_all(&Message::Proposal(vote.clone(), block)),
        }
        Ok(())
    }

    /// Acts on what a comparison of proposals found: logs evidence, and sends a leader's vote to those that voted for another proposal.
    pub(super) fn compare(&mut self, found: Found) -> Outcome {
        if let Some((first, second)) = found.evidence {
            self.note_evidence(&first, &second)?;
            self.show_leader(first.subject.round().view, first.signer);
        }
        if let Some((vote, to)) = found.to_send {
            let message = Message::Vote(vote);
            to.into_iter().for_each(|peer| self.parts.peers.send(peer, &message));
        }
        Ok(())
    }

    /// Two votes of one member that contradict each other, as the engine found them.
    pub(super) fn show(&mut self, first: &Vote, second: &Vote) -> Outcome {
        self.parts.counters.contradictions.fetch_add(1, Relaxed);
        self.note_evidence(first, second)
    }

    /// Logs two votes of one member that contradict each other, and writes them to the file of evidence, each with its signature: whoever
    /// reads them can verify that. Once a view.
    fn note_evidence(&mut self, first: &Vote, second: &Vote) -> Outcome {
        let (signer, view) = (first.signer, first.subject.round().view);
        if self.shown.insert((view, signer)) {
            self.evidence.write(&Evidence {
                first: first.clone(),
                second: second.clone(),
            })?;
            let (first_signature, second_signature) = (hex(&first.signature), hex(&second.signature));
            let (signer, view, first, second) = (signer.get(), view.get(), first.subject, second.subject);
            warn!(
                signer,
                view,
                ?first,
                first_signature,
                ?second,
                second_signature,
                "two votes of one member"
            );
        }
        Ok(())
    }

    /// Counts and logs that a leader proposed twice, once a view.
    pub(super) fn show_leader(&mut self, view: View, leader: Participant) {
        if self.proposed_twice.insert(view) {
            self.parts.counters.equivocations.fetch_add(1, Relaxed);
            warn!(view = view.get(), leader = leader.get(), "a leader proposed twice");
        }
    }
}
