//! The reader of a connection: it verifies each message, and puts it into the peer's queue unless it is useless.
//!
//! Signatures are verified and blocks hashed on the thread of the connection, so that the thread which owns the engine has neither to do.
//! Each good signature is verified once, alone or in certificates, and one certificate on a subject is passed on.

use super::horizon::Horizon;
use crate::crypto::Keys;
use crate::inbox::{Event, Inbox, Put};
use crate::metrics::Counters;
use crate::settings::Turns;
use crate::vote::is_sound;
use simplex_net::{Bucket, Connection, Receiver};
use simplex_view_state::{Certificate, Digest, Epoch, Participant, Subject, Vote};
use simplex_wire::{Manifest, Message, Range, digest};
use std::io;
use std::sync::Arc;
use std::sync::atomic::Ordering::Relaxed;
use std::time::Instant;
use tracing::warn;

/// How many forged messages end a connection.
const MOST_FORGED: u32 = 16;
/// How many requests of a peer are looked at: a second, and at once.
const ASKS: (f64, f64) = (1e3, 2e3);

/// The state that all reading threads share.
#[derive(Clone)]
pub struct Reader {
    pub(super) keys: Arc<Keys>,
    pub(super) horizon: Arc<Horizon>,
    pub(super) counters: Arc<Counters>,
    pub(super) inbox: Arc<Inbox>,
    pub(super) epoch: Epoch,
    pub(super) turns: Turns,
}

/// One connection of a member.
pub struct Link {
    reader: Reader,
    from: Participant,
    asks: Bucket,
    forged: u32,
}

impl Receiver for Reader {
    type Connection = Link;

    fn connection(&self, from: Participant) -> Link {
        Link {
            reader: self.clone(),
            from,
            asks: Bucket::new(ASKS.0, ASKS.1, Instant::now()),
            forged: 0,
        }
    }
}

impl Connection for Link {
    type Message = Message;

    fn verify(&mut self, frame: &[u8]) -> io::Result<Option<Message>> {
        let begun = Instant::now();
        let message = Message::decode(frame)?;
        let is_of_use = self.admit(&message);
        self.reader.counters.durations.verify(begun.elapsed().as_secs_f64());
        if self.forged > MOST_FORGED {
            return Err(io::ErrorKind::PermissionDenied.into());
        }
        // (the piece is asked of another member at once)
        if let Message::Piece(snapshot, index, _) = &message
            && !is_of_use
            && self.reader.horizon.wants_piece(snapshot, *index).is_some()
        {
            return Ok(Some(Message::NoPiece(*snapshot, *index)));
        }
        Ok(is_of_use.then_some(message))
    }

    fn take(&mut self, message: Message, bytes: usize) -> bool {
        if let Message::Certificate(it) = &message
            && self.reader.horizon.admits(it.round().view)
        {
            return self.pass(it.subject(), message);
        }
        let put = self.reader.inbox.put(self.from, message, bytes);
        if put == Put::Dropped {
            self.reader.counters.dropped_messages.fetch_add(1, Relaxed);
        }
        put != Put::Closed
    }
}

impl Link {
    /// Verifies a message, and returns whether it is well formed, signed and new. What is certified already is not verified, but for a
    /// leader's vote to notarize: this node may hold its vote for another proposal.
    fn admit(&mut self, message: &Message) -> bool {
        let (epoch, horizon) = (self.reader.epoch, self.reader.horizon.clone());
        match message {
            Message::Proposal(vote, block) => {
                let Subject::Notarize(proposal) = &vote.subject else { return false };
                let view = proposal.view();
                is_sound(&vote.subject, epoch)
                    && horizon.admits(view)
                    && vote.signer == self.reader.turns.leader(view)
                    && self.verify_vote(vote)
                    && self.verify_payload(block, proposal.payload)
                    && horizon.takes_proposal(view, proposal.payload)
            }
            Message::Vote(vote) => {
                let view = vote.subject.round().view;
                horizon.show_by(self.from, vote);
                let is_proposal = matches!(vote.subject, Subject::Notarize(_)) && vote.signer == self.reader.turns.leader(view);
                is_sound(&vote.subject, epoch)
                    && horizon.admits(view)
                    && (is_proposal || !horizon.knows(&vote.subject))
                    && self.verify_vote(vote)
            }
            Message::Certificate(it) => {
                let subject = it.subject();
                horizon.show(self.from, subject);
                is_sound(&subject, epoch) && horizon.is_kept(subject.round().view) && !horizon.has(&subject) && self.verify_first(it)
            }
            Message::AskCertificate(..) | Message::AskBlock(..) | Message::AskRange(..) | Message::AskSnapshot | Message::AskPiece(..) => {
                self.asks.take(1.0, Instant::now())
            }
            Message::Range(it) => horizon.wants_range(it.after) && self.verify_range(it),
            Message::Snapshot(_, it) => horizon.wants_offers() && self.verify_range(it),
            Message::Piece(snapshot, index, bytes) => horizon
                .wants_piece(snapshot, *index)
                .is_some_and(|it| self.verify_piece(&it, *index, bytes)),
            Message::NoPiece(snapshot, index) => horizon.wants_piece(snapshot, *index).is_some(),
            Message::NoRange(after, _) => horizon.wants_range(*after),
            Message::Block(bytes) => horizon.wants(bytes),
        }
    }

    /// Returns whether a vote's signature is good. One that was verified before is not verified again.
    fn verify_vote(&mut self, vote: &Vote) -> bool {
        let Reader {
            keys, counters, horizon, ..
        } = &self.reader;
        let verify = |it: &Vote| {
            let is_good = keys.is_signed_vote(it);
            counters.verified.fetch_add(u64::from(is_good), Relaxed);
            is_good
        };
        let is_good = horizon.is_good(vote, verify);
        is_good.unwrap_or_else(|| horizon.is_good_in_the_end(vote, verify)) || self.count(false)
    }

    /// Returns whether a certificate is good. Of its signatures those are verified that were not good before.
    fn verify_certificate(&mut self, it: &Certificate) -> bool {
        let votes = self.reader.keys.votes_in(it);
        let is_good = votes.is_some_and(|it| self.verify_all(&it, || false) == Some(true));
        self.count(is_good)
    }

    /// Returns whether the blocks of a range are those that its certificate names, and that is good.
    fn verify_range(&mut self, it: &Range) -> bool {
        is_sound(&it.certificate.subject(), self.reader.epoch)
            && self.verify_certificate(&it.certificate)
            && (it.is_linked() || self.count(false))
    }

    /// Returns whether a piece is the one that the manifest names. Another one counts as a forged signature.
    fn verify_piece(&mut self, of: &Manifest, index: u32, bytes: &[u8]) -> bool {
        let is_good = of.is_piece(index, bytes) || self.count(false);
        if !is_good {
            self.reader.counters.wrong_pieces.fetch_add(1, Relaxed);
            warn!(
                peer = self.from.get(),
                index, "a member sent another piece of a snapshot than the chain vouches for"
            );
        }
        is_good
    }

    /// Returns whether a certificate is good, and none on the same was passed on before it or meanwhile.
    fn verify_first(&mut self, it: &Certificate) -> bool {
        let (subject, horizon) = (it.subject(), self.reader.horizon.clone());
        let votes = self.reader.keys.votes_in(it);
        match votes.map_or(Some(false), |it| self.verify_all(&it, || horizon.has(&subject))) {
            Some(is_good) => self.count(is_good),
            None => false,
        }
    }

    /// Returns whether all votes are good: first those that no other reader verifies at the moment. `None` where it was ended before.
    fn verify_all(&self, votes: &[Vote], is_over: impl Fn() -> bool) -> Option<bool> {
        let verify = |it: &Vote| self.reader.keys.is_signed_vote(it);
        let mut running = Vec::new();
        for vote in votes {
            match self.reader.horizon.is_good(vote, verify) {
                _ if is_over() => return None,
                Some(false) => return Some(false),
                Some(true) => {}
                None => running.push(vote),
            }
        }
        for vote in running {
            if is_over() {
                return None;
            }
            if !self.reader.horizon.is_good_in_the_end(vote, verify) {
                return Some(false);
            }
        }
        Some(true)
    }

    /// Passes on a certificate that is good, where it is the first on its subject. It comes before all that peers sent: no queue of a
    /// peer's holds it up. Returns whether messages are still taken.
    fn pass(&self, subject: Subject, message: Message) -> bool {
        let is_open = !self.reader.inbox.is_closed();
        if is_open && self.reader.horizon.is_first(subject) {
            self.reader.inbox.tell(Event::Message(self.from, message));
        }
        is_open
    }

    /// Returns whether a block is the one that its proposal names. A block under another name counts as a forged signature.
    fn verify_payload(&mut self, block: &[u8], payload: Digest) -> bool {
        digest(block) == payload || self.count(false)
    }

    /// Counts a verification, and returns its result.
    fn count(&mut self, is_good: bool) -> bool {
        let counters = &self.reader.counters;
        let counter = if is_good { &counters.verified } else { &counters.forged };
        counter.fetch_add(1, Relaxed);
        self.forged += u32::from(!is_good);
        is_good
    }
}

#[cfg(test)]
mod tests;
