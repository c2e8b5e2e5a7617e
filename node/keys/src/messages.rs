//! Messages of members, verified on the threads of their links.

use crate::keys::Keys;
use simplex_net::{Connection, Inbox, Put, Receiver};
use simplex_view_state::Participant;
use simplex_wire::{Message, digest};
use std::io;
use std::sync::Arc;

/// Takes the messages of members, verified, to an inbox: each vote is its signer's, each certificate is one that an engine makes of good
/// votes, and each proposal's block has the digest that the vote names. A member that sends anything else is refused for a while.
pub struct Messages {
    keys: Arc<Keys>,
    inbox: Arc<Inbox<FromMember>>,
}

/// A message, and the member that sent it.
pub type FromMember = (Participant, Message);

impl Messages {
    /// A receiver for the links, and the inbox that its messages come to.
    pub fn new(keys: Arc<Keys>) -> (Messages, Arc<Inbox<FromMember>>) {
        let inbox = Arc::new(Inbox::new(keys.public().count()));
        let receiver = Messages {
            keys,
            inbox: inbox.clone(),
        };
        (receiver, inbox)
    }
}

impl Receiver for Messages {
    type Connection = Verified;

    fn connection(&self, from: Participant) -> Verified {
        Verified {
            from,
            keys: self.keys.clone(),
            inbox: self.inbox.clone(),
        }
    }
}

/// One link.
pub struct Verified {
    from: Participant,
    keys: Arc<Keys>,
    inbox: Arc<Inbox<FromMember>>,
}

impl Connection for Verified {
    type Message = Message;

    fn verify(&mut self, frame: &[u8]) -> io::Result<Option<Message>> {
        let (message, public) = (Message::decode(frame).map_err(io::Error::other)?, self.keys.public());
        let is_good = match &message {
            Message::Proposal(vote, block) => public.is_vote(vote) && vote.proposal().is_some_and(|it| it.payload == digest(block)),
            Message::Vote(vote) => public.is_vote(vote),
            Message::Certificate(it) => public.is_certificate(it),
            Message::Range(it) | Message::Snapshot(_, it) => public.is_certificate(&it.certificate) && it.is_linked(),
            // (who asked for a block or a piece compares its digest)
            Message::Block(_) | Message::Piece(..) | Message::NoRange(..) | Message::NoPiece(..) => true,
            Message::AskCertificate(..) | Message::AskBlock(..) | Message::AskRange(..) | Message::AskSnapshot | Message::AskPiece(..) => {
                true
            }
        };
        if is_good {
            Ok(Some(message))
        } else {
            Err(io::ErrorKind::PermissionDenied.into())
        }
    }

    fn take(&mut self, message: Message, bytes: usize) -> bool {
        self.inbox.put(self.from, (self.from, message), bytes) != Put::Closed
    }
}
