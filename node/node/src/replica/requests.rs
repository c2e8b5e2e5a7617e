//! Requests to peers, and replies to theirs.

use super::Replica;
use simplex_view_state::{Digest, Fetch, FetchKind, Participant, View};
use simplex_wire::Message;
use std::sync::atomic::Ordering::Relaxed;
use std::time::{Duration, Instant};

/// After how long a silence of a member what it was asked may be lost.
const QUIET: Duration = Duration::from_secs(1);

impl Replica {
    /// Asks a member for a certificate, or the next one with a connection where it has none; nobody, where there is no
    /// other one.
    pub(super) fn fetch(&mut self, it: &Fetch) {
        let Some(of) = it.of else { return };
        let count = self.heard.len() as u32;
        let mut turns = (0..count).map(|it| Participant::new((of.get() + it) % count));
        let connected = turns.find(|it| self.parts.peers.connection(*it).is_some());
        self.ask(connected.unwrap_or(of), &Message::AskCertificate(it.kind, it.view));
    }

    fn ask(&mut self, peer: Participant, message: &Message) {
        self.parts.counters.fetches.fetch_add(1, Relaxed);
        self.parts.peers.send(peer, message);
    }

    /// A message of a member came.
    pub(super) fn hear(&mut self, from: Participant) {
        let heard = &mut self.heard[from.get() as usize];
        if heard.elapsed() > QUIET {
            self.missing.returned(from);
        }
        *heard = Instant::now();
    }

    /// Asks for the missing blocks, whose turn it is. The readers drop all others.
    pub(super) fn fetch_blocks(&mut self) {
        self.parts.horizon.want(self.missing.payloads());
        for member in (0..self.heard.len() as u32).map(Participant::new) {
            let connection = self.parts.peers.connection(member);
            self.missing.connected(member, connection);
            self.catch_up.connected(member, connection.is_some());
        }
        for (view, payload, peer) in self.missing.due(self.parts.clock.now()) {
            self.ask(peer, &Message::AskBlock(view, payload));
        }
    }

    /// Serves a peer that asks for a certificate. It may ask for what is no view: that is no error of this node.
    pub(super) fn serve(&mut self, from: Participant, kind: FetchKind, view: View) {
        if let Ok(Some(it)) = self.parts.engine.certificate_for(kind, view) {
            let subject = it.subject();
            self.broadcast_before(&subject);
            if self.parts.peers.serve(from, &Message::Certificate(it)) {
                self.parts.horizon.sent(from, subject);
            }
            self.events.served(from, kind, view);
        }
    }

    /// Serves a block, of those of proposals or of the archive, as far as the peer's share of this node goes.
    pub(super) fn serve_block(&mut self, from: Participant, view: View, payload: Digest) {
        match self.parts.blocks.get(&payload) {
            Some(block) => {
                self.parts.peers.serve(from, &Message::Block(block.bytes().to_vec()));
            }
            None => self.parts.keeper.serve_block(from, view, payload),
        }
    }
}
