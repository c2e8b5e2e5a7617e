//! The other members: messages over the links of `simplex_net`, and what is read from them, verified on the reading threads.

mod holders;
mod horizon;
mod reader;
mod verified;

pub use horizon::{Horizon, WantedSnapshot};

use crate::crypto::Keys;
use crate::faults::Cuts;
use crate::inbox::Inbox;
use crate::metrics::Counters;
use crate::settings::{Outcome, Settings};
use reader::Reader;
use simplex_identity::hex;
use simplex_net::{Credentials, Greeting, Places, Watch};
use simplex_view_state::{Epoch, Participant};
use simplex_wire::{Message, VERSION};
use std::sync::atomic::Ordering::Relaxed;
use std::sync::{Arc, Mutex, MutexGuard};
use std::time::Duration;

fn locked<T>(it: &Mutex<T>) -> MutexGuard<'_, T> {
    it.lock().unwrap_or_else(|it| it.into_inner())
}

/// Makes the credentials with which a node of these settings and keys begins connections, and accepts those of others.
pub fn credentials(settings: &Settings, keys: &Keys) -> Outcome<Credentials> {
    let (identity, protocol) = (settings.identity()?, &settings.protocol);
    let greeting = Greeting::new(&[
        ("version of messages", &VERSION.to_string()),
        ("network", &identity.network.to_string()),
        ("epoch", &identity.epoch.to_string()),
        ("term_length", &identity.term_length.to_string()),
        ("optimistic_views", &protocol.optimistic_views.to_string()),
        ("snapshot_blocks", &protocol.snapshot_blocks.to_string()),
        // The digest of all members' public keys, in order.
        ("members", &hex(identity.members.bytes())),
    ]);
    Ok(Credentials::new(keys.members()?, greeting)?)
}

/// The other members.
pub struct Peers {
    links: simplex_net::Peers,
    me: Participant,
    counters: Arc<Counters>,
    cuts: Mutex<Cuts>,
}

impl Peers {
    /// Listens, and begins a connection to each other member.
    pub fn start(
        settings: &Settings,
        keys: &Arc<Keys>,
        horizon: &Arc<Horizon>,
        counters: &Arc<Counters>,
        inbox: &Arc<Inbox>,
    ) -> Outcome<Peers> {
        let reader = Reader {
            keys: keys.clone(),
            horizon: horizon.clone(),
            counters: counters.clone(),
            inbox: inbox.clone(),
            epoch: Epoch::new(settings.protocol.epoch),
            turns: settings.turns(),
        };
        let places = Places {
            listen: settings.listens_at().clone(),
            members: settings.members.iter().map(|it| it.address.clone()).collect(),
            delay: Duration::from_millis(settings.trial.delay_ms),
        };
        Ok(Peers {
            links: simplex_net::Peers::start(&places, credentials(settings, keys)?, reader, counters.clone())?,
            me: settings.me(),
            counters: counters.clone(),
            cuts: Mutex::default(),
        })
    }

    /// These links are cut from now on, in a trial.
    pub fn cut(&self, cuts: Cuts) {
        *locked(&self.cuts) = cuts;
    }

    /// Returns whether nothing is taken from a member.
    pub fn is_cut_from(&self, member: Participant) -> bool {
        locked(&self.cuts).from.contains(&member.get())
    }

    /// Returns whether nothing is sent to a member.
    fn is_cut_to(&self, member: Participant) -> bool {
        locked(&self.cuts).to.contains(&member.get())
    }

    /// Returns the number of the open connection to a member; `None` while there is none.
    pub fn connection(&self, to: Participant) -> Option<u64> {
        self.links.connection(to)
    }

    /// Sends a message to a member.
    pub fn send(&self, to: Participant, message: &Message) {
        self.send_frame(to, Arc::new(message.frame()));
    }

    /// Sends a message that a member asked for, within what it may be served. Returns whether that was left.
    pub fn serve(&self, to: Participant, message: &Message) -> bool {
        let frame = message.frame();
        let bytes = frame.len() as u64;
        let is_left = !self.is_cut_to(to) && self.links.serve(to, frame);
        self.counters.served.fetch_add(u64::from(is_left), Relaxed);
        self.counters.sent_bytes.fetch_add(if is_left { bytes } else { 0 }, Relaxed);
        is_left
    }

    /// How many members there are.
    pub fn count(&self) -> usize {
        self.links.count()
    }

    /// Returns whether a member may still be served, so that what it asks for is worth looking up.
    pub fn may_serve(&self, to: Participant) -> bool {
        self.links.may_serve(to)
    }

    /// Sends a message to all others.
    pub fn send_to_all(&self, message: &Message) {
        self.send_frame_to_all(message.frame());
    }

    /// Sends bytes as they are to all others.
    pub fn send_frame_to_all(&self, frame: Vec<u8>) {
        let frame = Arc::new(frame);
        for index in 0..self.links.count() as u32 {
            self.send_frame(Participant::new(index), frame.clone());
        }
    }

    /// Sends bytes as they are to a member.
    pub fn send_frame(&self, to: Participant, frame: Arc<Vec<u8>>) {
        if !self.is_cut_to(to) && to != self.me {
            self.counters.sent_bytes.fetch_add(frame.len() as u64, Relaxed);
            self.links.send(to, frame);
        }
    }
}

impl Watch for Counters {
    fn connected(&self, _: Participant) {
        self.connections.fetch_add(1, Relaxed);
    }

    fn refused_greeting(&self) {
        self.refused_greetings.fetch_add(1, Relaxed);
    }

    fn refused_connection(&self) {
        self.refused_connections.fetch_add(1, Relaxed);
    }

    fn offended(&self, _: Participant) {
        self.offences.fetch_add(1, Relaxed);
    }

    fn slowed(&self, _: Participant) {
        self.slowed_readers.fetch_add(1, Relaxed);
    }

    fn dropped(&self, _: Participant) {
        self.dropped_frames.fetch_add(1, Relaxed);
    }
}
