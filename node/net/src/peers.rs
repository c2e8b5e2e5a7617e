//! The other members, as who sends sees them.

use crate::accept::{self, Doors};
use crate::address::Address;
use crate::budget::Bucket;
use crate::link::{self, Link};
use crate::receive::Receiver;
use crate::session::Credentials;
use crate::watch::Watch;
use simplex_view_state::Participant;
use simplex_wire::Message;
use std::io;
use std::net::TcpListener;
use std::sync::{Arc, Mutex};
use std::thread;
use std::time::{Duration, Instant};

/// How many bytes a member is served a second, and at once.
const SERVED: (f64, f64) = (8e6, 16e6);

/// Where members are.
#[derive(Clone, Debug)]
pub struct Places {
    /// Where this member listens. Another address than the one that others dial, behind a translation of addresses.
    pub listen: Address,
    /// Where each member is dialled, this one among them.
    pub members: Vec<Address>,
    /// How long each frame is held back before it leaves: in a trial of slow links; 0 else.
    pub delay: Duration,
}

impl Places {
    /// The places of a member that listens where the others dial it, with nothing held back; `None` where it is none of them.
    pub fn of(me: Participant, members: Vec<Address>) -> Option<Places> {
        Some(Places {
            listen: members.get(me.get() as usize)?.clone(),
            members,
            delay: Duration::ZERO,
        })
    }
}

/// Another member: the link to it, and what it may still be served.
struct Peer {
    link: Arc<Link>,
    served: Mutex<Bucket>,
}

/// Links to the other members. Those end once this is dropped.
pub struct Peers {
    peers: Vec<Option<Peer>>,
    watch: Arc<dyn Watch>,
    delay: Duration,
}

impl Peers {
    /// Listens, and begins a connection to each other member, which is begun again whenever it ends.
    ///
    /// # Errors
    ///
    /// Where the address can't be listened at, which it names, or there is no thread.
    pub fn start<R: Receiver>(places: &Places, credentials: Credentials, receiver: R, watch: Arc<dyn Watch>) -> io::Result<Peers> {
        let named = |error: io::Error| io::Error::new(error.kind(), format!("{}: {error}", places.listen));
        let listener = TcpListener::bind(&places.listen).map_err(named)?;
        let (credentials, receiver) = (Arc::new(credentials), Arc::new(receiver));
        let doors = Arc::new(Doors::new(&credentials, &watch));
        thread::Builder::new()
            .name("listen".into())
            .spawn(move || accept::listen(&listener, &receiver, &doors))?;
        let me = credentials.members().me;
        let mut peers = Vec::new();
        for (index, address) in (0..).map(Participant::new).zip(&places.members) {
            peers.push(if index == me {
                None
            } else {
                Some(Peer {
                    link: link::begin(index, address, &credentials, &watch)?,
                    served: Mutex::new(Bucket::new(SERVED.0, SERVED.1, Instant::now())),
                })
            });
        }
        Ok(Peers {
            peers,
            watch,
            delay: places.delay,
        })
    }

    /// How many members there are.
    pub fn count(&self) -> usize {
        self.peers.len()
    }

    /// Returns the number of the open connection to a member, counted from 1; `None` while there is none. What was sent over an earlier one
    /// may be lost.
    pub fn connection(&self, to: Participant) -> Option<u64> {
        self.peers.get(to.get() as usize)?.as_ref()?.link.connection()
    }

    /// Sends a frame to a member; nothing to this one. What does not fit its queue is dropped: all can be asked for again.
    pub fn send(&self, to: Participant, frame: Arc<Vec<u8>>) {
        if let Some(Some(peer)) = self.peers.get(to.get() as usize)
            && !peer.link.queue.push(Instant::now() + self.delay, frame)
        {
            self.watch.dropped(to);
        }
    }

    /// Sends a message to a member, as [`Peers::send`] does.
    pub fn send_message(&self, to: Participant, message: &Message) {
        self.send(to, Arc::new(message.frame()));
    }

    /// Sends a message to each other member, as [`Peers::send`] does.
    pub fn broadcast(&self, message: &Message) {
        let frame = Arc::new(message.frame());
        (0..self.peers.len() as u32).for_each(|to| self.send(Participant::new(to), frame.clone()));
    }

    /// Sends a frame that a member asked for, within what it may be served. Returns whether that was left.
    pub fn serve(&self, to: Participant, frame: Vec<u8>) -> bool {
        let Some(Some(peer)) = self.peers.get(to.get() as usize) else {
            return false;
        };
        let is_left = locked(&peer.served).take(frame.len() as f64, Instant::now());
        if is_left {
            self.send(to, Arc::new(frame));
        }
        is_left
    }

    /// Returns whether a member may still be served, so that what it asks for is worth looking up.
    pub fn may_serve(&self, to: Participant) -> bool {
        let peer = self.peers.get(to.get() as usize).and_then(Option::as_ref);
        peer.is_some_and(|it| locked(&it.served).take(0.0, Instant::now()))
    }
}

fn locked(it: &Mutex<Bucket>) -> std::sync::MutexGuard<'_, Bucket> {
    it.lock().unwrap_or_else(|it| it.into_inner())
}

impl Drop for Peers {
    fn drop(&mut self) {
        for peer in self.peers.iter().flatten() {
            peer.link.queue.close();
        }
    }
}
