//! The link to another member: a thread that begins the connection, greets, and writes what waits.
//!
//! A name is resolved at each attempt. Where nothing waits, a heartbeat is written, and the other side replies to heartbeats with single
//! bytes. A link from which none has come for [`SILENCE`] is begun anew: packets that are dropped on the way end no connection by
//! themselves.

use crate::address::Address;
use crate::send_queue::SendQueue;
use crate::session::{Credentials, SILENCE, Session};
use crate::watch::Watch;
use simplex_view_state::Participant;
use simplex_wire::HEARTBEAT_FRAME;
use std::io::{self, Write};
use std::sync::Arc;
use std::sync::atomic::{AtomicU64, Ordering::Relaxed};
use std::thread;
use std::time::{Duration, Instant};
use tracing::{debug, warn};

/// How long a peer is waited for before it is tried again: from the first to the longest.
const BACKOFF: (Duration, Duration) = (Duration::from_millis(20), Duration::from_secs(1));
/// How long a frame is stored that can't be sent.
const FRESH: Duration = Duration::from_secs(1);
/// How often each side of a link shows that it is there.
pub const HEARTBEAT: Duration = Duration::from_millis(500);
/// How often the other side's heartbeats are looked for.
const LOOK: Duration = Duration::from_millis(100);
/// How often it is logged at most that a peer refuses, or is refused.
pub(crate) const LOGGED: Duration = Duration::from_secs(10);

/// The link to another member: what waits to be sent, and which connection is open.
#[derive(Debug, Default)]
pub(crate) struct Link {
    /// The frames that wait.
    pub queue: SendQueue,
    /// How often a connection was begun or has ended: an odd number while there is one.
    changes: AtomicU64,
}

impl Link {
    /// Returns the number of the connection, from 1; `None` while there is none.
    pub fn connection(&self) -> Option<u64> {
        let changes = self.changes.load(Relaxed);
        (changes % 2 == 1).then_some(changes / 2 + 1)
    }
}

/// Begins the thread of a link. It ends once the queue is closed.
pub(crate) fn begin(to: Participant, address: &Address, credentials: &Arc<Credentials>, watch: &Arc<dyn Watch>) -> io::Result<Arc<Link>> {
    let link = Arc::new(Link::default());
    let (address, credentials, watch, kept) = (address.clone(), credentials.clone(), watch.clone(), link.clone());
    thread::Builder::new()
        .name(format!("to {}", to.get()))
        .spawn(move || keep(to, &address, &credentials, &*watch, &kept))?;
    Ok(link)
}

fn keep(to: Participant, address: &Address, credentials: &Credentials, watch: &dyn Watch, link: &Link) {
    let (mut wait, mut logged) = (BACKOFF.0, None::<Instant>);
    while !link.queue.is_closed() {
        let begun = Instant::now();
        match credentials.connect(to, address) {
            Ok(mut session) => {
                link.changes.fetch_add(1, Relaxed);
                watch.connected(to);
                let ended = write_frames(&mut session, &link.queue);
                link.changes.fetch_add(1, Relaxed);
                if let Err(error) = ended {
                    debug!(peer = to.get(), %error, "a connection ended");
                }
            }
            Err(error) if is_refusal(&error) && logged.is_none_or(|it| it.elapsed() > LOGGED) => {
                logged = Some(Instant::now());
                warn!(peer = to.get(), %error, "a member's greeting is refused");
            }
            Err(error) => debug!(peer = to.get(), %error, "no connection"),
        }
        // (a connection that is refused ends at once)
        if begun.elapsed() > BACKOFF.1 {
            wait = BACKOFF.0;
        }
        thread::sleep(wait);
        wait = (wait * 2).min(BACKOFF.1);
        link.queue.drop_older(FRESH);
    }
}

/// Returns whether a connection ended since the two sides are not those that they have to be, or have settings that differ.
pub(crate) fn is_refusal(error: &io::Error) -> bool {
    matches!(error.kind(), io::ErrorKind::PermissionDenied | io::ErrorKind::InvalidInput)
}

/// Writes what comes, and heartbeats in between, until there is nothing more to come. An error where the link is silent or ends.
fn write_frames(session: &mut Session, frames: &SendQueue) -> io::Result<()> {
    let (mut heard, mut looked) = (Instant::now(), Instant::now());
    while let Some(batch) = frames.take(HEARTBEAT) {
        let bytes = if batch.is_empty() { &HEARTBEAT_FRAME } else { &batch[..] };
        session.write_all(bytes)?;
        if looked.elapsed() < LOOK {
            continue;
        }
        looked = Instant::now();
        if session.drain()? {
            heard = looked;
        }
        if heard.elapsed() > SILENCE {
            return Err(io::ErrorKind::TimedOut.into());
        }
    }
    Ok(())
}
