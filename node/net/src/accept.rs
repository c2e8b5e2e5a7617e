//! Who may come in: a small room for connections that have not greeted, and one connection for each member that has.
//!
//! Neither strangers nor a faulty member can keep another member out. A greeting has two seconds as a whole, and where the room is full the
//! oldest one goes. A member's newer connection takes the place of its older one, which may be what is left of a process or of a path that
//! is gone. A member that sent forgeries is refused for a time that doubles.

use crate::budget::Budget;
use crate::link::{HEARTBEAT, LOGGED, is_refusal};
use crate::receive::{Connection, Receiver};
use crate::session::{Credentials, Session};
use crate::watch::Watch;
use simplex_view_state::Participant;
use simplex_wire::read_frame;
use std::collections::VecDeque;
use std::io::{self, Write};
use std::net::{Shutdown, TcpListener, TcpStream};
use std::sync::atomic::{AtomicU64, Ordering::Relaxed};
use std::sync::{Arc, Mutex, MutexGuard};
use std::thread;
use std::time::{Duration, Instant};
use tracing::{debug, warn};

/// How many connections may be greeting at once, beside two for each member.
const GREETING_ROOM: usize = 32;
/// For how long a member that sent forgeries is refused: at first, and at most.
const PENALTY: (Duration, Duration) = (Duration::from_secs(1), Duration::from_secs(60));
/// After how long without an offence a member is refused for the shortest time again.
const FORGIVEN: Duration = Duration::from_secs(600);
/// How long the listener waits where the system has no room for a connection.
const NO_ROOM: Duration = Duration::from_millis(50);

/// An open connection, so that another thread may end it.
struct Open {
    id: u64,
    stream: TcpStream,
}

#[derive(Clone, Copy)]
struct Offence {
    at: Instant,
    penalty: Duration,
}

/// The connections that are open.
pub(crate) struct Doors {
    greeting: Mutex<VecDeque<Open>>,
    members: Mutex<Vec<Option<Open>>>,
    offences: Mutex<Vec<Option<Offence>>>,
    logged: Mutex<Option<Instant>>,
    room: usize,
    next: AtomicU64,
    credentials: Arc<Credentials>,
    refused: AtomicU64,
    watch: Arc<dyn Watch>,
}

fn locked<T>(it: &Mutex<T>) -> MutexGuard<'_, T> {
    it.lock().unwrap_or_else(|it| it.into_inner())
}

impl Doors {
    /// Makes the listener of a network of so many members; no connection is open.
    pub(crate) fn new(credentials: &Arc<Credentials>, watch: &Arc<dyn Watch>) -> Doors {
        let members = credentials.members().count();
        Doors {
            greeting: Mutex::default(),
            members: Mutex::new((0..members).map(|_| None).collect()),
            offences: Mutex::new(vec![None; members]),
            logged: Mutex::default(),
            room: GREETING_ROOM + 2 * members,
            next: AtomicU64::new(0),
            credentials: credentials.clone(),
            refused: AtomicU64::new(0),
            watch: watch.clone(),
        }
    }

    /// A connection came, and has to greet. Where the room is full the oldest one that has not greeted goes.
    fn enter(&self, stream: &TcpStream) -> io::Result<u64> {
        let open = Open {
            id: self.next.fetch_add(1, Relaxed),
            stream: stream.try_clone()?,
        };
        let id = open.id;
        let mut greeting = locked(&self.greeting);
        if greeting.len() >= self.room
            && let Some(oldest) = greeting.pop_front()
        {
            let _ = oldest.stream.shutdown(Shutdown::Both);
            self.refused("too many connections that do not greet");
        }
        greeting.push_back(open);
        Ok(id)
    }

    /// The connection does not greet any more.
    fn leave(&self, id: u64) -> Option<Open> {
        let mut greeting = locked(&self.greeting);
        let at = greeting.iter().position(|it| it.id == id)?;
        greeting.remove(at)
    }

    /// The connection is this member's, and takes the place of its older one. False where the member is refused for now, or the connection
    /// was ended meanwhile.
    fn admit(&self, id: u64, from: Participant) -> bool {
        let Some(open) = self.leave(id) else { return false };
        if self.is_refused(from) {
            self.refused("a member that sent forgeries");
            return false;
        }
        let place = &mut locked(&self.members)[from.get() as usize];
        // (greetings are verified side by side, and may end in another order)
        if place.as_ref().is_some_and(|it| it.id > id) {
            return false;
        }
        if let Some(older) = place.replace(open) {
            let _ = older.stream.shutdown(Shutdown::Both);
        }
        true
    }

    fn close(&self, id: u64, from: Participant) {
        let place = &mut locked(&self.members)[from.get() as usize];
        if place.as_ref().is_some_and(|it| it.id == id) {
            *place = None;
        }
    }

    fn is_refused(&self, from: Participant) -> bool {
        locked(&self.offences)[from.get() as usize].is_some_and(|it| it.at.elapsed() < it.penalty)
    }

    /// The member sent forgeries: it is refused for a time that doubles with each offence.
    fn offended(&self, from: Participant) {
        let place = &mut locked(&self.offences)[from.get() as usize];
        let penalty = match *place {
            Some(it) if it.at.elapsed() < FORGIVEN => (it.penalty * 2).min(PENALTY.1),
            _ => PENALTY.0,
        };
        *place = Some(Offence {
            at: Instant::now(),
            penalty,
        });
        self.watch.offended(from);
        warn!(
            peer = from.get(),
            seconds = penalty.as_secs(),
            "a member sends what it can't have signed: it is refused"
        );
    }

    /// Counts a connection that was refused, and logs it if none was logged for a while.
    fn refused(&self, why: &str) {
        let count = self.refused.fetch_add(1, Relaxed) + 1;
        self.watch.refused_connection();
        if self.is_to_be_logged() {
            warn!(count, why, "connections are refused");
        }
    }

    /// Counts a greeting that was refused: of a stranger, or of a member whose settings differ.
    fn refused_greeting(&self, from: Option<Participant>, error: &io::Error) {
        self.watch.refused_greeting();
        if self.is_to_be_logged() {
            let peer = from.map(Participant::get);
            warn!(peer, %error, "a greeting is refused");
        }
    }

    fn is_to_be_logged(&self) -> bool {
        let mut logged = locked(&self.logged);
        let is_due = logged.is_none_or(|it| it.elapsed() > LOGGED);
        if is_due {
            *logged = Some(Instant::now());
        }
        is_due
    }
}

/// Accepts connections for ever, each with a thread of its own.
pub(crate) fn listen<R: Receiver>(listener: &TcpListener, receiver: &Arc<R>, doors: &Arc<Doors>) {
    loop {
        let accepted = listener
            .accept()
            .and_then(|(stream, _)| doors.enter(&stream).map(|id| (stream, id)));
        let (stream, id) = match accepted {
            Ok(it) => it,
            Err(error) => {
                debug!(%error, "a connection can't be accepted");
                thread::sleep(NO_ROOM);
                continue;
            }
        };
        let (receiver, its_doors) = (receiver.clone(), doors.clone());
        let begun = thread::Builder::new()
            .name("from".into())
            .spawn(move || serve(stream, id, &*receiver, &its_doors));
        if let Err(error) = begun {
            doors.leave(id);
            warn!(%error, "no thread for a connection");
        }
    }
}

fn serve<R: Receiver>(stream: TcpStream, id: u64, receiver: &R, doors: &Doors) {
    let ended = match doors.credentials.accept(stream) {
        Ok((from, mut session)) if doors.admit(id, from) => {
            let ended = read_all(&mut session, from, receiver.connection(from), &*doors.watch);
            if ended.as_ref().is_err_and(|it| it.kind() == io::ErrorKind::PermissionDenied) {
                doors.offended(from);
            }
            doors.close(id, from);
            let _ = session.tcp().shutdown(Shutdown::Both);
            ended
        }
        Ok(_) => Ok(()),
        Err((from, error)) => {
            doors.leave(id);
            if is_refusal(&error) {
                doors.refused_greeting(from, &error);
            }
            Err(error)
        }
    };
    if let Err(error) = ended {
        debug!(%error, "a connection ended");
    }
}

/// Reads a member's frames until the connection ends, within the member's budget, and replies with heartbeats. `PermissionDenied` where it
/// sends forgeries.
fn read_all(session: &mut Session, from: Participant, mut connection: impl Connection, watch: &dyn Watch) -> io::Result<()> {
    let (mut budget, mut shown) = (Budget::new(Instant::now()), Instant::now());
    let mut stream = io::BufReader::new(session);
    loop {
        if let Some(frame) = read_frame(&mut stream)? {
            let begun = Instant::now();
            let message = connection.verify(&frame)?;
            let wait = budget.spend(frame.len(), begun.elapsed(), Instant::now());
            if message.is_some_and(|it| !connection.take(it, frame.len())) {
                return Ok(());
            }
            if !wait.is_zero() {
                watch.slowed(from);
                thread::sleep(wait.min(HEARTBEAT));
            }
        }
        if shown.elapsed() >= HEARTBEAT / 2 {
            shown = Instant::now();
            stream.get_mut().write_all(&[0])?;
        }
    }
}
