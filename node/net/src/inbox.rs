//! The events for the thread that owns the member: a bounded queue for each peer, and one for the process itself.

use simplex_view_state::Participant;
use std::collections::VecDeque;
use std::sync::{Condvar, Mutex, MutexGuard};
use std::time::{Duration, Instant};

/// How many events of one peer wait at most.
const MOST_OF_A_PEER: usize = 1024;
/// How many bytes of one peer's events wait at most, and one event more.
const MOST_BYTES_OF_A_PEER: usize = 4 << 20;
/// How long an event waits for room. It is shorter than a link may be silent, so that a peer gets a reply meanwhile.
const ROOM_WITHIN: Duration = Duration::from_millis(500);

/// The result of putting an event into a queue.
#[derive(Clone, Copy, PartialEq, Eq, Debug)]
pub enum Put {
    /// It waits.
    Taken,
    /// There was no room: it is lost, and can be asked for again.
    Dropped,
    /// Nobody takes events any more.
    Closed,
}

/// The events that wait for one thread. It takes those of the process first, and then one event of each peer, round-robin. So a peer that
/// floods fills its own queue, is read no further, and holds up no other.
#[derive(Debug)]
pub struct Inbox<E> {
    queues: Mutex<Queues<E>>,
    /// Something waits.
    arrival: Condvar,
    /// A peer's queue has room again.
    room: Condvar,
}

#[derive(Debug)]
struct Queues<E> {
    own: VecDeque<E>,
    peers: Vec<Queue<E>>,
    /// The peer whose turn it is.
    turn: usize,
    is_closed: bool,
}

/// The queue of one peer.
#[derive(Debug)]
struct Queue<E> {
    events: VecDeque<(E, usize)>,
    bytes: usize,
}

impl<E> Queue<E> {
    fn is_full(&self) -> bool {
        self.events.len() >= MOST_OF_A_PEER || self.bytes >= MOST_BYTES_OF_A_PEER
    }

    fn pop(&mut self) -> Option<E> {
        let (event, bytes) = self.events.pop_front()?;
        self.bytes -= bytes;
        Some(event)
    }
}

impl<E> Queues<E> {
    /// The process's own events come first, then those of the peers, round-robin.
    fn next(&mut self) -> Option<E> {
        if let Some(event) = self.own.pop_front() {
            return Some(event);
        }
        let count = self.peers.len();
        let index = (self.turn..self.turn + count)
            .map(|it| it % count)
            .find(|it| !self.peers[*it].events.is_empty())?;
        self.turn = (index + 1) % count;
        self.peers[index].pop()
    }
}

impl<E> Inbox<E> {
    /// An empty one, for this many members.
    pub fn new(members: usize) -> Inbox<E> {
        let queue = || Queue {
            events: VecDeque::new(),
            bytes: 0,
        };
        Inbox {
            queues: Mutex::new(Queues {
                own: VecDeque::new(),
                peers: (0..members).map(|_| queue()).collect(),
                turn: 0,
                is_closed: false,
            }),
            arrival: Condvar::new(),
            room: Condvar::new(),
        }
    }

    /// Puts an event of so many bytes after those of its peer. Where there is no room it waits for half a second, and then drops the event.
    pub fn put(&self, from: Participant, event: E, bytes: usize) -> Put {
        let index = from.get() as usize;
        let is_full = |it: &mut Queues<E>| !it.is_closed && it.peers[index].is_full();
        let waited = self.room.wait_timeout_while(self.lock(), ROOM_WITHIN, is_full);
        let (mut queues, waited) = waited.unwrap_or_else(|it| it.into_inner());
        if queues.is_closed {
            return Put::Closed;
        }
        if waited.timed_out() {
            return Put::Dropped;
        }
        let queue = &mut queues.peers[index];
        queue.events.push_back((event, bytes));
        queue.bytes += bytes;
        self.arrival.notify_one();
        Put::Taken
    }

    /// Puts an event of the process itself.
    pub fn tell(&self, event: E) {
        self.lock().own.push_back(event);
        self.arrival.notify_one();
    }

    /// Returns what comes next, within some time.
    pub fn take(&self, within: Duration) -> Option<E> {
        let event = self.next_of(within, Queues::next)?;
        self.room.notify_all();
        Some(event)
    }

    /// Returns the next event of the process itself that is as asked for, within some time. All else stays.
    pub fn take_own(&self, within: Duration, is_asked_for: impl Fn(&E) -> bool) -> Option<E> {
        self.next_of(within, |queues| {
            let at = queues.own.iter().position(&is_asked_for)?;
            queues.own.remove(at)
        })
    }

    fn next_of(&self, within: Duration, next: impl Fn(&mut Queues<E>) -> Option<E>) -> Option<E> {
        let until = Instant::now() + within;
        let mut queues = self.lock();
        loop {
            if let Some(event) = next(&mut queues) {
                return Some(event);
            }
            let left = until.checked_duration_since(Instant::now()).filter(|it| !it.is_zero())?;
            queues = match self.arrival.wait_timeout(queues, left) {
                Ok((it, _)) => it,
                Err(poisoned) => poisoned.into_inner().0,
            };
        }
    }

    /// Returns whether nobody takes events any more.
    pub fn is_closed(&self) -> bool {
        self.lock().is_closed
    }

    /// Nobody takes events any more.
    pub fn close(&self) {
        self.lock().is_closed = true;
        self.room.notify_all();
    }

    fn lock(&self) -> MutexGuard<'_, Queues<E>> {
        self.queues.lock().unwrap_or_else(|it| it.into_inner())
    }
}

#[cfg(test)]
mod tests {
    use super::*;
    use std::sync::Arc;
    use std::thread;

    const NOW: Duration = Duration::ZERO;
    const SOON: Duration = Duration::from_secs(60);

    /// Puts an event of a peer's index.
    fn put(inbox: &Inbox<u32>, from: u32, bytes: usize) -> Put {
        inbox.put(Participant::new(from), from, bytes)
    }

    #[test]
    fn a_flood_of_one_peer_holds_up_no_other() {
        let inbox = Inbox::new(4);
        for _ in 0..MOST_OF_A_PEER {
            assert_eq!(put(&inbox, 1, 9), Put::Taken);
        }
        assert_eq!(put(&inbox, 3, 9), Put::Taken);
        let first_two = [inbox.take(NOW), inbox.take(NOW)];
        assert_eq!(first_two, [Some(1), Some(3)], "each peer's first message comes within one turn");
    }

    #[test]
    fn a_full_queue_waits_and_continues_once_there_is_room() {
        let inbox = Arc::new(Inbox::new(2));
        for _ in 0..MOST_OF_A_PEER {
            put(&inbox, 1, 9);
        }
        let writer = thread::spawn({
            let inbox = inbox.clone();
            // (it waits for room for a while, which may be over on a slow machine)
            move || (0..100).map(|_| put(&inbox, 1, 9)).find(|it| *it != Put::Dropped)
        });
        thread::sleep(Duration::from_millis(20));
        assert!(!writer.is_finished(), "there was no room");
        for _ in 0..=MOST_OF_A_PEER {
            assert_eq!(inbox.take(SOON), Some(1));
        }
        assert_eq!(writer.join().expect("the writer ends"), Some(Put::Taken));
        assert!(inbox.take(NOW).is_none());
    }

    #[test]
    fn the_process_is_heard_before_its_peers() {
        let inbox = Inbox::new(2);
        put(&inbox, 1, 9);
        inbox.tell(7);
        assert_eq!(inbox.take(NOW), Some(7));
        assert_eq!(inbox.take(NOW), Some(1));
    }

    #[test]
    fn an_own_event_is_taken_from_among_all_else_which_stays() {
        let inbox = Inbox::new(2);
        inbox.tell(7);
        inbox.tell(9);
        put(&inbox, 1, 9);
        assert_eq!(inbox.take_own(NOW, |it| *it == 1), None, "it is a peer's");
        assert_eq!(inbox.take_own(NOW, |it| *it == 9), Some(9));
        assert_eq!([inbox.take(NOW), inbox.take(NOW), inbox.take(NOW)], [Some(7), Some(1), None]);
    }

    #[test]
    fn a_closed_one_lets_writers_go() {
        let inbox = Inbox::new(2);
        inbox.close();
        assert_eq!(put(&inbox, 1, 9), Put::Closed);
    }

    #[test]
    fn a_peer_holds_no_more_bytes_than_it_may() {
        let inbox = Inbox::new(2);
        let put = || put(&inbox, 1, 1 << 20);
        let taken = (0..6).filter(|_| put() == Put::Taken).count();
        assert_eq!(taken, MOST_BYTES_OF_A_PEER >> 20, "and what waits for too long is dropped");
        assert_eq!(inbox.take(NOW), Some(1));
        assert_eq!(put(), Put::Taken, "there is room again");
    }
}
