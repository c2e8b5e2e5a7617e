//! The frames that wait to be sent to one peer: a queue that is bounded in bytes.

use std::collections::VecDeque;
use std::sync::{Arc, Condvar, Mutex, MutexGuard};
use std::time::{Duration, Instant};

/// How many bytes wait for a peer at most.
const MOST_BYTES: usize = 8 << 20;
/// The cost of a frame beside its bytes.
const A_FRAME: usize = 64;
/// How many bytes are written to a peer at once, about.
const BATCH: usize = 64 << 10;

/// Frames, each with the moment from which it may leave: a link that is slow in a trial holds it back until then.
#[derive(Debug, Default)]
pub(crate) struct SendQueue {
    frames: Mutex<Frames>,
    arrival: Condvar,
}

#[derive(Debug, Default)]
struct Frames {
    queue: VecDeque<(Instant, Arc<Vec<u8>>)>,
    bytes: usize,
    is_closed: bool,
}

impl Frames {
    fn pop(&mut self) -> Option<Arc<Vec<u8>>> {
        let (_, frame) = self.queue.pop_front()?;
        self.bytes -= frame.len() + A_FRAME;
        Some(frame)
    }
}

impl SendQueue {
    /// Adds a frame. Returns whether it fits; one that does not is dropped.
    pub fn push(&self, due: Instant, frame: Arc<Vec<u8>>) -> bool {
        let mut frames = self.lock();
        let bytes = frames.bytes + frame.len() + A_FRAME;
        if bytes > MOST_BYTES {
            return false;
        }
        frames.bytes = bytes;
        frames.queue.push_back((due, frame));
        self.arrival.notify_one();
        true
    }

    /// The bytes of the next frames, about [`BATCH`] at most. It waits for the first one for so long; then there are none. `None` where the
    /// queue is closed and empty.
    pub fn take(&self, within: Duration) -> Option<Vec<u8>> {
        let until = Instant::now() + within;
        let mut frames = self.lock();
        loop {
            let now = Instant::now();
            let due = frames.queue.front().map(|(due, _)| *due);
            if due.is_some_and(|due| due <= now) {
                return Some(batch(&mut frames, now));
            }
            if due.is_none() && frames.is_closed {
                return None;
            }
            let next = due.map_or(until, |due| due.min(until));
            let Some(left) = next.checked_duration_since(now).filter(|left| !left.is_zero()) else {
                return Some(Vec::new());
            };
            frames = match self.arrival.wait_timeout(frames, left) {
                Ok((frames, _)) => frames,
                Err(poisoned) => poisoned.into_inner().0,
            };
        }
    }

    /// Drops the frames that have waited for longer than this: a peer that is back asks for what it misses.
    pub fn drop_older(&self, longest: Duration) {
        let mut frames = self.lock();
        while frames.queue.front().is_some_and(|(due, _)| due.elapsed() > longest) {
            frames.pop();
        }
    }

    /// Nothing is added any more.
    pub fn close(&self) {
        self.lock().is_closed = true;
        self.arrival.notify_all();
    }

    /// Returns whether it is closed.
    pub fn is_closed(&self) -> bool {
        self.lock().is_closed
    }

    fn lock(&self) -> MutexGuard<'_, Frames> {
        self.frames.lock().unwrap_or_else(|it| it.into_inner())
    }
}

fn batch(frames: &mut Frames, now: Instant) -> Vec<u8> {
    let mut bytes = Vec::new();
    while bytes.len() < BATCH && frames.queue.front().is_some_and(|(due, _)| *due <= now) {
        bytes.extend(frames.pop().iter().flat_map(|frame| frame.iter()));
    }
    bytes
}

#[cfg(test)]
mod tests {
    use super::*;

    #[test]
    fn a_queue_holds_no_more_bytes_than_it_may() {
        let queue = SendQueue::default();
        let frame = Arc::new(vec![7; 1 << 20]);
        let taken = (0..1000).filter(|_| queue.push(Instant::now(), frame.clone())).count();
        assert_eq!(taken, 7, "of 1 MiB each, with what a frame costs");
        assert_eq!(queue.take(Duration::ZERO).map(|it| it.len()), Some(1 << 20));
        assert!(queue.push(Instant::now(), frame), "there is room again");
        let small = Arc::new(vec![7; 1]);
        let taken = (0..1_000_000).filter(|_| queue.push(Instant::now(), small.clone())).count();
        assert!(taken < MOST_BYTES / A_FRAME, "{taken} frames of one byte");
    }

    #[test]
    fn frames_leave_in_order_once_they_are_due() {
        let queue = SendQueue::default();
        let (now, later) = (Instant::now(), Instant::now() + Duration::from_secs(2));
        queue.push(now, Arc::new(vec![1]));
        queue.push(now, Arc::new(vec![2, 3]));
        queue.push(later, Arc::new(vec![4]));
        assert_eq!(queue.take(Duration::ZERO), Some(vec![1, 2, 3]));
        assert_eq!(queue.take(Duration::ZERO), Some(vec![]), "the last one is not due");
        assert_eq!(queue.take(Duration::from_secs(60)), Some(vec![4]));
        queue.close();
        assert_eq!(queue.take(Duration::from_secs(5)), None);
    }

    #[test]
    fn frames_that_waited_for_long_are_dropped() {
        let queue = SendQueue::default();
        let Some(before) = Instant::now().checked_sub(Duration::from_secs(3)) else {
            return;
        };
        queue.push(before, Arc::new(vec![1]));
        queue.push(Instant::now(), Arc::new(vec![2]));
        queue.drop_older(Duration::from_secs(1));
        assert_eq!(queue.take(Duration::ZERO), Some(vec![2]));
    }
}
