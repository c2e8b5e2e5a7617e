//! Requests of peers to the archive: a few of each peer wait, peers are served round-robin, and each has a share of the thread's time. So a
//! peer that asks without end holds up neither final blocks nor other peers, whatever its asks cost.

use simplex_net::Bucket;
use simplex_view_state::Participant;
use std::collections::{BTreeMap, VecDeque};
use std::time::{Duration, Instant};

/// How many asks of a peer wait at most.
const MOST_OF_A_PEER: usize = 16;
/// The part of the thread's time that all peers have together, and for how many seconds of a peer's share it may ask at once.
const ALL: f64 = 0.5;
const BURST: f64 = 4.0;

#[derive(Debug)]
struct Peer<A> {
    waiting: VecDeque<A>,
    /// Seconds of the thread.
    time: Bucket,
}

/// The asks that wait.
#[derive(Debug)]
pub struct Asks<A> {
    peers: BTreeMap<Participant, Peer<A>>,
    /// The peer that was served last.
    last: Participant,
    share: f64,
}

impl<A> Asks<A> {
    /// None, of so many members.
    pub fn new(members: usize) -> Asks<A> {
        Asks {
            peers: BTreeMap::new(),
            last: Participant::new(0),
            share: ALL / members.max(1) as f64,
        }
    }

    /// A peer asks. Where too many of its asks wait, this one is dropped: it can ask again.
    pub fn push(&mut self, of: Participant, ask: A, now: Instant) {
        let share = self.share;
        let peer = self.peers.entry(of).or_insert_with(|| Peer {
            waiting: VecDeque::new(),
            time: Bucket::new(share, BURST * share, now),
        });
        if peer.waiting.len() < MOST_OF_A_PEER {
            peer.waiting.push_back(ask);
        }
    }

    /// Returns whether no ask waits.
    pub fn is_empty(&self) -> bool {
        self.peers.values().all(|it| it.waiting.is_empty())
    }

    /// The next ask of a peer whose time is not used up; the peers take turns.
    pub fn next(&mut self, now: Instant) -> Option<(Participant, A)> {
        let later = self.peers.range(self.last..).skip_while(|(of, _)| **of == self.last);
        let order: Vec<Participant> = later.chain(self.peers.range(..=self.last)).map(|(of, _)| *of).collect();
        for of in order {
            let peer = self.peers.get_mut(&of)?;
            if !peer.waiting.is_empty() && peer.time.spend(0.0, now).is_zero() {
                self.last = of;
                return peer.waiting.pop_front().map(|ask| (of, ask));
            }
        }
        None
    }

    /// An ask of a peer took so long.
    pub fn took(&mut self, of: Participant, time: Duration, now: Instant) {
        if let Some(peer) = self.peers.get_mut(&of) {
            peer.time.spend(time.as_secs_f64(), now);
        }
    }
}

#[cfg(test)]
mod tests {
    use super::*;

    fn of(index: u32) -> Participant {
        Participant::new(index)
    }

    #[test]
    fn peers_take_turns_and_a_few_asks_of_each_wait() {
        let (now, mut asks) = (Instant::now(), Asks::new(4));
        (0..1000).for_each(|it| asks.push(of(3), it, now));
        asks.push(of(1), 7, now);
        let served: Vec<(u32, i32)> = std::iter::from_fn(|| asks.next(now)).map(|(of, it)| (of.get(), it)).collect();
        assert_eq!((served.len(), &served[..3]), (1 + MOST_OF_A_PEER, &[(1, 7), (3, 0), (3, 1)][..]));
        assert!(asks.is_empty());
    }

    #[test]
    fn a_peer_whose_asks_take_long_has_its_share_of_the_time_and_no_more() {
        let (begun, mut asks) = (Instant::now(), Asks::new(4));
        let (mut spent, mut now, long) = (Duration::ZERO, begun, Duration::from_millis(100));
        while now < begun + Duration::from_secs(100) {
            asks.push(of(3), (), now);
            if asks.next(now).is_some() {
                asks.took(of(3), long, now + long);
                (spent, now) = (spent + long, now + long);
            } else {
                now += Duration::from_millis(10);
            }
        }
        assert!(
            spent > Duration::from_secs(11) && spent < Duration::from_secs(14),
            "{spent:?} of 100 s"
        );
        asks.push(of(1), (), now);
        assert_eq!(asks.next(now).map(|it| it.0), Some(of(1)), "another one is served meanwhile");
    }
}
