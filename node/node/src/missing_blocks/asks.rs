//! Asks for one block: of which member, and when.
//!
//! Members with a connection are asked one after another. Where one does not send the block soon, the next one is asked
//! early: so a member that is stopped or lies costs a short time. All are asked again after a time that doubles. A
//! member whose connection was begun anew, or that is heard of again, is asked at once: an earlier ask may be lost.
//!
//! The early asks of all blocks have one budget. Where it is used up, a block waits for the time that doubles: so many
//! missing blocks are no flood.

use simplex_net::Bucket;
use simplex_view_state::{Moment, Participant};
use std::collections::BTreeMap;
use std::time::{Duration, Instant};

/// After how long the next member is asked early, in milliseconds.
const EARLY_MS: u64 = 100;
/// After how long all members are asked again, in milliseconds: at first, and at most.
const AGAIN_MS: (u64, u64) = (400, 3200);
/// How many early asks there are: a second, and at once.
const EARLY: (f64, f64) = (20.0, 40.0);

/// Another member.
#[derive(Debug, Default)]
struct Member {
    /// The number of its last connection.
    connection: Option<u64>,
    is_connected: bool,
    /// How often it came back.
    times: u64,
}

/// The other members: who has a connection, and how often each came back.
#[derive(Debug)]
pub(super) struct Members {
    me: Participant,
    all: Vec<Member>,
    /// When the budget of early asks was full.
    begun: Instant,
    early: Bucket,
}

impl Members {
    /// So many members, without connections.
    pub fn new(me: Participant, count: u32) -> Members {
        let begun = Instant::now();
        Members {
            me,
            all: (0..count).map(|_| Member::default()).collect(),
            begun,
            early: Bucket::new(EARLY.0, EARLY.1, begun),
        }
    }

    /// The open connection to a member has this number; `None` where there is none.
    pub fn connected(&mut self, member: Participant, connection: Option<u64>) {
        let Some(it) = self.all.get_mut(member.get() as usize) else {
            return;
        };
        it.is_connected = connection.is_some();
        if connection.is_some() && connection != it.connection {
            it.connection = connection;
            it.times += 1;
        }
    }

    /// A member was heard of again.
    pub fn returned(&mut self, member: Participant) {
        if let Some(it) = self.all.get_mut(member.get() as usize) {
            it.times += 1;
        }
    }

    /// The others that have a connection, from one on, each with how often it came back.
    fn connected_from(&self, first: Participant) -> impl Iterator<Item = (Participant, u64)> {
        let count = self.all.len() as u32;
        let turns = (0..count).map(move |it| Participant::new((first.get() + it) % count));
        let connected = |it: Participant| self.all.get(it.get() as usize).filter(|it| it.is_connected);
        turns
            .filter(|it| *it != self.me)
            .filter_map(move |it| Some((it, connected(it)?.times)))
    }

    /// Takes an early ask of the budget. Returns whether there was one.
    fn take_early(&mut self, now: Moment) -> bool {
        self.early.take(1.0, self.begun + Duration::from_millis(now.as_millis()))
    }
}

/// The asks for one block.
#[derive(Debug)]
pub(super) struct Asks {
    /// The member whose turn it is, if it has a connection.
    turn: Participant,
    /// The members that were asked, and how often each had come back then.
    asked: BTreeMap<Participant, u64>,
    /// When the next member is asked early.
    early: Moment,
    /// When all are asked again.
    again: Moment,
    wait_ms: u64,
}

impl Asks {
    /// A block is asked for from now on, of this member first.
    pub fn begin(first: Participant, now: Moment) -> Asks {
        Asks {
            turn: first,
            asked: BTreeMap::new(),
            early: now,
            again: now,
            wait_ms: AGAIN_MS.0,
        }
    }

    /// Returns the member that is asked now; `None` while the others have time to reply, or nobody has a connection.
    pub fn due(&mut self, members: &mut Members, now: Moment) -> Option<Participant> {
        if self.again <= now {
            let next = members.connected_from(self.turn).next()?;
            self.asked.clear();
            self.again = after(now, self.wait_ms);
            self.wait_ms = (2 * self.wait_ms).min(AGAIN_MS.1);
            return Some(self.ask(next, members, now));
        }
        if self.early > now {
            return None;
        }
        let is_due = |(it, times): &(Participant, u64)| self.asked.get(it) != Some(times);
        let next = members.connected_from(self.turn).find(is_due)?;
        members.take_early(now).then(|| self.ask(next, members, now))
    }

    fn ask(&mut self, (of, times): (Participant, u64), members: &Members, now: Moment) -> Participant {
        self.asked.insert(of, times);
        self.early = after(now, EARLY_MS);
        self.turn = Participant::new((of.get() + 1) % members.all.len() as u32);
        of
    }
}

fn after(now: Moment, milliseconds: u64) -> Moment {
    Moment::from_millis(now.as_millis() + milliseconds)
}

#[cfg(test)]
mod tests {
    use super::*;

    fn at(millis: u64) -> Moment {
        Moment::from_millis(millis)
    }

    fn member(index: u32) -> Participant {
        Participant::new(index)
    }

    /// So many members as member 0 sees them, with connections to all others but these.
    fn members(count: u32, without: &[u32]) -> Members {
        let mut members = Members::new(member(0), count);
        for it in 0..count {
            members.connected(member(it), (!without.contains(&it)).then_some(1));
        }
        members
    }

    /// The asks for a block of member 1 first, until a time: when, and of whom.
    fn asked(members: &mut Members, until: u64) -> Vec<(u64, u32)> {
        let mut asks = Asks::begin(member(1), at(0));
        let due = |now| Some((now, asks.due(members, at(now))?.get()));
        (0..until).filter_map(due).collect()
    }

    #[test]
    fn all_members_are_asked_soon_and_again_later_and_later() {
        let all = asked(&mut members(4, &[]), 2900);
        let firsts = [0, 400, 1200, 2800];
        assert_eq!(all.iter().step_by(3).map(|it| it.0).collect::<Vec<_>>(), firsts);
        assert_eq!(all[..6], [(0, 1), (100, 2), (200, 3), (400, 1), (500, 2), (600, 3)]);
    }

    #[test]
    fn a_member_that_is_down_is_not_asked() {
        for down in 1..4 {
            let all = asked(&mut members(4, &[down]), 10_000);
            assert!(all.iter().all(|it| it.1 != down), "{down}: {all:?}");
            assert_eq!([all[0].0, all[1].0], [0, 100]);
        }
        assert!(asked(&mut members(4, &[1, 2, 3]), 10_000).is_empty());
    }

    /// A third of 25 members stands still, and the block is asked of those first.
    #[test]
    fn a_member_that_is_silent_costs_a_short_time() {
        let all = asked(&mut members(25, &[]), 2400);
        let ninth = all.iter().find(|it| it.1 == 9);
        assert_eq!(ninth, Some(&(800, 9)));
        assert_eq!(all.len(), 24, "each once: {all:?}");
    }

    #[test]
    fn a_member_that_is_back_is_asked_at_once() {
        type Back = fn(&mut Members);
        let begun_anew: Back = |it| it.connected(member(3), Some(2));
        let heard_again: Back = |it| it.returned(member(3));
        for back in [begun_anew, heard_again] {
            let (mut all, mut asks) = (members(4, &[2]), Asks::begin(member(1), at(0)));
            let early: Vec<u64> = (0..3000).filter(|now| asks.due(&mut all, at(*now)).is_some()).collect();
            assert_eq!(early.last(), Some(&2900), "the next is at 6000: {early:?}");
            back(&mut all);
            assert_eq!(asks.due(&mut all, at(3500)), Some(member(3)));
            assert_eq!(asks.due(&mut all, at(3700)), None, "once");
            all.connected(member(2), Some(1));
            assert_eq!(asks.due(&mut all, at(4000)), Some(member(2)), "its first connection");
        }
    }

    /// Member 3 is faulty.
    #[test]
    fn a_member_that_comes_back_without_end_keeps_no_other_one_from_being_asked() {
        let (mut all, mut asks, mut of) = (members(4, &[]), Asks::begin(member(1), at(0)), BTreeMap::new());
        for now in 0..20_000 {
            all.returned(member(3));
            if let Some(it) = asks.due(&mut all, at(now)) {
                *of.entry(it.get()).or_insert(0) += 1;
            }
        }
        assert!(of[&1] >= 6 && of[&2] >= 6, "{of:?}");
        assert!(of[&3] <= 200, "{of:?}");
    }

    #[test]
    fn many_blocks_are_asked_for_within_a_budget() {
        let mut all = members(25, &[]);
        let mut blocks: Vec<Asks> = (0..1000).map(|it| Asks::begin(member(1 + it % 24), at(0))).collect();
        let mut asks = |now: u64| blocks.iter_mut().filter_map(|it| it.due(&mut all, at(10 * now))).count();
        assert_eq!(asks(0), 1000, "each once at first");
        let (early, later) = ((1..40).map(&mut asks).sum::<usize>(), (40..1000).map(asks).sum::<usize>());
        assert!(early <= 40 + 8, "{early}");
        assert!(later <= 5 * 1000 + 20 * 10, "{later}");
    }
}
