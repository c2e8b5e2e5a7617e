//! Which pieces of a snapshot are asked of whom: a few of each other member at once, and again of another one where none comes.

use super::Ask;
use simplex_view_state::{Moment, Participant};
use std::collections::{BTreeMap, BTreeSet, VecDeque};
use std::time::Duration;

/// How many pieces are asked for at once of each member.
const OF_A_MEMBER: usize = 4;
/// After how long a piece is asked for again: at first, and at most.
const RETRY: (Duration, Duration) = (Duration::from_secs(1), Duration::from_secs(8));
/// After how many pieces in a row that did not come a member is asked no more.
const MOST_MISSED: u32 = 8;

#[derive(Debug)]
struct Asked {
    of: Participant,
    until: Moment,
}

/// The pieces of a snapshot.
#[derive(Debug)]
pub struct Pieces {
    others: Vec<Participant>,
    next: usize,
    /// Those that are asked of nobody.
    open: VecDeque<u32>,
    asked: BTreeMap<u32, Asked>,
    tries: BTreeMap<u32, u32>,
    /// How many pieces in a row each member did not send.
    missed: BTreeMap<Participant, u32>,
    /// Who is asked no more.
    avoided: BTreeSet<Participant>,
}

impl Pieces {
    /// So many pieces, of which none is here, at this member of so many. Those that offered the snapshot are asked first: others may be down.
    pub fn new(me: Participant, members: u32, count: u32, offered_by: &BTreeSet<Participant>) -> Pieces {
        let mut others: Vec<Participant> = (0..members).map(Participant::new).filter(|it| *it != me).collect();
        others.sort_by_key(|it| !offered_by.contains(it));
        Pieces {
            others,
            next: 0,
            open: (0..count).collect(),
            asked: BTreeMap::new(),
            tries: BTreeMap::new(),
            missed: BTreeMap::new(),
            avoided: BTreeSet::new(),
        }
    }

    /// Returns whether all pieces have come.
    pub fn is_complete(&self) -> bool {
        self.open.is_empty() && self.asked.is_empty()
    }

    /// Returns whether nobody is left to be asked.
    pub fn is_hopeless(&self) -> bool {
        self.avoided.len() == self.others.len()
    }

    /// The pieces that are asked for.
    pub fn asked(&self) -> impl Iterator<Item = u32> {
        self.asked.keys().copied()
    }

    /// Returns what is to be asked for now.
    pub fn due(&mut self, now: Moment) -> Vec<Ask> {
        let late: Vec<(u32, Participant)> = self
            .asked
            .iter()
            .filter(|(_, it)| it.until <= now)
            .map(|(index, it)| (*index, it.of))
            .collect();
        for (index, of) in late {
            self.asked.remove(&index);
            self.open.push_front(index);
            let missed = self.missed.entry(of).or_default();
            *missed += 1;
            if *missed >= MOST_MISSED {
                self.avoided.insert(of);
            }
        }
        let mut asks = Vec::new();
        while let Some(index) = self.open.front().copied()
            && let Some(of) = self.free()
        {
            self.open.pop_front();
            let tries = self.tries.entry(index).or_default();
            let wait = (RETRY.0 * 2_u32.pow((*tries).min(8))).min(RETRY.1);
            *tries += 1;
            let until = Moment::from_millis(now.as_millis() + wait.as_millis() as u64);
            self.asked.insert(index, Asked { of, until });
            asks.push((of, index));
        }
        asks
    }

    /// The next member that may be asked for another piece.
    fn free(&mut self) -> Option<Participant> {
        for _ in 0..self.others.len() {
            let of = self.others[self.next];
            self.next = (self.next + 1) % self.others.len();
            let is_busy = self.asked.values().filter(|it| it.of == of).count() >= OF_A_MEMBER;
            if !is_busy && !self.avoided.contains(&of) {
                return Some(of);
            }
        }
        None
    }

    /// A piece is here. Returns whether it was asked for.
    pub fn arrived(&mut self, index: u32) -> bool {
        match self.asked.remove(&index) {
            Some(it) => {
                self.tries.remove(&index);
                self.missed.remove(&it.of);
                true
            }
            None => false,
        }
    }

    /// A member has not a piece that it was asked for, or sent another one: it is asked no more.
    pub fn refused(&mut self, by: Participant, index: u32) {
        if self.asked.get(&index).is_some_and(|it| it.of == by) {
            self.asked.remove(&index);
            self.open.push_front(index);
            self.avoided.insert(by);
        }
    }
}

#[cfg(test)]
mod tests {
    use super::*;

    fn at(millis: u64) -> Moment {
        Moment::from_millis(millis)
    }

    fn asks(it: &mut Pieces, now: u64) -> Vec<(u32, u32)> {
        it.due(at(now)).into_iter().map(|(of, index)| (of.get(), index)).collect()
    }

    #[test]
    fn some_pieces_are_asked_of_each_other_member_in_turn_until_all_are_here() {
        let mut it = Pieces::new(Participant::new(1), 4, 20, &BTreeSet::new());
        let first = asks(&mut it, 0);
        assert_eq!((first.len(), &first[..4]), (12, &[(0, 0), (2, 1), (3, 2), (0, 3)][..]));
        assert!(asks(&mut it, 1).is_empty());
        assert!(it.arrived(0) && !it.arrived(0) && !it.arrived(19));
        assert_eq!(asks(&mut it, 2), [(0, 12)]);
        for _ in 0..20 {
            let asked: Vec<u32> = it.asked().collect();
            asked.into_iter().for_each(|index| assert!(it.arrived(index)));
            asks(&mut it, 3);
        }
        assert!(it.is_complete());
    }

    #[test]
    fn who_offered_the_snapshot_is_asked_first() {
        let offered_by = [Participant::new(2)].into();
        let mut it = Pieces::new(Participant::new(0), 4, 3, &offered_by);
        assert_eq!(asks(&mut it, 0), [(2, 0), (1, 1), (3, 2)]);
    }

    #[test]
    fn what_does_not_come_is_asked_of_another_member_and_who_sends_nothing_no_more() {
        let mut it = Pieces::new(Participant::new(0), 4, 4000, &BTreeSet::new());
        let mut asked_of_silent = 0;
        for now in 0..2000 {
            for (of, index) in asks(&mut it, 100 * now) {
                if of == 2 {
                    asked_of_silent += 1;
                } else {
                    assert!(it.arrived(index));
                }
            }
        }
        assert!(it.is_complete() && !it.is_hopeless(), "{it:?}");
        assert!(asked_of_silent <= MOST_MISSED as usize + OF_A_MEMBER, "{asked_of_silent}");
    }

    #[test]
    fn who_refuses_a_piece_is_asked_no_more_and_where_all_do_there_is_no_hope() {
        let mut it = Pieces::new(Participant::new(0), 3, 9, &BTreeSet::new());
        asks(&mut it, 0);
        it.refused(Participant::new(2), 0);
        assert!(!it.avoided.contains(&Participant::new(2)), "piece 0 was asked of member 1");
        it.refused(Participant::new(1), 0);
        assert!(it.avoided.contains(&Participant::new(1)) && !it.is_hopeless());
        assert!(asks(&mut it, 1).iter().all(|(of, _)| *of == 2));
        it.refused(Participant::new(2), 1);
        assert!(it.is_hopeless() && asks(&mut it, 2).is_empty());
    }
}
