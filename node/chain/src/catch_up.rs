//! Missing final blocks, asked for in ranges from the last one that is here on, of several members at once.
//!
//! The views up to the last finalized one are cut into slices. A few are asked for at a time, each of another member, and again of the next
//! one where no reply comes, after a time that doubles. A reply may end earlier: the rest of its slice is asked for anew. A member that
//! did not reply is passed over for a while, since each ask of it would cost such a time; one without a connection, until it has one.

use simplex_view_state::{Moment, Participant, View};
use std::collections::{BTreeMap, BTreeSet};
use std::time::Duration;

/// How many views a slice has.
const SLICE: u64 = 1024;
/// How many slices are asked for at once of each member.
const OF_A_MEMBER: usize = 3;
/// After how long a slice is asked for again: at first, and at most.
const RETRY: (Duration, Duration) = (Duration::from_millis(500), Duration::from_secs(8));

/// A part of the views, behind the one that it is found by.
#[derive(Debug)]
struct Slice {
    upto: View,
    /// The member that is asked, and until when; none where the blocks came.
    asked: Option<(Participant, Moment)>,
    /// True if that member refused it.
    is_refused: bool,
    tries: u32,
    /// How often nobody replied.
    missed: u32,
}

/// A member that did not reply.
#[derive(Debug)]
struct Silence {
    /// How often in a row.
    missed: u32,
    /// Until when it is passed over.
    until: Moment,
}

/// The time after a moment that doubles with what was missed.
fn after_missed(now: Moment, missed: u32) -> Moment {
    let wait = (RETRY.0 * 2_u32.pow(missed.min(8))).min(RETRY.1);
    Moment::from_millis(now.as_millis() + wait.as_millis() as u64)
}

/// A request for blocks.
#[derive(Clone, Copy, PartialEq, Eq, Debug)]
pub struct Ask {
    /// The member that is asked.
    pub of: Participant,
    /// The blocks behind this view.
    pub after: View,
    /// Up to this one.
    pub upto: View,
}

/// The slices that are asked for.
#[derive(Debug)]
pub struct CatchUp {
    me: Participant,
    members: u32,
    next: Participant,
    slices: BTreeMap<View, Slice>,
    silent: BTreeMap<Participant, Silence>,
    /// The members without a connection.
    down: BTreeSet<Participant>,
    /// The highest view just behind which a member has pruned the blocks: it has pruned those of all lower ones too.
    pruned: BTreeMap<Participant, View>,
}

impl CatchUp {
    /// Nothing is asked for, at this member of so many.
    pub fn new(me: Participant, members: u32) -> CatchUp {
        CatchUp {
            me,
            members,
            next: Participant::new((me.get() + 1) % members),
            slices: BTreeMap::new(),
            silent: BTreeMap::new(),
            down: BTreeSet::new(),
            pruned: BTreeMap::new(),
        }
    }

    /// There is a connection to a member, or none any more. While there is none, others are asked.
    pub fn connected(&mut self, member: Participant, is_connected: bool) {
        if is_connected {
            self.down.remove(&member);
        } else {
            self.down.insert(member);
        }
    }

    /// Returns what is to be asked for now, behind the last block that is here and up to the last finalized view. Where there is no room
    /// for more, the blocks just behind the last one alone.
    pub fn due(&mut self, last: View, target: View, is_full: bool, now: Moment) -> Vec<Ask> {
        self.slices.retain(|_, it| it.upto > last);
        if self.members == 1 {
            return Vec::new();
        }
        self.cut(last, target);
        let most = OF_A_MEMBER * (self.members as usize - 1);
        let open = self
            .slices
            .values()
            .filter(|it| it.asked.is_some_and(|(_, until)| until > now))
            .count();
        let mut asks = Vec::new();
        let is_due = |(after, it): (&View, &Slice)| {
            let is_over = it.asked.is_some_and(|(_, until)| until <= now);
            (is_over && (*after <= last || !is_full)).then_some(*after)
        };
        let due: Vec<View> = self.slices.iter().filter_map(is_due).collect();
        for after in due.into_iter().take(most.saturating_sub(open)) {
            let after = self.cut_off(after, last);
            asks.extend(self.ask(after, now));
        }
        asks
    }

    /// Blocks come alone too. A slice whose first ones are here is asked for from the last one of them on: else members that have pruned the
    /// next block refuse another one. Returns where the slice begins now.
    fn cut_off(&mut self, after: View, last: View) -> View {
        if after < last
            && !self.slices.contains_key(&last)
            && let Some(slice) = self.slices.remove(&after)
        {
            self.slices.insert(last, slice);
            return last;
        }
        after
    }

    /// Cuts what no slice has into slices, a few ahead. They are due at once.
    fn cut(&mut self, last: View, target: View) {
        let most = OF_A_MEMBER * self.members as usize;
        let mut after = last;
        while after < target && self.slices.values().filter(|it| it.asked.is_some()).count() < most {
            let lower = self.slices.range(..=after).next_back().filter(|(_, it)| it.upto > after);
            if let Some((_, slice)) = lower {
                after = slice.upto;
                continue;
            }
            let above = self.slices.range(after..).next().map_or(target, |(view, _)| *view);
            let upto = View::new(after.get() + SLICE).min(above).min(target);
            let slice = Slice {
                upto,
                asked: Some((self.me, Moment::from_millis(0))),
                is_refused: false,
                tries: 0,
                missed: 0,
            };
            self.slices.insert(after, slice);
            after = upto;
        }
    }

    fn ask(&mut self, after: View, now: Moment) -> Option<Ask> {
        self.note_silence(after, now);
        let of = self.turn(now);
        let slice = self.slices.get_mut(&after)?;
        slice.tries += 1;
        slice.is_refused = false;
        slice.asked = Some((of, after_missed(now, slice.missed)));
        Some(Ask {
            of,
            after,
            upto: slice.upto,
        })
    }

    /// A slice is due: the member of which it was asked did not reply, unless it refused it. (Several slices may be asked of one member.)
    fn note_silence(&mut self, after: View, now: Moment) {
        let Some(slice) = self.slices.get_mut(&after).filter(|it| !it.is_refused) else {
            return;
        };
        let Some((of, _)) = slice.asked.filter(|(of, _)| *of != self.me) else {
            return;
        };
        slice.missed += 1;
        let silence = self.silent.entry(of).or_insert(Silence { missed: 0, until: now });
        if silence.until <= now {
            silence.missed += 1;
            silence.until = after_missed(now, silence.missed);
        }
    }

    /// The member whose turn it is: those that did not reply are passed over, unless all did not; and those without a connection, unless
    /// nobody has one.
    fn turn(&mut self, now: Moment) -> Participant {
        let others = || std::iter::successors(Some(self.next), |of| Some(self.following(*of))).take(self.members as usize - 1);
        let is_connected = |of: &Participant| !self.down.contains(of);
        let is_heard = |of: &Participant| self.silent.get(of).is_none_or(|it| it.until <= now);
        let of = others()
            .find(|it| is_connected(it) && is_heard(it))
            .or_else(|| others().find(is_connected));
        let of = of.unwrap_or(self.next);
        self.next = self.following(of);
        of
    }

    /// The member whose turn comes after another's: any but this one.
    fn following(&self, peer: Participant) -> Participant {
        let next = Participant::new((peer.get() + 1) % self.members);
        if next == self.me {
            Participant::new((next.get() + 1) % self.members)
        } else {
            next
        }
    }

    /// The blocks behind a view have come, up to another one.
    pub fn arrived(&mut self, after: View, upto: View) {
        if let Some(slice) = self.slices.get_mut(&after) {
            slice.upto = upto;
            if let Some((of, _)) = slice.asked.take() {
                self.silent.remove(&of);
            }
        }
    }

    /// A member does not have the blocks just behind a view, or has pruned them.
    pub fn refused(&mut self, by: Participant, after: View, is_pruned: bool, now: Moment) {
        if is_pruned {
            let highest = self.pruned.entry(by).or_insert(after);
            *highest = after.max(*highest);
        }
        self.silent.remove(&by);
        let is_its_own = |it: &&mut Slice| it.asked.is_some_and(|(peer, _)| peer == by);
        if let Some(slice) = self.slices.get_mut(&after).filter(is_its_own) {
            let soon = Moment::from_millis(now.as_millis() + 50 * u64::from(slice.tries.min(40)));
            (slice.asked, slice.is_refused) = (Some((by, soon)), true);
        }
    }

    /// How many members have pruned the blocks just behind a view.
    pub fn pruned_by(&self, after: View) -> usize {
        self.pruned.values().filter(|highest| **highest >= after).count()
    }

    /// All blocks that came are missing again.
    pub fn begin_anew(&mut self) {
        self.slices.clear();
    }

    /// The views behind which blocks are asked for.
    pub fn asked(&self) -> impl Iterator<Item = View> {
        self.slices.iter().filter(|(_, it)| it.asked.is_some()).map(|(after, _)| *after)
    }
}

#[cfg(test)]
mod tests {
    use super::*;

    fn view(it: u64) -> View {
        View::new(it)
    }

    fn at(millis: u64) -> Moment {
        Moment::from_millis(millis)
    }

    fn ranges(asks: &[Ask]) -> Vec<(u32, u64, u64)> {
        asks.iter().map(|it| (it.of.get(), it.after.get(), it.upto.get())).collect()
    }

    #[test]
    fn slices_are_asked_of_all_others_in_turn_and_rise() {
        let mut it = CatchUp::new(Participant::new(1), 4);
        let asks = ranges(&it.due(view(10), view(100_000), false, at(5)));
        assert_eq!(asks.len(), 9, "three of each");
        assert_eq!(asks.iter().map(|it| it.0).collect::<Vec<_>>(), [2, 3, 0, 2, 3, 0, 2, 3, 0]);
        assert!(asks.windows(2).all(|it| it[0].2 == it[1].1) && asks[0].1 == 10);
        assert!(it.due(view(10), view(100_000), false, at(6)).is_empty());
    }

    #[test]
    fn where_there_is_no_room_the_lowest_slice_alone_is_asked_for() {
        let mut it = CatchUp::new(Participant::new(1), 4);
        assert_eq!(ranges(&it.due(view(10), view(100_000), true, at(5))), [(2, 10, 10 + SLICE)]);
        assert_eq!(it.due(view(10), view(100_000), false, at(6)).len(), 8);
    }

    #[test]
    fn what_does_not_come_is_asked_of_the_next_member_later_and_later() {
        let mut it = CatchUp::new(Participant::new(3), 4);
        let mut times = Vec::new();
        for now in 0..20_000 {
            times.extend(it.due(view(0), view(5), false, at(now)).iter().map(|ask| (now, ask.of.get())));
        }
        assert_eq!(times[..5], [(0, 0), (500, 1), (1500, 2), (3500, 0), (7500, 1)]);
        assert!(times.len() < 8, "{times:?}");
    }

    #[test]
    fn a_slice_whose_first_blocks_came_alone_is_asked_for_from_the_next_one_on() {
        let mut it = CatchUp::new(Participant::new(0), 4);
        assert_eq!(ranges(&it.due(view(7), view(600), false, at(0))), [(1, 7, 600)]);
        it.refused(Participant::new(1), view(7), true, at(1));
        for (by, now) in [(2, 100), (3, 300)] {
            assert_eq!(ranges(&it.due(view(11), view(600), false, at(now))), [(by, 11, 600)]);
            assert_eq!(it.asked().collect::<Vec<_>>(), [view(11)]);
            it.refused(Participant::new(by), view(11), true, at(now));
        }
        assert_eq!(it.pruned_by(view(11)), 2);
    }

    /// When two members have said that they pruned what is missing, where the other one is down and a view is final each so many milliseconds.
    fn known_to_be_pruned(down: u32, each_ms: u64) -> Option<u64> {
        let mut it = CatchUp::new(Participant::new(3), 4);
        (0..30_000).step_by(10).find(|now| {
            for ask in it.due(view(7), view(600 + now / each_ms), false, at(*now)) {
                match ask.of.get() == down {
                    true => {}
                    false if ask.after == view(7) => it.refused(ask.of, ask.after, true, at(*now)),
                    false => it.arrived(ask.after, ask.upto),
                }
            }
            it.pruned_by(view(7)) == 2
        })
    }

    #[test]
    fn a_member_that_is_down_costs_one_short_wait() {
        for (down, each_ms) in [0, 1, 2].into_iter().flat_map(|down| [20, 50, 90, 300, 700].map(|it| (down, it))) {
            let known = known_to_be_pruned(down, each_ms);
            assert!(known.is_some_and(|it| it < 1000), "{down}, {each_ms}: after {known:?} ms");
        }
    }

    #[test]
    fn a_member_without_a_connection_is_asked_once_it_has_one() {
        let mut it = CatchUp::new(Participant::new(3), 4);
        it.connected(Participant::new(0), false);
        let of = |asks: Vec<Ask>| asks.iter().map(|ask| ask.of.get()).collect::<Vec<_>>();
        assert_eq!(of(it.due(view(0), view(100_000), false, at(0))), [1, 2, 1, 2, 1, 2, 1, 2, 1]);
        it.connected(Participant::new(0), true);
        assert_eq!(of(it.due(view(0), view(100_000), false, at(500)))[..2], [2, 0]);
        (0..3).for_each(|down| it.connected(Participant::new(down), false));
        assert_eq!(it.due(view(0), view(100_000), false, at(2000)).len(), 9, "nobody has one");
    }

    /// A member that lies replies at once, and never with blocks.
    #[test]
    fn a_member_that_did_not_reply_once_is_asked_again() {
        let (mut it, mut of_silent) = (CatchUp::new(Participant::new(3), 4), Vec::new());
        for now in 0..20_000 {
            for ask in it.due(view(0), view(5), false, at(now)) {
                match ask.of.get() {
                    0 => of_silent.push(now),
                    _ => it.refused(ask.of, ask.after, false, at(now)),
                }
            }
        }
        assert!(of_silent.len() >= 3 && of_silent[1] < 3000, "{of_silent:?}");
    }

    #[test]
    fn a_reply_that_ends_earlier_leaves_the_rest_to_be_asked_for() {
        let mut it = CatchUp::new(Participant::new(0), 2);
        assert_eq!(ranges(&it.due(view(0), view(600), false, at(0))), [(1, 0, 600)]);
        it.arrived(view(0), view(350));
        assert_eq!(ranges(&it.due(view(350), view(700), false, at(1))), [(1, 350, 700)]);
        it.arrived(view(350), view(700));
        assert!(it.due(view(700), view(700), false, at(2)).is_empty());
    }

    #[test]
    fn who_has_pruned_is_counted_once_a_member() {
        let mut it = CatchUp::new(Participant::new(0), 4);
        it.due(view(7), view(600), false, at(0));
        for by in [1, 2, 2] {
            it.refused(Participant::new(by), view(7), true, at(1));
        }
        it.refused(Participant::new(3), view(7), false, at(1));
        assert_eq!((it.pruned_by(view(7)), it.pruned_by(view(8))), (2, 0));
    }

    #[test]
    fn who_has_pruned_a_higher_slice_has_pruned_the_lower_ones() {
        let mut it = CatchUp::new(Participant::new(0), 4);
        it.due(view(7), view(6000), false, at(0));
        it.refused(Participant::new(1), view(7), true, at(1));
        it.refused(Participant::new(2), view(7 + SLICE), true, at(1));
        it.refused(Participant::new(3), view(7), true, at(1));
        it.refused(Participant::new(3), view(7 + SLICE), true, at(1));
        assert_eq!((it.pruned_by(view(7)), it.pruned_by(view(8 + SLICE))), (3, 0));
    }

    #[test]
    fn a_member_alone_asks_nobody() {
        assert!(CatchUp::new(Participant::new(0), 1).due(view(0), view(9), false, at(0)).is_empty());
    }
}
