//! How certificates go to all: nobody is sent what it has.
//!
//! All members get a certificate at about the same time, of votes that all of them get. Would each send it to all at once, nobody had shown
//! yet to have it. So of each view some members send it at once, of whom one at least is honest, and the others hold it back for a moment:
//! by then most of it need not be sent ([`Horizon::lacking`](crate::peers::Horizon::lacking)).

use super::Replica;
use simplex_view_state::{Certificate, Subject};
use simplex_wire::Message;
use std::collections::VecDeque;
use std::sync::Arc;
use std::sync::atomic::Ordering::Relaxed;
use std::time::{Duration, Instant};

/// A certificate is held back for this part of the leader's timeout, and no longer than so.
const HELD: (u32, Duration) = (10, Duration::from_millis(200));

/// The certificates that are held back, and until when: those that came first are due first.
pub(super) type Held = VecDeque<(Instant, Certificate)>;

/// Returns whether a member is one of those that send a certificate of a view at once: one more than may be faulty, others in each view.
fn is_prompt(index: u32, view: u64, members: u32) -> bool {
    let place = (u64::from(index) + u64::from(members) - view % u64::from(members)) % u64::from(members);
    place <= u64::from(members.saturating_sub(1) / 3)
}

impl Replica {
    /// Sends a certificate to the members that do not have it: now, or in a moment.
    pub(super) fn broadcast(&mut self, it: Certificate) {
        let (subject, members) = (it.subject(), self.heard.len() as u32);
        let is_again = self.parts.horizon.was_broadcast(&subject);
        if is_again || is_prompt(self.parts.keys.me.get(), subject.round().view.get(), members) {
            return self.broadcast_now(it);
        }
        let timeout = Duration::from_millis(self.parts.settings.protocol.leader_timeout_ms);
        self.held.push_back((Instant::now() + (timeout / HELD.0).min(HELD.1), it));
    }

    /// Sends the certificates that were held back for long enough.
    pub(super) fn broadcast_due(&mut self) {
        let now = Instant::now();
        while self.held.front().is_some_and(|(due, _)| *due <= now) {
            let first = self.held.pop_front();
            first.into_iter().for_each(|(_, it)| self.broadcast_now(it));
        }
    }

    /// How long it is until one is due.
    pub(super) fn until_broadcast(&self) -> Option<Duration> {
        let (due, _) = self.held.front()?;
        Some(due.saturating_duration_since(Instant::now()))
    }

    /// Sends a certificate that is held back, if one on this is: it is about to be served, and a member that serves one has broadcast it.
    pub(super) fn broadcast_before(&mut self, subject: &Subject) {
        if let Some(at) = self.held.iter().position(|(_, it)| it.subject() == *subject)
            && let Some((_, it)) = self.held.remove(at)
        {
            self.broadcast_now(it);
        }
    }

    fn broadcast_now(&self, it: Certificate) {
        let (members, me) = (self.heard.len() as u32, self.parts.keys.me);
        let lacking = self.parts.horizon.lacking(it.subject(), members);
        let frame = Arc::new(Message::Certificate(it).frame());
        let mut sent = 0;
        for member in lacking.into_iter().filter(|member| *member != me) {
            self.parts.peers.send_frame(member, frame.clone());
            sent += 1;
        }
        let counters = &self.parts.counters;
        counters.sent_certificates.fetch_add(sent, Relaxed);
        counters.spared_certificates.fetch_add(u64::from(members) - 1 - sent, Relaxed);
    }
}

#[cfg(test)]
mod tests {
    use super::*;

    #[test]
    fn of_each_view_one_member_more_than_may_be_faulty_is_prompt_and_each_is_in_turn() {
        for (members, prompt) in [(1, 1), (4, 2), (7, 3), (10, 4), (25, 9)] {
            let of_view = |view| (0..members).filter(move |index| is_prompt(*index, view, members));
            for view in [1, 2, 3, 1_000_000_007, u64::MAX] {
                assert_eq!(of_view(view).count(), prompt, "view {view} of {members}");
            }
            let times = |index| (1..=u64::from(members)).filter(|view| is_prompt(index, *view, members)).count();
            assert!((0..members).all(|index| times(index) == prompt), "{members} members");
        }
    }
}
