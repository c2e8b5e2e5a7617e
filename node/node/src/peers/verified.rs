//! Signatures that were verified and good. All readers share them, and each signature is verified by one reader at a time.
//!
//! A signature is remembered with all that it was verified with: view, kind, signer, subject and its own bytes. One that was not good is
//! never remembered: who sends it again has it verified again, and pays for that. So a forger makes nobody else wait: a reader waits for
//! another one only where both hold the same bytes, and then either verification serves both.

use crate::vote::kind_of;
use simplex_view_state::{CertificateKind, Participant, View, Vote};
use std::collections::{HashMap, HashSet};
use std::sync::{Condvar, Mutex, MutexGuard};
use std::time::Duration;

/// How many signatures of a member, view and kind are remembered: a second subject is evidence, and any more add nothing.
const MOST_OF_A_SIGNER: usize = 2;
/// How long a reader waits for another one's verification, which takes less than a millisecond, before it verifies too.
const WAIT: Duration = Duration::from_millis(20);

/// The signatures that were good, and those that are being verified.
#[derive(Debug, Default)]
pub(super) struct Verified {
    state: Mutex<State>,
    /// A verification has ended.
    ended: Condvar,
}

#[derive(Debug, Default)]
struct State {
    good: HashMap<(View, CertificateKind, Participant), Vec<Vote>>,
    /// One a reader at most.
    running: HashSet<Vote>,
}

/// While it exists, this reader verifies a signature. The others may, once it is dropped.
struct Claim<'a> {
    verified: &'a Verified,
    vote: &'a Vote,
}

impl Drop for Claim<'_> {
    fn drop(&mut self) {
        self.verified.lock().running.remove(self.vote);
        self.verified.ended.notify_all();
    }
}

impl State {
    fn is_good(&self, vote: &Vote) -> bool {
        self.good.get(&key_of(vote)).is_some_and(|it| it.contains(vote))
    }

    fn remember(&mut self, vote: &Vote) {
        let good = self.good.entry(key_of(vote)).or_default();
        if !good.contains(vote) {
            good.truncate(MOST_OF_A_SIGNER - 1);
            good.push(vote.clone());
        }
    }
}

fn key_of(vote: &Vote) -> (View, CertificateKind, Participant) {
    (vote.subject.round().view, kind_of(&vote.subject), vote.signer)
}

impl Verified {
    fn lock(&self) -> MutexGuard<'_, State> {
        self.state.lock().unwrap_or_else(|it| it.into_inner())
    }

    /// Returns whether a vote's signature is good: remembered, or verified now. `None` where another reader verifies just this one.
    pub fn is_good(&self, vote: &Vote, verify: impl Fn(&Vote) -> bool) -> Option<bool> {
        let mut state = self.lock();
        if state.is_good(vote) {
            return Some(true);
        }
        if !state.running.insert(vote.clone()) {
            return None;
        }
        drop(state);
        let claim = Claim { verified: self, vote };
        let is_good = verify(vote);
        if is_good {
            self.lock().remember(vote);
        }
        drop(claim);
        Some(is_good)
    }

    /// The same, after the verification of another reader, if one runs; in [`WAIT`] and the time of a verification at most.
    pub fn is_good_in_the_end(&self, vote: &Vote, verify: impl Fn(&Vote) -> bool) -> bool {
        let is_running = |it: &mut State| it.running.contains(vote);
        let waited = self.ended.wait_timeout_while(self.lock(), WAIT, is_running);
        drop(waited);
        self.is_good(vote, &verify).unwrap_or_else(|| verify(vote))
    }

    /// Nothing of the views below this one is remembered any more.
    pub fn forget(&self, lowest: View) {
        self.lock().good.retain(|(view, ..), _| *view >= lowest);
    }

    /// How many signatures are remembered.
    #[cfg(test)]
    pub fn len(&self) -> usize {
        self.lock().good.values().map(Vec::len).sum()
    }
}

#[cfg(test)]
mod tests {
    use super::*;
    use simplex_view_state::{Digest, Proposal, Round, Subject};
    use std::cell::Cell;
    use std::sync::Arc;
    use std::sync::atomic::{AtomicU32, Ordering::Relaxed};
    use std::sync::mpsc::channel;
    use std::thread;

    fn round(view: u64) -> Round {
        Round {
            view: View::new(view),
            ..Round::default()
        }
    }

    fn nullify(view: u64, signer: u32, signature: u8) -> Vote {
        Vote {
            subject: Subject::Nullify(round(view)),
            signer: Participant::new(signer),
            signature: vec![signature; 64],
        }
    }

    fn notarize(view: u64, signer: u32, payload: u8) -> Vote {
        let proposal = Proposal {
            round: round(view),
            parent: View::GENESIS,
            payload: Digest::new([payload; 32]),
        };
        Vote {
            subject: Subject::Notarize(proposal),
            ..nullify(view, signer, 7)
        }
    }

    /// How many of these votes are verified, with this result.
    fn verifications(verified: &Verified, votes: &[Vote], is_good: bool) -> u32 {
        let count = Cell::new(0);
        for vote in votes {
            let verify = |_: &Vote| {
                count.set(count.get() + 1);
                is_good
            };
            assert!(verified.is_good(vote, verify).is_some());
        }
        count.get()
    }

    #[test]
    fn a_good_signature_is_verified_once_and_one_that_is_not_each_time() {
        let verified = Verified::default();
        let vote = nullify(1, 1, 7);
        assert_eq!(verifications(&verified, &[vote.clone(), vote.clone()], false), 2);
        assert_eq!(
            verified.is_good(&vote, |_| false),
            Some(false),
            "a failure is not remembered as good"
        );
        assert_eq!(verifications(&verified, &[vote.clone(), vote.clone(), vote], true), 1);
    }

    #[test]
    fn what_differs_in_anything_is_verified() {
        let verified = Verified::default();
        let all = [
            nullify(1, 1, 7),
            nullify(1, 1, 8),
            nullify(1, 2, 7),
            nullify(2, 1, 7),
            notarize(1, 1, 7),
            notarize(1, 1, 8),
        ];
        assert_eq!(verifications(&verified, &all, true), 6);
        assert_eq!(verifications(&verified, &all, false), 0, "each is remembered for itself");
    }

    #[test]
    fn of_a_signer_two_signatures_of_a_view_and_kind_are_remembered_and_no_view_that_is_forgotten() {
        let verified = Verified::default();
        let many: Vec<Vote> = (0..100).map(|it| nullify(1, 1, it)).collect();
        verifications(&verified, &many, true);
        assert_eq!(verified.len(), MOST_OF_A_SIGNER);
        verifications(&verified, &[nullify(2, 1, 7)], true);
        verified.forget(View::new(2));
        assert_eq!(verified.len(), 1);
    }

    #[test]
    fn readers_that_hold_the_same_signature_verify_it_once() {
        let (verified, count, vote) = (Arc::new(Verified::default()), Arc::new(AtomicU32::new(0)), nullify(1, 1, 7));
        let (begun, has_begun) = channel();
        let (to_end, ends) = channel();
        let first = thread::spawn({
            let (verified, count, vote) = (verified.clone(), count.clone(), vote.clone());
            move || {
                let verify = |_: &Vote| {
                    count.fetch_add(1, Relaxed);
                    begun.send(()).expect("the test waits");
                    ends.recv().expect("the test tells it")
                };
                verified.is_good(&vote, verify)
            }
        });
        has_begun.recv().expect("it verifies");
        assert_eq!(verified.is_good(&vote, |_| panic!("the first one does")), None);
        let other = nullify(1, 1, 8);
        assert_eq!(verified.is_good(&other, |_| true), Some(true), "other bytes wait for nobody");
        to_end.send(true).expect("it waits");
        assert_eq!(first.join().expect("it ends"), Some(true));
        assert!(verified.is_good_in_the_end(&vote, |_| panic!("it is remembered")));
        assert_eq!(count.load(Relaxed), 1);
    }

    #[test]
    fn who_waits_in_vain_or_for_a_forgery_verifies_too() {
        let (verified, vote) = (Verified::default(), nullify(1, 1, 7));
        let claim = |it: &Vote| {
            assert!(verified.is_good_in_the_end(it, |_| true), "after a while it verifies itself");
            false
        };
        assert_eq!(verified.is_good(&vote, claim), Some(false));
        let verified = Verified::default();
        assert_eq!(verified.is_good(&vote, |_| false), Some(false));
        assert!(!verified.is_good_in_the_end(&vote, |_| false));
        assert_eq!(verified.len(), 0);
    }
}
