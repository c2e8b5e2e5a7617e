//! The part of the member's state that reading threads need, and the certificates that other members have.

use super::holders::Holders;
use super::locked;
use super::verified::Verified;
use crate::vote::kind_of;
use simplex_view_state::{CertificateKind, Digest, Participant, Subject, View, Vote};
use simplex_wire::{Manifest, digest};
use std::collections::{BTreeMap, HashMap, HashSet};
use std::sync::atomic::{AtomicU64, Ordering::Relaxed};
use std::sync::{Arc, Mutex};

/// How far above the current view the signature of a vote or proposal is verified at all, and what comes is remembered.
const AHEAD: u64 = 64;
/// How many proposals of a view's leader are taken: a second one is evidence, and any more add nothing.
const PROPOSALS_A_VIEW: usize = 2;

/// The part of the member's state that reading threads need.
#[derive(Default)]
pub struct Horizon {
    current: AtomicU64,
    min_active: AtomicU64,
    known: Mutex<Known>,
    holders: Mutex<Holders>,
    verified: Verified,
    wanted: Mutex<HashSet<Digest>>,
    ranges: Mutex<HashSet<View>>,
    snapshot: Mutex<WantedSnapshot>,
}

/// The messages about snapshots that the member waits for.
#[derive(Clone, Default, Debug)]
pub enum WantedSnapshot {
    /// Nothing.
    #[default]
    None,
    /// Offers of any.
    Offers,
    /// Pieces of the one with this manifest, with its digest, by their indices.
    Pieces(Arc<Manifest>, Digest, HashSet<u32>),
}

#[derive(Default)]
struct Known {
    /// The subjects of the member's certificates, by view and kind.
    certificates: HashMap<(View, CertificateKind), Subject>,
    /// The subjects of the certificates that were verified, and that the member receives next.
    passed: HashMap<(View, CertificateKind), Subject>,
    /// The payloads of proposals that came, by view.
    proposals: BTreeMap<View, Vec<Digest>>,
}

fn key_of(subject: &Subject) -> (View, CertificateKind) {
    (subject.round().view, kind_of(subject))
}

impl Horizon {
    /// The member has moved to these views.
    pub fn moved(&self, current: View, min_active: View) {
        self.current.store(current.get(), Relaxed);
        if self.min_active.swap(min_active.get(), Relaxed) != min_active.get() {
            let mut known = locked(&self.known);
            known.certificates.retain(|(view, _), _| *view >= min_active);
            known.proposals = known.proposals.split_off(&min_active);
            drop(known);
            self.verified.forget(min_active);
            locked(&self.holders).forget(min_active);
        }
    }

    /// The member has a certificate on this: its votes need not be verified again.
    pub fn know(&self, subject: Subject) {
        locked(&self.known).certificates.insert(key_of(&subject), subject);
    }

    /// The member has taken a certificate on this that a reader passed, or dropped it: others are read again.
    pub fn took(&self, subject: Subject) {
        locked(&self.known).passed.remove(&key_of(&subject));
    }

    /// The blocks that the member asks for. Others are dropped unread.
    pub fn want(&self, blocks: HashSet<Digest>) {
        *locked(&self.wanted) = blocks;
    }

    /// The views behind which the member asks for final blocks. Other ranges are dropped.
    pub fn want_ranges(&self, after: HashSet<View>) {
        *locked(&self.ranges) = after;
    }

    /// Sets the messages about snapshots that the member waits for. All others are dropped.
    pub fn want_snapshot(&self, wanted: WantedSnapshot) {
        *locked(&self.snapshot) = wanted;
    }

    pub(super) fn wants_offers(&self) -> bool {
        matches!(&*locked(&self.snapshot), WantedSnapshot::Offers)
    }

    /// The manifest of the snapshot of which a piece is asked for; `None` where it is not asked for.
    pub(super) fn wants_piece(&self, snapshot: &Digest, index: u32) -> Option<Arc<Manifest>> {
        match &*locked(&self.snapshot) {
            WantedSnapshot::Pieces(manifest, digest, asked) if digest == snapshot && asked.contains(&index) => Some(manifest.clone()),
            _ => None,
        }
    }

    pub(super) fn wants_range(&self, after: View) -> bool {
        locked(&self.ranges).contains(&after)
    }

    pub(super) fn wants(&self, block: &[u8]) -> bool {
        let is_any = !locked(&self.wanted).is_empty();
        is_any && {
            let payload = digest(block);
            locked(&self.wanted).contains(&payload)
        }
    }

    /// Returns whether the member has a certificate on just this. Votes for another proposal of the view are evidence.
    pub(super) fn knows(&self, subject: &Subject) -> bool {
        let key = key_of(subject);
        locked(&self.known).certificates.get(&key) == Some(subject)
    }

    /// Returns whether the member has a certificate on just this, or takes one next.
    pub(super) fn has(&self, subject: &Subject) -> bool {
        let key = key_of(subject);
        let known = locked(&self.known);
        known.certificates.get(&key) == Some(subject) || known.passed.get(&key) == Some(subject)
    }

    /// A certificate on this was verified. Returns whether it is the first: the member takes that one before all that peers sent, so that
    /// no peer can hold it up, and others on the same are dropped until it has.
    pub(super) fn is_first(&self, subject: Subject) -> bool {
        let (key, mut known) = (key_of(&subject), locked(&self.known));
        let is_known = known.certificates.get(&key) == Some(&subject);
        !is_known && known.passed.insert(key, subject) != Some(subject)
    }

    /// Returns whether a vote's signature is good, by what is remembered or by a verification. `None` where another reader verifies it.
    pub(super) fn is_good(&self, vote: &Vote, verify: impl Fn(&Vote) -> bool) -> Option<bool> {
        match self.admits(vote.subject.round().view) {
            true => self.verified.is_good(vote, verify),
            false => Some(verify(vote)),
        }
    }

    /// The same, after the verification of the other reader.
    pub(super) fn is_good_in_the_end(&self, vote: &Vote, verify: impl Fn(&Vote) -> bool) -> bool {
        match self.admits(vote.subject.round().view) {
            true => self.verified.is_good_in_the_end(vote, verify),
            false => verify(vote),
        }
    }

    /// A member sent a certificate on this, so it has one.
    pub(super) fn show(&self, member: Participant, subject: Subject) {
        if self.admits(subject.round().view) {
            locked(&self.holders).show(member, subject);
        }
    }

    /// A member sent a vote.
    pub(super) fn show_by(&self, member: Participant, vote: &Vote) {
        if self.admits(vote.subject.round().view) {
            locked(&self.holders).show_by(member, vote);
        }
    }

    /// A member was sent a certificate on this.
    pub fn sent(&self, member: Participant, subject: Subject) {
        if self.admits(subject.round().view) {
            locked(&self.holders).sent(member, subject);
        }
    }

    /// Returns whether a certificate on this was broadcast.
    pub fn was_broadcast(&self, subject: &Subject) -> bool {
        locked(&self.holders).was_broadcast(subject)
    }

    /// The members among so many to which a certificate on this is broadcast now: those that do not have it, as far as is known.
    pub fn lacking(&self, subject: Subject, members: u32) -> Vec<Participant> {
        match self.admits(subject.round().view) {
            true => locked(&self.holders).lacking(subject, members),
            false => (0..members).map(Participant::new).collect(),
        }
    }

    /// Returns whether a proposal is new evidence: it is among the first of its view, or came before.
    pub(super) fn takes_proposal(&self, view: View, payload: Digest) -> bool {
        let mut known = locked(&self.known);
        let payloads = known.proposals.entry(view).or_default();
        let is_known = payloads.contains(&payload);
        if !is_known && payloads.len() < PROPOSALS_A_VIEW {
            payloads.push(payload);
            return true;
        }
        false
    }

    /// Returns whether a vote of the view may be admitted.
    pub(super) fn admits(&self, view: View) -> bool {
        self.min_active.load(Relaxed) <= view.get() && view.get() <= self.current.load(Relaxed) + AHEAD
    }

    pub(super) fn is_kept(&self, view: View) -> bool {
        self.min_active.load(Relaxed) <= view.get()
    }
}
