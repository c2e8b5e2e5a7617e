//! A member.

use crate::errors::{EntriesError, OpenError, Refusal};
use crate::ffi;
use crate::journal::{Entries, EntryCount, Stored};
use crate::messages::{
    Added, Candidates, Certificate, CertificateFetch, CertificateKind, Context, Finalization, Finalize, MissingCertificate, Notarization,
    Notarize, Nullification, Nullify, Proposal, ProposalRequest, Subject, Verify,
};
use crate::numbers::{Digest, Epoch, Moment, Participant, Round, Token, View};
use crate::reasons::{HandoffAbandonedReason, TimeoutReason};
use crate::settings::{Config, Flat};
use crate::withheld::{VoteKind, Withheld};
use std::fmt;
use std::ptr::{NonNull, null_mut};

/// A call's reply, or why there is none.
pub type Answer<T> = Result<T, Refusal>;

/// The kinds of calls.
mod kind {
    pub(super) const ADD_NOTARIZATION: u32 = 0;
    pub(super) const ADD_NULLIFICATION: u32 = 1;
    pub(super) const ADD_FINALIZATION: u32 = 2;
    pub(super) const SET_PROPOSAL: u32 = 3;
    pub(super) const TRY_PROPOSE: u32 = 4;
    pub(super) const PROPOSED: u32 = 5;
    pub(super) const SUPERSEDE_PROPOSAL_REQUEST: u32 = 6;
    pub(super) const PENDING_HANDOFF_ABANDONMENT: u32 = 7;
    pub(super) const RELEASE_PROPOSAL_REQUEST: u32 = 8;
    pub(super) const TRY_VERIFY: u32 = 9;
    pub(super) const VERIFIED: u32 = 10;
    pub(super) const VERIFICATION_FAILED: u32 = 11;
    pub(super) const CERTIFY_CANDIDATES: u32 = 12;
    pub(super) const SET_CERTIFY_HANDLE: u32 = 13;
    pub(super) const CERTIFIED: u32 = 14;
    pub(super) const CONSTRUCT_NOTARIZE: u32 = 15;
    pub(super) const CONSTRUCT_NULLIFY: u32 = 16;
    pub(super) const CONSTRUCT_FINALIZE: u32 = 17;
    pub(super) const BROADCAST_NOTARIZATION: u32 = 18;
    pub(super) const BROADCAST_NULLIFICATION: u32 = 19;
    pub(super) const BROADCAST_FINALIZATION: u32 = 20;
    pub(super) const GET_BEST_CERTIFICATE: u32 = 21;
    pub(super) const TRIGGER_TIMEOUT: u32 = 22;
    pub(super) const NEXT_TIMEOUT: u32 = 23;
    pub(super) const PRUNE: u32 = 24;
}

/// The entries that a restart removes from the record before the new lifetime begins.
#[derive(Clone, Copy, PartialEq, Eq, Hash, Debug, Default)]
pub struct Cut {
    /// At most this number of the last entries, but never a vote or an entry before one.
    pub last: EntryCount,
    /// True if it removes all entries further below the highest finalized view than the last lifetime's retention.
    pub prune: bool,
}

/// A member's views.
#[derive(Clone, Copy, PartialEq, Eq, Hash, Debug)]
pub struct Views {
    /// The epoch.
    pub epoch: Epoch,
    /// The current view.
    pub current: View,
    /// The last finalized view; genesis until one is finalized.
    pub last_finalized: View,
    /// The lowest view that is retained.
    pub min_active: View,
}

impl Views {
    pub(crate) fn of(shown: &ffi::View) -> Views {
        Views {
            epoch: Epoch::new(shown.epoch),
            current: View::new(shown.current),
            last_finalized: View::new(shown.last_finalized),
            min_active: View::new(shown.min_active),
        }
    }
}

/// The next timeout of the current view.
#[derive(Clone, Copy, PartialEq, Eq, Hash, Debug)]
pub struct Timeout {
    /// When it comes.
    pub moment: Moment,
    /// Its reason.
    pub reason: TimeoutReason,
}

/// A member of the protocol: the state of its voter, with the record from which the member can be made again.
///
/// A call that returns a vote has recorded it. The host stores the new entries of the record ([`Member::entries_since`]) before it sends
/// the vote. A member may be passed from thread to thread; one thread at a time calls it.
///
/// ```
/// use simplex_view_state::{Config, Digest, Epoch, Member, Moment, Namespace, Participant, ProposalRequest, View};
///
/// let config = Config::new(Namespace::new([1; 32]), 4.try_into()?, Some(Participant::new(0)), Epoch::new(1), Digest::default());
/// let mut member = Member::start(&config, Moment::from_millis(0))?;
/// let request = member.try_propose()?.expect("member 0 leads the first view");
/// assert!(matches!(request, ProposalRequest::Propose(_)));
/// member.proposed(View::new(1), Digest::new([7; 32]), Moment::from_millis(5))?;
/// let vote = member.construct_notarize(View::new(1))?.expect("its own proposal");
///
/// let mut journal = member.entries_since(Default::default())?;
/// // Store journal.bytes and journal.stored, then sign vote.text and send it. When the process has ended:
/// # let _ = vote;
/// drop(member);
/// let mut member = Member::resume(&config, Moment::from_millis(9), &journal.stored, &journal.bytes)?;
/// assert_eq!(member.construct_notarize(View::new(1))?, None);
/// # Ok::<(), Box<dyn std::error::Error>>(())
/// ```
pub struct Member {
    at: NonNull<ffi::Opaque>,
}

// SAFETY: the library keeps nothing of a thread, and what lies behind a handle is proved to be `Send`.
unsafe impl Send for Member {}

impl Member {
    /// Starts a member that never voted. One that voted must [`Member::resume`], or it could vote twice in a view.
    ///
    /// # Errors
    ///
    /// [`OpenError::Settings`] where the settings are refused, [`OpenError::Recover`] where the floor is, and [`OpenError::OutOfMemory`].
    pub fn start(config: &Config, now: Moment) -> Result<Member, OpenError> {
        let Flat {
            settings,
            leaders,
            certificate,
        } = tested(config)?;
        let mut at = null_mut();
        // SAFETY: the slices are borrowed for the call, and `at` is written where the status is 0.
        let status = unsafe {
            ffi::simplex_member_start(
                &settings,
                leaders.as_ptr(),
                leaders.len(),
                certificate.as_ptr(),
                certificate.len(),
                now.as_millis(),
                &mut at,
            )
        };
        Member::begun(status, at)
    }

    /// Resumes a member from its journal: the bytes that [`Member::entries_since`] returned, in that order, and what was last stored
    /// beside them.
    ///
    /// # Errors
    ///
    /// Those of [`start`](Member::start). [`OpenError::EntriesLost`], [`OpenError::Damaged`] and [`OpenError::NoEntry`] say what is wrong
    /// with the journal, and [`OpenError::Recover`] with its record: such a member must not resume.
    pub fn resume(config: &Config, now: Moment, stored: &Stored, journal: &[u8]) -> Result<Member, OpenError> {
        let Flat {
            settings,
            leaders,
            certificate,
        } = tested(config)?;
        let mut at = null_mut();
        // SAFETY: as above.
        let status = unsafe {
            ffi::simplex_member_resume(
                &settings,
                leaders.as_ptr(),
                leaders.len(),
                certificate.as_ptr(),
                certificate.len(),
                now.as_millis(),
                &stored.flat(),
                journal.as_ptr(),
                journal.len(),
                &mut at,
            )
        };
        Member::begun(status, at)
    }

    fn begun(status: u32, at: *mut ffi::Opaque) -> Result<Member, OpenError> {
        match OpenError::of(status) {
            None => Ok(Member {
                at: NonNull::new(at).expect("a handle is written with the status 0"),
            }),
            Some(error) => Err(error),
        }
    }

    /// Ends the member's lifetime, also one that has failed, and begins another from its record, cut as asked.
    ///
    /// If settings are refused, or with `RetentionGrown`, nothing has changed. After another error the record is cut and the member has
    /// failed: store [`Member::entries_since`] of no entries in place of the journal.
    ///
    /// # Errors
    ///
    /// Those of [`start`](Member::start), and [`OpenError::Recover`] where the record is refused under these settings.
    pub fn restart(&mut self, config: &Config, now: Moment, cut: Cut) -> Result<(), OpenError> {
        let Flat {
            settings,
            leaders,
            certificate,
        } = config.flat().map_err(OpenError::Settings)?;
        let restart = ffi::Restart {
            drop: cut.last.0,
            moment: now.as_millis(),
            prune: u32::from(cut.prune),
            reserved: 0,
            settings,
        };
        // SAFETY: the handle is this member's, and the slices are borrowed for the call.
        let status = unsafe {
            ffi::simplex_member_restart(
                self.at.as_ptr(),
                &restart,
                leaders.as_ptr(),
                leaders.len(),
                certificate.as_ptr(),
                certificate.len(),
            )
        };
        OpenError::of(status).map_or(Ok(()), Err)
    }

    fn make(&mut self, call: &ffi::Call, certificate: &[u8]) -> Answer<ffi::Reply> {
        // SAFETY: the handle is this member's, and the slice is borrowed for the call.
        let reply = unsafe { ffi::simplex_member_call(self.at.as_ptr(), call, certificate.as_ptr(), certificate.len()) };
        Refusal::of(reply.status).map_or(Ok(reply), Err)
    }

    fn of_view(&mut self, kind: u32, view: View) -> Answer<ffi::Reply> {
        let view = view.get();
        self.make(
            &ffi::Call {
                kind,
                view,
                ..Default::default()
            },
            &[],
        )
    }

    fn plain(&mut self, kind: u32) -> Answer<ffi::Reply> {
        self.of_view(kind, View::GENESIS)
    }

    /// Returns all bytes that wait to be read.
    fn bytes(&self, which: u32) -> Vec<u8> {
        // SAFETY: the handle is this member's.
        ffi::all_bytes(|from| unsafe { ffi::simplex_member_bytes(self.at.as_ptr(), which, from) })
    }

    /// Returns all items of a list of the last reply.
    fn items<T>(&self, which: u32, read: impl Fn(&ffi::Item) -> T) -> Vec<T> {
        let item_at = |index| {
            // SAFETY: the handle is this member's.
            let item = unsafe { ffi::simplex_member_item(self.at.as_ptr(), which, index) };
            (item.has != 0).then(|| read(&item))
        };
        (0..).map_while(item_at).collect()
    }

    /// Passes a notarization that the host made or received, and verified.
    ///
    /// # Errors
    ///
    /// [`Refusal::NotAllowed`] where it is of another epoch, of genesis, or of a view that is not retained, and each other [`Refusal`].
    pub fn add_notarization(&mut self, it: &Notarization) -> Answer<Added> {
        let call = of_proposal(kind::ADD_NOTARIZATION, &it.proposal);
        Ok(added(&self.make(&call, &it.certificate)?))
    }

    /// Passes a nullification that the host made or received, and verified. Returns whether it is new.
    ///
    /// # Errors
    ///
    /// [`Refusal::NotAllowed`] where it is of another epoch, of genesis, or of a view that is not retained, and each other [`Refusal`].
    pub fn add_nullification(&mut self, it: &Nullification, now: Moment) -> Answer<bool> {
        let call = ffi::Call {
            kind: kind::ADD_NULLIFICATION,
            moment: now.as_millis(),
            round: it.round.flat(),
            ..Default::default()
        };
        Ok(self.make(&call, &it.certificate)?.flag != 0)
    }

    /// Passes a finalization that the host made or received, and verified.
    ///
    /// # Errors
    ///
    /// [`Refusal::NotAllowed`] where it is of another epoch, of genesis, or of a view that is not retained, and each other [`Refusal`].
    pub fn add_finalization(&mut self, it: &Finalization, now: Moment) -> Answer<Added> {
        let call = ffi::Call {
            moment: now.as_millis(),
            ..of_proposal(kind::ADD_FINALIZATION, &it.proposal)
        };
        Ok(added(&self.make(&call, &it.certificate)?))
    }

    /// Passes a proposal of its view's leader. Returns whether it must be verified.
    ///
    /// # Errors
    ///
    /// [`Refusal::NotAllowed`] where it is of another epoch or of a view that is not retained, and each other [`Refusal`].
    pub fn set_proposal(&mut self, proposal: &Proposal) -> Answer<bool> {
        let call = ffi::Call {
            view: proposal.view().get(),
            ..of_proposal(kind::SET_PROPOSAL, proposal)
        };
        Ok(self.make(&call, &[])?.flag != 0)
    }

    /// Returns the next block to build, if there is one.
    ///
    /// # Errors
    ///
    /// A [`Refusal`], which says what it leaves.
    pub fn try_propose(&mut self) -> Answer<Option<ProposalRequest>> {
        let reply = self.plain(kind::TRY_PROPOSE)?;
        let context = Context::of(&reply.context, reply.member);
        Ok(match reply.has {
            0 => None,
            1 => Some(ProposalRequest::Propose(context)),
            _ => Some(ProposalRequest::Prepare(context)),
        })
    }

    /// Passes the payload that was built on request in the view. Returns whether it is accepted.
    ///
    /// # Errors
    ///
    /// [`Refusal::NotAllowed`] where no request to build is open in the view, and each other [`Refusal`].
    pub fn proposed(&mut self, view: View, payload: Digest, now: Moment) -> Answer<bool> {
        let call = ffi::Call {
            kind: kind::PROPOSED,
            view: view.get(),
            moment: now.as_millis(),
            proposal: ffi::Proposal {
                payload: *payload.bytes(),
                ..Default::default()
            },
            ..Default::default()
        };
        Ok(self.make(&call, &[])?.flag != 0)
    }

    /// Returns whether the request to build in the view is superseded; then ask again, for another parent.
    ///
    /// # Errors
    ///
    /// [`Refusal::NotAllowed`] where no request to build is open in the view, and each other [`Refusal`].
    pub fn supersede_proposal_request(&mut self, view: View) -> Answer<bool> {
        Ok(self.of_view(kind::SUPERSEDE_PROPOSAL_REQUEST, view)?.flag != 0)
    }

    /// Returns why the handoff that is built in the view must be abandoned, if it must.
    ///
    /// # Errors
    ///
    /// [`Refusal::NotAllowed`] where no request to build is open in the view, and each other [`Refusal`].
    pub fn pending_handoff_abandonment(&mut self, view: View) -> Answer<Option<HandoffAbandonedReason>> {
        let reply = self.of_view(kind::PENDING_HANDOFF_ABANDONMENT, view)?;
        Ok((reply.has != 0).then(|| HandoffAbandonedReason::of(reply.reason)))
    }

    /// Abandons the request to build in the view. Returns whether one was open.
    ///
    /// # Errors
    ///
    /// A [`Refusal`], which says what it leaves.
    pub fn release_proposal_request(&mut self, view: View) -> Answer<bool> {
        Ok(self.of_view(kind::RELEASE_PROPOSAL_REQUEST, view)?.flag != 0)
    }

    /// Returns the next proposal to verify, or the certificate that is missing before one can be verified.
    ///
    /// # Errors
    ///
    /// A [`Refusal`], which says what it leaves.
    pub fn try_verify(&mut self) -> Answer<Verify> {
        let reply = self.plain(kind::TRY_VERIFY)?;
        Ok(match reply.has {
            0 => Verify::Wait,
            1 => Verify::Ready(Context::of(&reply.context, reply.member), Proposal::of(&reply.proposal)),
            _ => Verify::Resolve {
                proposal: View::new(reply.waiting),
                view: View::new(reply.lacking),
                kind: MissingCertificate::of(reply.reason),
                target: Participant::new(reply.member),
            },
        })
    }

    /// Reports the view's proposal as valid. Returns whether it is marked so: not if it or its parent changed since it was returned.
    ///
    /// # Errors
    ///
    /// [`Refusal::NotAllowed`] where no verification is open in the view, and each other [`Refusal`].
    pub fn verified(&mut self, view: View) -> Answer<bool> {
        Ok(self.of_view(kind::VERIFIED, view)?.flag != 0)
    }

    /// Reports the view's proposal as invalid, or as one that could not be verified.
    ///
    /// # Errors
    ///
    /// [`Refusal::NotAllowed`] where no verification is open in the view, and each other [`Refusal`].
    pub fn verification_failed(&mut self, view: View, reason: TimeoutReason, now: Moment) -> Answer<()> {
        self.make(&timed(kind::VERIFICATION_FAILED, view, reason, now), &[])?;
        Ok(())
    }

    /// Returns the proposals to certify, and the notarizations to fetch for other members.
    ///
    /// # Errors
    ///
    /// A [`Refusal`], which says what it leaves.
    pub fn certify_candidates(&mut self) -> Answer<Candidates> {
        self.plain(kind::CERTIFY_CANDIDATES)?;
        Ok(Candidates {
            proposals: self.items(ffi::PROPOSALS, |item| Proposal::of(&item.proposal)),
            fetches: self.items(ffi::FETCHES, |item| CertificateFetch {
                proposal: View::new(item.fetch.proposal),
                view: View::new(item.fetch.view),
            }),
        })
    }

    /// Notes the host's token for the certification of the view's proposal.
    ///
    /// # Errors
    ///
    /// [`Refusal::NotAllowed`] where the view's proposal was not offered, or has its verdict, and each other [`Refusal`].
    pub fn set_certify_handle(&mut self, view: View, token: Token) -> Answer<()> {
        let call = ffi::Call {
            kind: kind::SET_CERTIFY_HANDLE,
            view: view.get(),
            token: token.get(),
            ..Default::default()
        };
        self.make(&call, &[])?;
        Ok(())
    }

    /// Passes the application's verdict on the view's proposal. Returns the notarization that was judged, if the view is tracked.
    ///
    /// # Errors
    ///
    /// A [`Refusal`], which says what it leaves.
    pub fn certified(&mut self, view: View, is_success: bool, now: Moment) -> Answer<Option<Notarization>> {
        let call = ffi::Call {
            kind: kind::CERTIFIED,
            success: u32::from(is_success),
            view: view.get(),
            moment: now.as_millis(),
            ..Default::default()
        };
        let reply = self.make(&call, &[])?;
        Ok((reply.has != 0).then(|| Notarization {
            proposal: Proposal::of(&reply.proposal),
            certificate: self.bytes(ffi::OF_REPLY),
        }))
    }

    /// Returns this member's vote to notarize the view's proposal, if its rule allows the vote.
    ///
    /// # Errors
    ///
    /// A [`Refusal`], which says what it leaves.
    pub fn construct_notarize(&mut self, view: View) -> Answer<Option<Notarize>> {
        let reply = self.of_view(kind::CONSTRUCT_NOTARIZE, view)?;
        Ok((reply.has != 0).then(|| Notarize {
            proposal: Proposal::of(&reply.proposal),
            signer: Participant::new(reply.member),
            text: self.bytes(ffi::OF_REPLY),
        }))
    }

    /// Returns this member's vote to nullify the view, if its rule allows the vote. The reason has no effect.
    ///
    /// # Errors
    ///
    /// A [`Refusal`], which says what it leaves.
    pub fn construct_nullify(&mut self, view: View, reason: TimeoutReason) -> Answer<Option<Nullify>> {
        let reply = self.make(&timed(kind::CONSTRUCT_NULLIFY, view, reason, Moment::default()), &[])?;
        Ok((reply.has != 0).then(|| Nullify {
            round: Round::of(&reply.proposal.round),
            signer: Participant::new(reply.member),
            text: self.bytes(ffi::OF_REPLY),
            is_repeat: reply.flag != 0,
        }))
    }

    /// Returns this member's vote to finalize the view's proposal, if its rule allows the vote.
    ///
    /// # Errors
    ///
    /// A [`Refusal`], which says what it leaves.
    pub fn construct_finalize(&mut self, view: View) -> Answer<Option<Finalize>> {
        let reply = self.of_view(kind::CONSTRUCT_FINALIZE, view)?;
        Ok((reply.has != 0).then(|| Finalize {
            proposal: Proposal::of(&reply.proposal),
            signer: Participant::new(reply.member),
            text: self.bytes(ffi::OF_REPLY),
        }))
    }

    /// Returns the view's notarization for broadcast, once.
    ///
    /// # Errors
    ///
    /// A [`Refusal`], which says what it leaves.
    pub fn broadcast_notarization(&mut self, view: View) -> Answer<Option<Certificate>> {
        let reply = self.of_view(kind::BROADCAST_NOTARIZATION, view)?;
        Ok(self.certificate_in(reply.has, &reply.proposal, ffi::OF_REPLY))
    }

    /// Returns the view's nullification for broadcast, once.
    ///
    /// # Errors
    ///
    /// A [`Refusal`], which says what it leaves.
    pub fn broadcast_nullification(&mut self, view: View) -> Answer<Option<Certificate>> {
        let reply = self.of_view(kind::BROADCAST_NULLIFICATION, view)?;
        Ok(self.certificate_in(reply.has, &reply.proposal, ffi::OF_REPLY))
    }

    /// Returns the view's finalization for broadcast, once.
    ///
    /// # Errors
    ///
    /// A [`Refusal`], which says what it leaves.
    pub fn broadcast_finalization(&mut self, view: View) -> Answer<Option<Certificate>> {
        let reply = self.of_view(kind::BROADCAST_FINALIZATION, view)?;
        Ok(self.certificate_in(reply.has, &reply.proposal, ffi::OF_REPLY))
    }

    /// Returns the certificate that lets other members enter the current view.
    ///
    /// # Errors
    ///
    /// A [`Refusal`], which says what it leaves.
    pub fn get_best_certificate(&mut self) -> Answer<Option<Certificate>> {
        let reply = self.plain(kind::GET_BEST_CERTIFICATE)?;
        Ok(self.certificate_in(reply.has, &reply.proposal, ffi::OF_REPLY))
    }

    /// Times the view out for a reason that the member does not see by itself. Returns whether that timeout counts from now on.
    ///
    /// # Errors
    ///
    /// A [`Refusal`], which says what it leaves.
    pub fn trigger_timeout(&mut self, view: View, reason: TimeoutReason, now: Moment) -> Answer<bool> {
        Ok(self.make(&timed(kind::TRIGGER_TIMEOUT, view, reason, now), &[])?.flag != 0)
    }

    /// Returns the next timeout of the current view. Once it has come, call [`Member::construct_nullify`] with the view and the reason.
    ///
    /// # Errors
    ///
    /// A [`Refusal`], which says what it leaves.
    pub fn next_timeout(&mut self, now: Moment) -> Answer<Timeout> {
        let call = ffi::Call {
            kind: kind::NEXT_TIMEOUT,
            moment: now.as_millis(),
            ..Default::default()
        };
        let reply = self.make(&call, &[])?;
        Ok(Timeout {
            moment: Moment::from_millis(reply.moment),
            reason: TimeoutReason::of(reply.reason),
        })
    }

    /// Drops the views that are no longer retained, and returns them, lowest first. The record stays: [`Member::prune_record`].
    ///
    /// # Errors
    ///
    /// A [`Refusal`], which says what it leaves.
    pub fn prune(&mut self) -> Answer<Vec<View>> {
        self.plain(kind::PRUNE)?;
        Ok(self.items(ffi::DROPPED, |item| View::new(item.view)))
    }

    /// Returns the record's entries after its first ones, to be stored before a vote is sent. A member that has failed returns them too.
    ///
    /// # Errors
    ///
    /// [`EntriesError`]: the record is unchanged.
    pub fn entries_since(&mut self, count: EntryCount) -> Result<Entries, EntriesError> {
        // SAFETY: the handle is this member's.
        let shown = unsafe { ffi::simplex_member_entries(self.at.as_ptr(), count.0) };
        self.entries_of(&shown)
    }

    /// Removes from the record what is far below the last finalized view, as a restart that prunes does, except for views that are
    /// still tracked: call [`Member::prune`] first. Returns the whole remaining record, to be stored in place of the journal with its
    /// `stored`, in one step. From then on [`Member::entries_since`] counts from the shorter record. The lifetime continues. It also
    /// works for a member that has failed.
    ///
    /// # Errors
    ///
    /// [`EntriesError`]: the record is pruned but not returned. Ask for [`Member::entries_since`] of [`EntryCount::ZERO`].
    ///
    /// ```
    /// use simplex_view_state::{Config, Digest, EntryCount, Epoch, Finalization, Member, Moment, Namespace, Participant, Proposal, Round, View};
    ///
    /// let config = Config::new(Namespace::new([1; 32]), 4.try_into()?, Some(Participant::new(0)), Epoch::new(1), Digest::default());
    /// let mut member = Member::start(&config, Moment::from_millis(0))?;
    /// for view in 1..50 {
    ///     let round = Round { epoch: Epoch::new(1), view: View::new(view) };
    ///     let proposal = Proposal { round, parent: View::new(view - 1), payload: Digest::default() };
    ///     member.add_finalization(&Finalization { proposal, certificate: vec![7] }, Moment::from_millis(view))?;
    /// }
    /// let whole = member.entries_since(EntryCount::ZERO)?;
    /// member.prune()?;
    /// let left = member.prune_record()?;
    /// assert!(left.stored.entries < whole.stored.entries && left.bytes.len() < whole.bytes.len());
    /// // Write left.bytes and left.stored to a new file, sync it, and rename it over the journal.
    /// let resumed = Member::resume(&config, Moment::from_millis(60), &left.stored, &left.bytes)?;
    /// assert_eq!(resumed.views(), member.views());
    /// # Ok::<(), Box<dyn std::error::Error>>(())
    /// ```
    pub fn prune_record(&mut self) -> Result<Entries, EntriesError> {
        // SAFETY: the handle is this member's.
        let shown = unsafe { ffi::simplex_member_prune_record(self.at.as_ptr()) };
        self.entries_of(&shown)
    }

    /// Returns the entries that were shown.
    fn entries_of(&self, shown: &ffi::Entries) -> Result<Entries, EntriesError> {
        match shown.status {
            0 => Ok(Entries {
                bytes: self.bytes(ffi::SHOWN),
                stored: Stored::of(&shown.stored),
            }),
            1 => Err(EntriesError::OutOfMemory),
            _ => Err(EntriesError::EntryTooLong),
        }
    }

    /// Returns what is stored beside the journal, with the number of entries of the record. It also works for a member that has failed.
    pub fn stored(&self) -> Stored {
        // SAFETY: the handle is this member's. No record has so many entries, so none is shown.
        let shown = unsafe { ffi::simplex_member_entries(self.at.as_ptr(), u64::MAX) };
        Stored::of(&shown.stored)
    }

    /// Returns what the member knows, and what it knows of a view; `None` if it has failed.
    fn view(&self, view: View) -> Option<ffi::View> {
        // SAFETY: the handle is this member's.
        let shown = unsafe { ffi::simplex_member_view(self.at.as_ptr(), view.get()) };
        (shown.status == 0).then_some(shown)
    }

    /// Returns whether the member has failed: out of memory, or a restart was refused. Its record is still there.
    pub fn is_failed(&self) -> bool {
        self.view(View::GENESIS).is_none()
    }

    /// Returns the current view, the last finalized one and the lowest retained one; `None` if the member has failed.
    pub fn views(&self) -> Option<Views> {
        Some(Views::of(&self.view(View::GENESIS)?))
    }

    /// Returns the leader of a tracked view, once it is known.
    pub fn leader(&self, view: View) -> Option<Participant> {
        let leader = self.view(view)?.leader;
        (leader != ffi::NOBODY).then(|| Participant::new(leader))
    }

    /// Returns whether the view is tracked.
    pub fn is_tracked(&self, view: View) -> bool {
        self.view(view).is_some_and(|shown| shown.is_tracked != 0)
    }

    /// Returns whether a vote of the view may count: a batcher stores only such votes.
    pub fn admits_vote(&self, view: View) -> bool {
        self.view(view).is_some_and(|shown| shown.admits_vote != 0)
    }

    /// Returns whether a certificate of the view may be passed.
    pub fn admits_certificate(&self, view: View) -> bool {
        self.view(view).is_some_and(|shown| shown.admits_certificate != 0)
    }

    /// Returns whether this member voted to nullify the view.
    pub fn voted_nullify(&self, view: View) -> bool {
        self.view(view).is_some_and(|shown| shown.voted_nullify != 0)
    }

    /// Returns why this member withholds its vote of a kind on a view; `None` exactly where [`Member::construct_notarize`],
    /// [`Member::construct_nullify`] or [`Member::construct_finalize`] returns one. It changes nothing.
    ///
    /// # Errors
    ///
    /// [`Refusal::Failed`].
    pub fn withheld(&self, kind: VoteKind, view: View) -> Answer<Option<Withheld>> {
        // SAFETY: the handle is this member's.
        let shown = unsafe { ffi::simplex_member_withheld(self.at.as_ptr(), kind.number(), view.get()) };
        match Refusal::of(shown.status) {
            None => Ok(Withheld::of(shown.reason)),
            Some(refusal) => Err(refusal),
        }
    }

    /// Returns the proposal of the view that may be forwarded to peers, if there is one.
    pub fn forwardable_proposal(&self, view: View) -> Option<Proposal> {
        let shown = self.view(view)?;
        (shown.has_forwardable != 0).then(|| Proposal::of(&shown.forwardable))
    }

    /// Returns a view's certificate of a kind, if the view is tracked and has it.
    ///
    /// # Errors
    ///
    /// [`Refusal::OutOfMemory`] and [`Refusal::Failed`].
    pub fn certificate(&self, kind: CertificateKind, view: View) -> Answer<Option<Certificate>> {
        // SAFETY: the handle is this member's.
        let found = unsafe { ffi::simplex_member_certificate(self.at.as_ptr(), kind.number(), view.get()) };
        match Refusal::of(found.status) {
            None => Ok(self.certificate_in(found.has, &found.proposal, ffi::SHOWN)),
            Some(refusal) => Err(refusal),
        }
    }

    fn certificate_in(&self, has: u32, proposal: &ffi::Proposal, which: u32) -> Option<Certificate> {
        (has != 0).then(|| Certificate::of(Subject::of(has, proposal), self.bytes(which)))
    }
}

impl Drop for Member {
    fn drop(&mut self) {
        // SAFETY: the handle is this member's, which is gone then.
        unsafe { ffi::simplex_member_free(self.at.as_ptr()) }
    }
}

impl fmt::Debug for Member {
    fn fmt(&self, f: &mut fmt::Formatter<'_>) -> fmt::Result {
        f.debug_struct("Member")
            .field("views", &self.views())
            .field("stored", &self.stored())
            .finish()
    }
}

/// Returns the settings as the library takes them, if it is the library that this package was written for.
pub(crate) fn tested(config: &Config) -> Result<Flat, OpenError> {
    if ffi::simplex_version() != ffi::VERSION {
        return Err(OpenError::OtherVersion);
    }
    config.flat().map_err(OpenError::Settings)
}

fn of_proposal(kind: u32, proposal: &Proposal) -> ffi::Call {
    ffi::Call {
        kind,
        proposal: proposal.flat(),
        ..Default::default()
    }
}

fn timed(kind: u32, view: View, reason: TimeoutReason, now: Moment) -> ffi::Call {
    ffi::Call {
        kind,
        reason: reason.number(),
        view: view.get(),
        moment: now.as_millis(),
        ..Default::default()
    }
}

fn added(reply: &ffi::Reply) -> Added {
    Added {
        is_new: reply.flag != 0,
        equivocator: (reply.member != ffi::NOBODY).then(|| Participant::new(reply.member)),
    }
}
