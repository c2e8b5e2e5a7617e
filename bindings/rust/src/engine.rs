//! An engine.

mod input;
mod output;
mod snapshot;
#[cfg(test)]
mod tests;

pub use input::Input;
pub use output::{Fetch, FetchKind, OpenFetch, Order, Output};
pub use snapshot::Snapshot;

use crate::errors::{EngineError, OpenError};
use crate::ffi;
use crate::journal::{EntryCount, Stored};
use crate::member::{Views, tested};
use crate::messages::{Certificate, CertificateKind, Proposal, Subject};
use crate::numbers::{Moment, Participant, View};
use crate::settings::{Config, Flat, millis};
use crate::withheld::{VoteKind, Withheld};
use std::fmt;
use std::ptr::{NonNull, null_mut};
use std::time::Duration;

/// Intervals, and the length of a record. They need not be those of the other members. [`Options::default`] has usual values; set the fields
/// that differ.
#[derive(Clone, Copy, PartialEq, Eq, Hash, Debug)]
#[non_exhaustive]
pub struct Options {
    /// After how long a fetch asks again, the next member. It is at least a millisecond, or the options are refused
    /// ([`SettingsError::FetchRetryZero`](crate::SettingsError::FetchRetryZero)).
    pub retry: Duration,
    /// How long a missing certificate may be on its way before the engine asks for it.
    pub on_its_way: Duration,
    /// The engine compacts a record that has more entries than this, once that drops more views than it leaves.
    pub long_record: EntryCount,
}

impl Default for Options {
    /// 250 ms, 25 ms and 2048 entries.
    fn default() -> Options {
        Options {
            retry: Duration::from_millis(250),
            on_its_way: Duration::from_millis(25),
            long_record: EntryCount::new(2048),
        }
    }
}

impl Options {
    fn flat(&self) -> Result<ffi::Options, OpenError> {
        Ok(ffi::Options {
            retry: millis(self.retry).map_err(OpenError::Settings)?,
            on_its_way: millis(self.on_its_way).map_err(OpenError::Settings)?,
            long_record: self.long_record.get(),
        })
    }
}

/// An engine: a member with its resolver, a batcher of votes and the outstanding fetches. The host passes it what comes in
/// ([`Engine::handle`]), and carries out what it returns, in order, until it returns `None` ([`Engine::poll`]).
///
/// A vote comes after the entries that store it, so a host that carries the outputs out in order stores before it sends. After an error the
/// engine has failed, but for the two errors that [`EngineError`] names. An engine may move between threads; one calls it at a time.
///
/// A turn of a host carries out a bounded number of outputs, and then reads the clock and other inputs: a member alone, whose application
/// replies at once, always has another output. The [front page](crate) of this crate has the loop.
pub struct Engine {
    at: NonNull<ffi::OpaqueEngine>,
}

// SAFETY: the library keeps nothing of a thread, and what lies behind a handle is proved to be `Send`.
unsafe impl Send for Engine {}

impl Engine {
    /// Begins the engine of a member that never voted. A member that voted must [`resume`](Engine::resume), or it could vote twice in a view.
    ///
    /// # Errors
    ///
    /// [`OpenError::Settings`] where the settings or the options are refused, [`OpenError::Recover`] where the floor is, and
    /// [`OpenError::OutOfMemory`].
    pub fn start(config: &Config, options: &Options, now: Moment) -> Result<Engine, OpenError> {
        let Flat {
            settings,
            leaders,
            certificate,
        } = tested(config)?;
        let mut at = null_mut();
        // SAFETY: the slices are borrowed for the call, and `at` is written where the status is 0.
        let status = unsafe {
            ffi::simplex_engine_start(
                &settings,
                leaders.as_ptr(),
                leaders.len(),
                certificate.as_ptr(),
                certificate.len(),
                &options.flat()?,
                now.as_millis(),
                &mut at,
            )
        };
        Engine::begun(status, at)
    }

    /// Resumes the engine of a member from its journal: the bytes that were stored, one after another, and what was stored beside them last.
    /// The journal of a [`Member`](crate::Member) is one too.
    ///
    /// # Errors
    ///
    /// Those of [`start`](Engine::start). [`OpenError::EntriesLost`], [`OpenError::Damaged`] and [`OpenError::NoEntry`] say what is wrong
    /// with the journal, and [`OpenError::Recover`] with its record: such a member must not resume.
    pub fn resume(config: &Config, options: &Options, now: Moment, stored: &Stored, journal: &[u8]) -> Result<Engine, OpenError> {
        let Flat {
            settings,
            leaders,
            certificate,
        } = tested(config)?;
        let mut at = null_mut();
        // SAFETY: as above.
        let status = unsafe {
            ffi::simplex_engine_resume(
                &settings,
                leaders.as_ptr(),
                leaders.len(),
                certificate.as_ptr(),
                certificate.len(),
                &options.flat()?,
                now.as_millis(),
                &stored.flat(),
                journal.as_ptr(),
                journal.len(),
                &mut at,
            )
        };
        Engine::begun(status, at)
    }

    fn begun(status: u32, at: *mut ffi::OpaqueEngine) -> Result<Engine, OpenError> {
        match OpenError::of(status) {
            None => Ok(Engine {
                at: NonNull::new(at).expect("a handle is written with the status 0"),
            }),
            Some(error) => Err(error),
        }
    }

    /// Passes an input. Returns whether it changed anything; [`Engine::ignored`] counts the inputs that did not.
    ///
    /// # Errors
    ///
    /// [`EngineError`] says which of them leave the engine usable.
    pub fn handle(&mut self, input: Input, now: Moment) -> Result<bool, EngineError> {
        let bytes = input.bytes();
        // SAFETY: the handle is this engine's, and the slice is borrowed for the call.
        let taken = unsafe { ffi::simplex_engine_handle(self.at.as_ptr(), &input.flat(), bytes.as_ptr(), bytes.len(), now.as_millis()) };
        answered(taken.status, taken.is_of_use != 0)
    }

    /// Returns the next output to carry out; `None` if there is none before another input, or before [`Engine::wake`].
    ///
    /// # Errors
    ///
    /// As of [`handle`](Engine::handle).
    #[must_use = "carry out each output, in order"]
    pub fn poll(&mut self, now: Moment) -> Result<Option<Output>, EngineError> {
        // SAFETY: the handle is this engine's.
        let output = unsafe { ffi::simplex_engine_poll(self.at.as_ptr(), now.as_millis()) };
        answered(output.status, ())?;
        Ok(Output::of(&output, |which| self.bytes(which)))
    }

    /// Returns all bytes that wait to be read.
    fn bytes(&self, which: u32) -> Vec<u8> {
        // SAFETY: the handle is this engine's.
        ffi::all_bytes(|from| unsafe { ffi::simplex_engine_bytes(self.at.as_ptr(), which, from) })
    }

    fn status(&self) -> ffi::Status {
        // SAFETY: the handle is this engine's.
        unsafe { ffi::simplex_engine_status(self.at.as_ptr()) }
    }

    /// Returns whether the engine has failed. Then resume another from what was stored.
    pub fn is_failed(&self) -> bool {
        self.status().status != 0
    }

    /// Returns the moment at which to call [`Engine::poll`] if no input comes before.
    pub fn wake(&self) -> Moment {
        Moment::from_millis(self.status().wake)
    }

    /// Returns how many inputs were ignored.
    pub fn ignored(&self) -> u64 {
        self.status().ignored
    }

    /// Returns the outstanding fetches.
    pub fn fetches(&self) -> Vec<OpenFetch> {
        let open_at = |index| {
            // SAFETY: the handle is this engine's.
            OpenFetch::of(&unsafe { ffi::simplex_engine_open(self.at.as_ptr(), index) })
        };
        (0..).map_while(open_at).collect()
    }

    /// Returns what the member knows, and what it knows of a view; `None` once it has failed.
    fn view(&self, view: View) -> Option<ffi::View> {
        // SAFETY: the handle is this engine's.
        let shown = unsafe { ffi::simplex_engine_view(self.at.as_ptr(), view.get()) };
        (shown.status == 0).then_some(shown)
    }

    /// Returns the current view, the last finalized one and the like; `None` once the engine has failed.
    pub fn views(&self) -> Option<Views> {
        Some(Views::of(&self.view(View::GENESIS)?))
    }

    /// Returns the leader of a tracked view, once it is known.
    pub fn leader(&self, view: View) -> Option<Participant> {
        let leader = self.view(view)?.leader;
        (leader != ffi::NOBODY).then(|| Participant::new(leader))
    }

    /// Returns whether the view is tracked.
    pub fn is_tracked(&self, view: View) -> bool {
        self.view(view).is_some_and(|shown| shown.is_tracked != 0)
    }

    /// Returns whether the engine takes votes of the view. The host need not verify others.
    pub fn admits_vote(&self, view: View) -> bool {
        self.view(view).is_some_and(|shown| shown.admits_vote != 0)
    }

    /// Returns whether the engine takes certificates of the view. The host need not verify others.
    pub fn admits_certificate(&self, view: View) -> bool {
        self.view(view).is_some_and(|shown| shown.admits_certificate != 0)
    }

    /// Returns whether this member voted to nullify the view.
    pub fn voted_nullify(&self, view: View) -> bool {
        self.view(view).is_some_and(|shown| shown.voted_nullify != 0)
    }

    /// Returns why this member withholds its vote of a kind on a view; `None` where it does not: then the engine returns the vote with one of
    /// its next outputs, or to nullify once the view times out. It changes nothing.
    ///
    /// # Errors
    ///
    /// [`EngineError::Failed`].
    ///
    /// ```
    /// use simplex_view_state::{Config, Digest, Engine, Epoch, Moment, Namespace, Options, Participant, View, VoteKind, Withheld};
    ///
    /// let config = Config::new(Namespace::new([1; 32]), 4.try_into()?, Some(Participant::new(3)), Epoch::new(1), Digest::default());
    /// let engine = Engine::start(&config, &Options::default(), Moment::from_millis(0))?;
    /// assert_eq!(engine.withheld(VoteKind::Notarize, View::new(1))?, Some(Withheld::NoProposal));
    /// assert_eq!(engine.withheld(VoteKind::Nullify, View::new(1))?, None);
    /// # Ok::<(), Box<dyn std::error::Error>>(())
    /// ```
    pub fn withheld(&self, kind: VoteKind, view: View) -> Result<Option<Withheld>, EngineError> {
        // SAFETY: the handle is this engine's.
        let shown = unsafe { ffi::simplex_engine_withheld(self.at.as_ptr(), kind.number(), view.get()) };
        answered(shown.status, Withheld::of(shown.reason))
    }

    /// Returns the view's proposal that may be forwarded to peers, if there is one.
    pub fn forwardable_proposal(&self, view: View) -> Option<Proposal> {
        let shown = self.view(view)?;
        (shown.has_forwardable != 0).then(|| Proposal::of(&shown.forwardable))
    }

    /// Returns a view's certificate of a kind, if the view is tracked and has it. An error changes nothing.
    ///
    /// # Errors
    ///
    /// [`EngineError::OutOfMemory`] and [`EngineError::Failed`].
    pub fn certificate(&self, kind: CertificateKind, view: View) -> Result<Option<Certificate>, EngineError> {
        // SAFETY: the handle is this engine's.
        let found = unsafe { ffi::simplex_engine_certificate(self.at.as_ptr(), kind.number(), view.get()) };
        answered(found.status, ())?;
        Ok((found.has != 0).then(|| Certificate::of(Subject::of(found.has, &found.proposal), self.bytes(ffi::SHOWN_OF_ENGINE))))
    }

    /// Returns what a peer is sent that asks by a [`Fetch`] of this kind and view: that certificate, or else what [`serve`](Engine::serve)
    /// returns. An error changes nothing.
    ///
    /// # Errors
    ///
    /// [`EngineError::OutOfMemory`] and [`EngineError::Failed`].
    ///
    /// [`Fetch`]: crate::Fetch
    pub fn certificate_for(&self, kind: FetchKind, view: View) -> Result<Option<Certificate>, EngineError> {
        let asked: &[CertificateKind] = match kind {
            FetchKind::Notarization => &[CertificateKind::Notarization],
            FetchKind::Nullification => &[],
            FetchKind::Decision => &[CertificateKind::Finalization, CertificateKind::Nullification],
        };
        for kind in asked {
            if let Some(it) = self.certificate(*kind, view)? {
                return Ok(Some(it));
            }
        }
        self.serve(view)
    }

    /// Returns the proposal of the last finalized view; `None` at genesis. After a resume it is the one to deliver: the report of it may have
    /// been lost with the process before. An error changes nothing.
    ///
    /// # Errors
    ///
    /// [`EngineError::OutOfMemory`] and [`EngineError::Failed`].
    pub fn last_finalization(&self) -> Result<Option<Proposal>, EngineError> {
        let last = self.views().ok_or(EngineError::Failed)?.last_finalized;
        Ok(match self.certificate(CertificateKind::Finalization, last)? {
            Some(Certificate::Finalization(it)) => Some(it.proposal),
            _ => None,
        })
    }

    /// Returns the certificate to serve to a peer that asks for the view: one that leads past it, if there is one. An error changes nothing.
    ///
    /// # Errors
    ///
    /// [`EngineError::OutOfMemory`] and [`EngineError::Failed`].
    pub fn serve(&self, view: View) -> Result<Option<Certificate>, EngineError> {
        // SAFETY: the handle is this engine's.
        let served = unsafe { ffi::simplex_engine_serve(self.at.as_ptr(), view.get()) };
        answered(served.status, ())?;
        if served.has == 0 {
            return Ok(None);
        }
        let bytes = self.bytes(ffi::SHOWN_OF_ENGINE);
        let (subject, certificate) = Subject::decode(&bytes).expect("the text of the certificate's votes is in front");
        Ok(Some(Certificate::of(subject, certificate.to_vec())))
    }
}

/// Returns a reply, or the error of its status.
fn answered<T>(status: u32, answer: T) -> Result<T, EngineError> {
    EngineError::of(status).map_or(Ok(answer), Err)
}

impl Drop for Engine {
    fn drop(&mut self) {
        // SAFETY: the handle is this engine's, which is gone then.
        unsafe { ffi::simplex_engine_free(self.at.as_ptr()) }
    }
}

impl fmt::Debug for Engine {
    fn fmt(&self, f: &mut fmt::Formatter<'_>) -> fmt::Result {
        let status = self.status();
        f.debug_struct("Engine")
            .field("views", &self.views())
            .field("wake", &Moment::from_millis(status.wake))
            .field("fetches", &status.fetches)
            .field("ignored", &status.ignored)
            .field("is_failed", &(status.status != 0))
            .finish()
    }
}
