//! A peer resolver.

use crate::errors::{OpenError, Refusal};
use crate::ffi;
use crate::member::Answer;
use crate::messages::{Certificate, MissingCertificate, Notarization};
use crate::numbers::View;
use std::fmt;
use std::num::NonZeroU32;
use std::ptr::{NonNull, null_mut};

/// A change to the outstanding fetches.
#[derive(Clone, Copy, PartialEq, Eq, Hash, Debug)]
pub enum Effect {
    /// Fetch a nullification that covers a view. Its fetch may be open already.
    Fetch {
        /// The view.
        view: View,
        /// The view of the certificate or verdict that causes it.
        cause: View,
        /// Its reason.
        reason: FetchReason,
    },
    /// Nothing of a kind is missing any more at the views from the first to the last.
    Settled {
        /// Which kind.
        kind: MissingCertificate,
        /// The first view.
        start: View,
        /// The last view.
        end: View,
    },
    /// Every fetch of a kind at or below the view is settled.
    Finalized(View),
    /// Each fetch at or below the view ends.
    Raised(View),
}

/// Why a nullification is fetched.
#[derive(Clone, Copy, PartialEq, Eq, Hash, Debug)]
pub enum FetchReason {
    /// A view below the current one has no nullification that covers it.
    MissingNullification,
    /// The view's notarization was not certified.
    CertificationFailed,
}

/// A peer resolver: it decides which certificates are retained and served to peers, and which are fetched. Pass it each certificate that the
/// member newly added and each verdict. Its outstanding fetches are then exactly the views whose certificate is missing.
///
/// ```
/// use simplex_view_state::{Certificate, Effect, Epoch, Nullification, Resolver, Round, View};
///
/// let mut resolver = Resolver::start(1.try_into()?, &[])?;
/// let round = Round { epoch: Epoch::new(1), view: View::new(3) };
/// let effects = resolver.updated(&Certificate::Nullification(Nullification { round, certificate: vec![7] }))?;
/// assert!(effects.iter().any(|effect| matches!(effect, Effect::Fetch { view, .. } if *view == View::new(1))));
/// assert!(resolver.is_open(View::new(1)) && !resolver.is_open(View::new(3)));
/// assert_eq!(resolver.outstanding()?, [View::new(1), View::new(2)]);
/// assert!(resolver.produce(View::new(3))?.is_some());
/// # Ok::<(), Box<dyn std::error::Error>>(())
/// ```
pub struct Resolver {
    at: NonNull<ffi::OpaqueResolver>,
}

// SAFETY: the library keeps nothing of a thread, and what lies behind a handle is proved to be `Send`.
unsafe impl Send for Resolver {}

impl Resolver {
    /// Starts a resolver from a member's whole journal, with its first fetches outstanding ([`Resolver::outstanding`]).
    ///
    /// # Errors
    ///
    /// [`OpenError::Damaged`], [`OpenError::NoEntry`] and [`OpenError::EntriesLost`] where the bytes are no journal, and [`OpenError::OutOfMemory`].
    pub fn start(term_length: NonZeroU32, journal: &[u8]) -> Result<Resolver, OpenError> {
        if ffi::simplex_version() != ffi::VERSION {
            return Err(OpenError::OtherVersion);
        }
        let mut at = null_mut();
        // SAFETY: the slice is borrowed for the call, and `at` is written where the status is 0.
        let status = unsafe { ffi::simplex_resolver_start(term_length.get(), journal.as_ptr(), journal.len(), &mut at) };
        match OpenError::of(status) {
            None => Ok(Resolver {
                at: NonNull::new(at).expect("a handle is written with the status 0"),
            }),
            Some(error) => Err(error),
        }
    }

    fn tell(&mut self, told: &ffi::Told, certificate: &[u8]) -> Answer<Vec<Effect>> {
        // SAFETY: the handle is this resolver's, and the slice is borrowed for the call.
        let effects = unsafe { ffi::simplex_resolver_told(self.at.as_ptr(), told, certificate.as_ptr(), certificate.len()) };
        match Refusal::of(effects.status) {
            None => Ok((0..effects.count).map_while(|index| self.effect(index)).collect()),
            Some(refusal) => Err(refusal),
        }
    }

    fn effect(&self, index: u64) -> Option<Effect> {
        // SAFETY: the handle is this resolver's.
        let effect = unsafe { ffi::simplex_resolver_effect(self.at.as_ptr(), index) };
        let view = View::new(effect.view);
        Some(match effect.kind {
            0 => return None,
            1 => Effect::Fetch {
                view,
                cause: View::new(effect.cause),
                reason: match effect.reason {
                    0 => FetchReason::MissingNullification,
                    _ => FetchReason::CertificationFailed,
                },
            },
            2 => Effect::Settled {
                kind: MissingCertificate::of(effect.reason),
                start: view,
                end: View::new(effect.end),
            },
            3 => Effect::Finalized(view),
            _ => Effect::Raised(view),
        })
    }

    /// Passes a certificate that the member newly added.
    ///
    /// # Errors
    ///
    /// [`Refusal::NotAllowed`] for one of genesis. After [`Refusal::OutOfMemory`] the resolver has failed: start another. After each other
    /// [`Refusal`] it received nothing.
    pub fn updated(&mut self, certificate: &Certificate) -> Answer<Vec<Effect>> {
        let (kind, proposal) = certificate.subject().flat();
        self.tell(
            &ffi::Told {
                kind,
                success: 0,
                proposal,
            },
            certificate.bytes(),
        )
    }

    /// Passes a verdict on a notarization, as [`Member::certified`](crate::Member::certified) returns it.
    ///
    /// # Errors
    ///
    /// As of [`updated`](Resolver::updated).
    pub fn certified(&mut self, notarization: &Notarization, is_success: bool) -> Answer<Vec<Effect>> {
        let told = ffi::Told {
            kind: 4,
            success: u32::from(is_success),
            proposal: notarization.proposal.flat(),
        };
        self.tell(&told, &notarization.certificate)
    }

    fn known(&self, view: View) -> ffi::Settled {
        // SAFETY: the handle is this resolver's.
        unsafe { ffi::simplex_resolver_settled(self.at.as_ptr(), view.get()) }
    }

    /// Returns whether it has failed, out of memory.
    pub fn is_failed(&self) -> bool {
        self.known(View::GENESIS).is_failed != 0
    }

    /// Returns whether the view's fetch is outstanding.
    pub fn is_open(&self, view: View) -> bool {
        self.known(view).is_open != 0
    }

    /// Returns the views whose fetch is outstanding, lowest first.
    ///
    /// # Errors
    ///
    /// [`Refusal::OutOfMemory`].
    pub fn outstanding(&mut self) -> Answer<Vec<View>> {
        // SAFETY: the handle is this resolver's.
        let shown = unsafe { ffi::simplex_resolver_outstanding(self.at.as_ptr()) };
        match Refusal::of(shown.status) {
            None => Ok(self
                .bytes()
                .chunks_exact(8)
                .map(|it| View::new(u64::from_be_bytes(it.try_into().expect("8 bytes"))))
                .collect()),
            Some(refusal) => Err(refusal),
        }
    }

    /// Returns whether no fetch is outstanding.
    pub fn is_idle(&self) -> bool {
        self.known(View::GENESIS).fetches == 0
    }

    /// Returns whether nothing of a kind is missing at the view.
    pub fn is_settled(&self, view: View, kind: MissingCertificate) -> bool {
        let known = self.known(view);
        match kind {
            MissingCertificate::Nullification => known.nullification != 0,
            MissingCertificate::Notarization => known.notarization != 0,
        }
    }

    /// Returns whether the view's certification failed.
    pub fn is_uncertifiable(&self, view: View) -> bool {
        self.known(view).uncertifiable != 0
    }

    /// Returns what a peer that asks for the view is served: the text of the certificate's votes ([`Subject::encode`](crate::Subject::encode)),
    /// then the certificate's bytes.
    ///
    /// # Errors
    ///
    /// [`Refusal::OutOfMemory`] and [`Refusal::Failed`].
    pub fn produce(&mut self, view: View) -> Answer<Option<Vec<u8>>> {
        // SAFETY: the handle is this resolver's.
        let served = unsafe { ffi::simplex_resolver_produce(self.at.as_ptr(), view.get()) };
        match Refusal::of(served.status) {
            None => Ok((served.has != 0).then(|| self.bytes())),
            Some(refusal) => Err(refusal),
        }
    }

    /// Returns all bytes that were served or shown last.
    fn bytes(&self) -> Vec<u8> {
        // SAFETY: the handle is this resolver's.
        ffi::all_bytes(|from| unsafe { ffi::simplex_resolver_bytes(self.at.as_ptr(), from) })
    }
}

impl Drop for Resolver {
    fn drop(&mut self) {
        // SAFETY: the handle is this resolver's, which is gone then.
        unsafe { ffi::simplex_resolver_free(self.at.as_ptr()) }
    }
}

impl fmt::Debug for Resolver {
    fn fmt(&self, f: &mut fmt::Formatter<'_>) -> fmt::Result {
        let known = self.known(View::GENESIS);
        f.debug_struct("Resolver")
            .field("fetches", &known.fetches)
            .field("is_failed", &(known.is_failed != 0))
            .finish()
    }
}
