//! Proposals, votes and certificates.

use crate::ffi;
use crate::numbers::{Digest, Epoch, Namespace, Participant, Round, View};

/// A block that a leader proposes: its round, its parent's view, and its payload's digest.
#[derive(Clone, Copy, PartialEq, Eq, Hash, Debug, Default)]
pub struct Proposal {
    /// Its round.
    pub round: Round,
    /// Its parent's view, below its own.
    pub parent: View,
    /// The digest of its payload.
    pub payload: Digest,
}

impl Proposal {
    /// Returns its view.
    pub const fn view(&self) -> View {
        self.round.view
    }

    pub(crate) fn flat(&self) -> ffi::Proposal {
        ffi::Proposal {
            round: self.round.flat(),
            parent: self.parent.get(),
            payload: *self.payload.bytes(),
        }
    }

    pub(crate) fn of(flat: &ffi::Proposal) -> Proposal {
        Proposal {
            round: Round::of(&flat.round),
            parent: View::new(flat.parent),
            payload: Digest::new(flat.payload),
        }
    }
}

impl Round {
    pub(crate) fn flat(&self) -> ffi::Round {
        ffi::Round {
            epoch: self.epoch.get(),
            view: self.view.get(),
        }
    }

    pub(crate) fn of(flat: &ffi::Round) -> Round {
        Round {
            epoch: Epoch::new(flat.epoch),
            view: View::new(flat.view),
        }
    }
}

/// The subject of a vote.
#[derive(Clone, Copy, PartialEq, Eq, Hash, Debug)]
pub enum Subject {
    /// The proposal may be built on.
    Notarize(Proposal),
    /// The round is abandoned.
    Nullify(Round),
    /// The proposal is final.
    Finalize(Proposal),
}

impl Subject {
    /// Returns its round.
    pub const fn round(&self) -> Round {
        match self {
            Subject::Notarize(proposal) | Subject::Finalize(proposal) => proposal.round,
            Subject::Nullify(round) => *round,
        }
    }

    /// Returns the text that a vote on it signs in a network: the namespace, and then [`Subject::encode`]. Verify other members' votes on this
    /// text. A member's own votes come with their text: [`Notarize::text`].
    ///
    /// ```
    /// use simplex_view_state::{Namespace, Proposal, Subject};
    ///
    /// let text = Subject::Notarize(Proposal::default()).text(&Namespace::new([7; 32]));
    /// assert_eq!((text.len(), &text[..33]), (89, &[[7; 32].as_slice(), &[0]].concat()[..]));
    /// ```
    pub fn text(&self, namespace: &Namespace) -> Vec<u8> {
        let (kind, proposal) = self.flat();
        let text = ffi::simplex_subject(namespace.bytes(), kind, &proposal);
        assert_eq!(text.status, 0, "there is memory for a text of 89 bytes");
        text.bytes[..text.count as usize].to_vec()
    }

    /// Returns its bytes, which name no network: with them the encoding of a certificate begins.
    ///
    /// ```
    /// use simplex_view_state::{Proposal, Subject};
    ///
    /// let bytes = Subject::Notarize(Proposal::default()).encode();
    /// assert_eq!((bytes.len(), bytes[0]), (57, 0));
    /// ```
    pub fn encode(&self) -> Vec<u8> {
        let none = Namespace::new([0; 32]);
        self.text(&none).split_off(none.bytes().len())
    }

    /// Reads the bytes of a subject at the front of others. Returns the subject and the bytes after it; `None` if no subject is there.
    ///
    /// ```
    /// use simplex_view_state::{Round, Subject};
    ///
    /// let subject = Subject::Nullify(Round::default());
    /// let sent = [subject.encode(), vec![7; 64]].concat();
    /// assert_eq!(Subject::decode(&sent), Some((subject, &[7; 64][..])));
    /// assert_eq!(Subject::decode(&sent[..9]), None);
    /// ```
    pub fn decode(bytes: &[u8]) -> Option<(Subject, &[u8])> {
        let (&kind, rest) = bytes.split_first()?;
        let (epoch, rest) = number_in_front(rest)?;
        let (view, rest) = number_in_front(rest)?;
        let round = Round {
            epoch: Epoch::new(epoch),
            view: View::new(view),
        };
        if kind == 1 {
            return Some((Subject::Nullify(round), rest));
        }
        let (parent, rest) = number_in_front(rest)?;
        let (payload, rest) = rest.split_first_chunk::<32>()?;
        let proposal = Proposal {
            round,
            parent: View::new(parent),
            payload: Digest::new(*payload),
        };
        match kind {
            0 => Some((Subject::Notarize(proposal), rest)),
            2 => Some((Subject::Finalize(proposal), rest)),
            _ => None,
        }
    }

    /// Returns the number of its kind, which votes and certificates share, and its proposal; of a round only the round.
    pub(crate) fn flat(&self) -> (u32, ffi::Proposal) {
        match self {
            Subject::Notarize(proposal) => (ffi::NOTARIZATION, proposal.flat()),
            Subject::Finalize(proposal) => (ffi::FINALIZATION, proposal.flat()),
            Subject::Nullify(round) => {
                let round = round.flat();
                (
                    ffi::NULLIFICATION,
                    ffi::Proposal {
                        round,
                        ..Default::default()
                    },
                )
            }
        }
    }

    /// Returns the subject of numbers of the library, which uses no other kind.
    pub(crate) fn of(kind: u32, proposal: &ffi::Proposal) -> Subject {
        match kind {
            ffi::NOTARIZATION => Subject::Notarize(Proposal::of(proposal)),
            ffi::NULLIFICATION => Subject::Nullify(Round::of(&proposal.round)),
            _ => Subject::Finalize(Proposal::of(proposal)),
        }
    }
}

fn number_in_front(bytes: &[u8]) -> Option<(u64, &[u8])> {
    let (number, rest) = bytes.split_first_chunk::<8>()?;
    Some((u64::from_be_bytes(*number), rest))
}

/// A member's vote, signed.
#[derive(Clone, PartialEq, Eq, Hash, Debug)]
pub struct Vote {
    /// Its subject.
    pub subject: Subject,
    /// The member that signed it.
    pub signer: Participant,
    /// The signature on the subject's text: bytes that the library stores and never reads.
    pub signature: Vec<u8>,
}

impl Vote {
    /// Returns what a vote to notarize proposes. If its signer leads the view, pass it as an [`Input::Proposal`](crate::Input::Proposal)
    /// too.
    pub const fn proposal(&self) -> Option<Proposal> {
        match self.subject {
            Subject::Notarize(proposal) => Some(proposal),
            _ => None,
        }
    }
}

/// A certificate by which a proposal may be built on.
#[derive(Clone, PartialEq, Eq, Hash, Debug)]
pub struct Notarization {
    /// The proposal.
    pub proposal: Proposal,
    /// The host's certificate, which the host made and verified: bytes that the library stores and never reads, except for their first four
    /// if certificates name leaders ([`Leaders::Drawn`](crate::Leaders::Drawn)).
    pub certificate: Vec<u8>,
}

/// A certificate that a round is abandoned.
#[derive(Clone, PartialEq, Eq, Hash, Debug)]
pub struct Nullification {
    /// The round.
    pub round: Round,
    /// The host's certificate.
    pub certificate: Vec<u8>,
}

/// A certificate that a proposal is final.
#[derive(Clone, PartialEq, Eq, Hash, Debug)]
pub struct Finalization {
    /// The proposal.
    pub proposal: Proposal,
    /// The host's certificate.
    pub certificate: Vec<u8>,
}

/// One of the three certificates.
#[derive(Clone, PartialEq, Eq, Hash, Debug)]
pub enum Certificate {
    /// A proposal may be built on.
    Notarization(Notarization),
    /// A round is abandoned.
    Nullification(Nullification),
    /// A proposal is final.
    Finalization(Finalization),
}

impl Certificate {
    /// Makes the certificate of votes on a subject, with these bytes.
    pub fn of(subject: Subject, certificate: Vec<u8>) -> Certificate {
        match subject {
            Subject::Notarize(proposal) => Certificate::Notarization(Notarization { proposal, certificate }),
            Subject::Nullify(round) => Certificate::Nullification(Nullification { round, certificate }),
            Subject::Finalize(proposal) => Certificate::Finalization(Finalization { proposal, certificate }),
        }
    }

    /// Returns its bytes.
    pub fn bytes(&self) -> &[u8] {
        match self {
            Certificate::Notarization(it) => &it.certificate,
            Certificate::Nullification(it) => &it.certificate,
            Certificate::Finalization(it) => &it.certificate,
        }
    }

    /// Returns which of the three it is.
    pub const fn kind(&self) -> CertificateKind {
        match self {
            Certificate::Notarization(_) => CertificateKind::Notarization,
            Certificate::Nullification(_) => CertificateKind::Nullification,
            Certificate::Finalization(_) => CertificateKind::Finalization,
        }
    }

    /// Returns the signatures in it, if its bytes are as an [`Engine`](crate::Engine) makes them: for each signer, lowest index first,
    /// the index in four bytes and the signature's length in eight, big-endian, and the signature. `None` for other bytes.
    ///
    /// It is good if n - f members signed and each signature is on the text of its [`subject`](Certificate::subject).
    ///
    /// ```
    /// use simplex_view_state::{Certificate, Participant, Round, Subject};
    ///
    /// let bytes = [&[0, 0, 0, 2], &[0; 7][..], &[1, 99]].concat();
    /// let certificate = Certificate::of(Subject::Nullify(Round::default()), bytes);
    /// assert_eq!(certificate.signatures(), Some(vec![(Participant::new(2), &[99][..])]));
    /// ```
    pub fn signatures(&self) -> Option<Vec<(Participant, &[u8])>> {
        let mut signatures: Vec<(Participant, &[u8])> = Vec::new();
        let mut rest = self.bytes();
        while !rest.is_empty() {
            let (index, behind) = rest.split_first_chunk::<4>()?;
            let (length, behind) = number_in_front(behind)?;
            let (signature, behind) = behind.split_at_checked(usize::try_from(length).ok()?)?;
            let signer = Participant::new(u32::from_be_bytes(*index));
            if signatures.last().is_some_and(|(before, _)| *before >= signer) {
                return None;
            }
            signatures.push((signer, signature));
            rest = behind;
        }
        Some(signatures)
    }

    /// Returns its round.
    pub const fn round(&self) -> Round {
        match self {
            Certificate::Notarization(it) => it.proposal.round,
            Certificate::Nullification(it) => it.round,
            Certificate::Finalization(it) => it.proposal.round,
        }
    }

    /// Returns what its votes are about.
    pub const fn subject(&self) -> Subject {
        match self {
            Certificate::Notarization(it) => Subject::Notarize(it.proposal),
            Certificate::Nullification(it) => Subject::Nullify(it.round),
            Certificate::Finalization(it) => Subject::Finalize(it.proposal),
        }
    }
}

/// Which of the three certificates it is.
#[derive(Clone, Copy, PartialEq, Eq, Hash, Debug)]
pub enum CertificateKind {
    /// A notarization.
    Notarization,
    /// A nullification.
    Nullification,
    /// A finalization.
    Finalization,
}

impl CertificateKind {
    /// Returns its number.
    pub(crate) fn number(self) -> u32 {
        match self {
            CertificateKind::Notarization => ffi::NOTARIZATION,
            CertificateKind::Nullification => ffi::NULLIFICATION,
            CertificateKind::Finalization => ffi::FINALIZATION,
        }
    }
}

/// An order to vote to notarize: first store the record, then sign the text with the signer's key, then send the vote.
#[derive(Clone, PartialEq, Eq, Hash, Debug)]
#[must_use = "a vote that is dropped is not ordered again"]
pub struct Notarize {
    /// The proposal.
    pub proposal: Proposal,
    /// Who signs.
    pub signer: Participant,
    /// The text to sign: `Subject::Notarize(proposal).text(&namespace)`, with the namespace of the settings.
    pub text: Vec<u8>,
}

/// An order to vote to nullify a round: first store the record, then sign the text with the signer's key, then send the vote.
#[derive(Clone, PartialEq, Eq, Hash, Debug)]
#[must_use = "a vote that is dropped is not ordered again until it is asked for as a repeat"]
pub struct Nullify {
    /// The round to abandon.
    pub round: Round,
    /// Who signs.
    pub signer: Participant,
    /// The text to sign: `Subject::Nullify(round).text(&namespace)`, with the namespace of the settings.
    pub text: Vec<u8>,
    /// True if the vote was ordered before, so that it is in the record already.
    pub is_repeat: bool,
}

/// An order to vote to finalize: first store the record, then sign the text with the signer's key, then send the vote.
#[derive(Clone, PartialEq, Eq, Hash, Debug)]
#[must_use = "a vote that is dropped is not ordered again"]
pub struct Finalize {
    /// The proposal.
    pub proposal: Proposal,
    /// Who signs.
    pub signer: Participant,
    /// The text to sign: `Subject::Finalize(proposal).text(&namespace)`, with the namespace of the settings.
    pub text: Vec<u8>,
}

/// The context in which a proposal is built or verified.
#[derive(Clone, Copy, PartialEq, Eq, Hash, Debug)]
pub struct Context {
    /// Its round.
    pub round: Round,
    /// Its leader.
    pub leader: Participant,
    /// The view of its parent.
    pub parent: View,
    /// The parent's payload.
    pub parent_payload: Digest,
}

impl Context {
    pub(crate) fn flat(&self) -> ffi::Context {
        ffi::Context {
            round: self.round.flat(),
            parent: self.parent.get(),
            payload: *self.parent_payload.bytes(),
        }
    }

    pub(crate) fn of(flat: &ffi::Context, leader: u32) -> Context {
        Context {
            round: Round::of(&flat.round),
            leader: Participant::new(leader),
            parent: View::new(flat.parent),
            parent_payload: Digest::new(flat.payload),
        }
    }
}

/// A block to build.
#[derive(Clone, Copy, PartialEq, Eq, Hash, Debug)]
pub enum ProposalRequest {
    /// A proposal on a certified parent.
    Propose(Context),
    /// A handoff: a proposal on a parent that is not certified yet. It may have to be abandoned
    /// ([`Member::pending_handoff_abandonment`](crate::Member::pending_handoff_abandonment)).
    Prepare(Context),
}

impl ProposalRequest {
    /// The context to build in.
    pub const fn context(&self) -> &Context {
        match self {
            ProposalRequest::Propose(context) | ProposalRequest::Prepare(context) => context,
        }
    }
}

/// Which certificate of its ancestry a proposal misses.
#[derive(Clone, Copy, PartialEq, Eq, Hash, Debug)]
pub enum MissingCertificate {
    /// A nullification of a view between its parent and itself.
    Nullification,
    /// A notarization of its parent.
    Notarization,
}

impl MissingCertificate {
    /// Returns the kind of a number of the library, which uses no other number.
    pub(crate) fn of(kind: u32) -> MissingCertificate {
        match kind {
            ffi::NULLIFICATION => MissingCertificate::Nullification,
            _ => MissingCertificate::Notarization,
        }
    }
}

/// The next proposal to verify.
#[derive(Clone, Copy, PartialEq, Eq, Hash, Debug)]
pub enum Verify {
    /// The application must verify the proposal.
    Ready(Context, Proposal),
    /// A certificate is missing before the proposal can be verified: ask its `target`, then other members. It may be on its way.
    Resolve {
        /// The view of the proposal that waits.
        proposal: View,
        /// The view of the missing certificate.
        view: View,
        /// Which one is missing.
        kind: MissingCertificate,
        /// The leader of the proposal's view.
        target: Participant,
    },
    /// There is nothing to verify.
    Wait,
}

/// The result of a certificate that was passed.
#[derive(Clone, Copy, PartialEq, Eq, Hash, Debug)]
pub struct Added {
    /// True if the certificate is new.
    pub is_new: bool,
    /// The view's leader, if the certificates show that it proposed twice.
    pub equivocator: Option<Participant>,
}

/// The proposals to certify.
#[derive(Clone, PartialEq, Eq, Hash, Debug, Default)]
pub struct Candidates {
    /// The proposals whose certification is to begin.
    pub proposals: Vec<Proposal>,
    /// The notarizations to fetch for other members.
    pub fetches: Vec<CertificateFetch>,
}

/// A notarization to fetch.
#[derive(Clone, Copy, PartialEq, Eq, Hash, Debug)]
pub struct CertificateFetch {
    /// The view of the proposal that waits for it.
    pub proposal: View,
    /// Its own view.
    pub view: View,
}
