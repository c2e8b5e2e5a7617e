//! The outputs of an engine, which the host carries out.

use crate::ffi;
use crate::journal::{Entries, Stored};
use crate::messages::{Certificate, Context, Proposal, Subject, Vote};
use crate::numbers::{Moment, Participant, View};

/// One output. Carry outputs out in the order in which [`Engine::poll`](crate::Engine::poll) returns them.
#[derive(Clone, PartialEq, Eq, Debug)]
pub enum Output {
    /// Append these bytes to the journal, store [`Entries::stored`] beside it, and sync, before you carry out the next output.
    Store(Entries),
    /// Store these bytes in place of all that is stored, in one step, and sync, before you carry out the next output. The first output of
    /// every lifetime is a `Replace`.
    Replace(Entries),
    /// Sign this vote of the member, send it to all, and pass it back as an [`Input::Vote`](crate::Input::Vote).
    Vote(Order),
    /// Send this certificate to all other members.
    Broadcast(Certificate),
    /// Let the application verify this proposal in its context, then pass [`Input::Verified`](crate::Input::Verified).
    Verify(Context, Proposal),
    /// Let the application build a block in this context, then pass [`Input::Built`](crate::Input::Built).
    Build(Context),
    /// Stop building in this view: the block is not needed any more.
    StopBuilding(View),
    /// Let the application give its verdict on this notarized proposal, then pass [`Input::Certified`](crate::Input::Certified).
    Certify(Proposal),
    /// Ask a peer for a certificate.
    Fetch(Fetch),
    /// A proposal whose finalization this lifetime accepted, of a view above all that it reported. Its ancestors are final too and are not
    /// reported, and a lifetime that ends may lose its last report.
    ///
    /// So deliver a block after its ancestors, back to the last one that was delivered. After [`Engine::resume`](crate::Engine::resume)
    /// begin with the last finalization of the record: the [`certificate`](crate::Engine::certificate) of `views().last_finalized`.
    /// `bindings/rust/examples/engine/network.rs` does both (`deliver`, `begin`).
    Finalized(Proposal),
    /// Two votes of one member that contradict each other. The engine returns one pair of a member, kind and view, until it forgets the
    /// view.
    Equivocated(Vote, Vote),
    /// The leader of the view signed two proposals, which certificates show.
    ProposedTwice(View, Participant),
    /// Drop what the host stores of the views below this one.
    Forget(View),
}

/// An order to vote: the text to sign with the signer's key.
#[derive(Clone, PartialEq, Eq, Hash, Debug)]
#[must_use = "a vote that is dropped is not returned again, but for one to nullify"]
pub struct Order {
    /// The subject of the vote.
    pub subject: Subject,
    /// Who signs.
    pub signer: Participant,
    /// The text to sign: `subject.text(&namespace)`, with the namespace of the settings.
    pub text: Vec<u8>,
}

impl Order {
    /// Returns the vote, with this signature of the text.
    pub fn signed(&self, signature: Vec<u8>) -> Vote {
        Vote {
            subject: self.subject,
            signer: self.signer,
            signature,
        }
    }
}

/// A certificate to ask a peer for. The peer returns what its [`Engine::certificate`](crate::Engine::certificate) or
/// [`Engine::serve`](crate::Engine::serve) has.
#[derive(Clone, Copy, PartialEq, Eq, Hash, Debug)]
pub struct Fetch {
    /// Which certificate.
    pub kind: FetchKind,
    /// The view.
    pub view: View,
    /// The member to ask; `None` where there is no other member.
    pub of: Option<Participant>,
}

/// Which certificate is fetched.
#[derive(Clone, Copy, PartialEq, Eq, Hash, Debug)]
pub enum FetchKind {
    /// The view's notarization.
    Notarization,
    /// A nullification that covers the view.
    Nullification,
    /// Any certificate that decides the view.
    Decision,
}

/// An outstanding fetch: it is asked for again and again, of the next member round-robin, until it ends.
#[derive(Clone, Copy, PartialEq, Eq, Hash, Debug)]
pub struct OpenFetch {
    /// Which certificate.
    pub kind: FetchKind,
    /// The view.
    pub view: View,
    /// How often it was asked for.
    pub count: u64,
    /// The moment at which it is asked for next.
    pub moment: Moment,
}

impl Output {
    /// Returns the library's output, whose bytes `bytes` reads; `None` if there is nothing to carry out.
    pub(crate) fn of(flat: &ffi::Output, bytes: impl Fn(u32) -> Vec<u8>) -> Option<Output> {
        let subject = || Subject::of(flat.subject.kind, &flat.subject.proposal);
        let proposal = || Proposal::of(&flat.subject.proposal);
        let context = || Context::of(&flat.context, flat.subject.member);
        let view = View::new(flat.view);
        Some(match flat.kind {
            0 => return None,
            1 => Output::Store(entries(flat, bytes)),
            2 => Output::Replace(entries(flat, bytes)),
            3 => Output::Vote(Order {
                subject: subject(),
                signer: Participant::new(flat.subject.member),
                text: bytes(ffi::OF_OUTPUT),
            }),
            4 => Output::Broadcast(Certificate::of(subject(), bytes(ffi::OF_OUTPUT))),
            5 => Output::Verify(context(), proposal()),
            6 => Output::Build(context()),
            7 => Output::StopBuilding(view),
            8 => Output::Certify(proposal()),
            9 => Output::Fetch(fetch(flat)),
            10 => Output::Finalized(proposal()),
            11 => Output::Equivocated(
                vote(&flat.subject, bytes(ffi::OF_OUTPUT)),
                vote(&flat.other, bytes(ffi::OTHER_OF_OUTPUT)),
            ),
            12 => Output::ProposedTwice(view, Participant::new(flat.member)),
            13 => Output::Forget(view),
            kind => unreachable!("an output of kind {kind}"),
        })
    }
}

fn entries(flat: &ffi::Output, bytes: impl Fn(u32) -> Vec<u8>) -> Entries {
    Entries {
        bytes: bytes(ffi::OF_OUTPUT),
        stored: Stored::of(&flat.stored),
    }
}

fn fetch(flat: &ffi::Output) -> Fetch {
    Fetch {
        kind: FetchKind::of(flat.fetch),
        view: View::new(flat.view),
        of: (flat.member != ffi::NOBODY).then(|| Participant::new(flat.member)),
    }
}

fn vote(flat: &ffi::Subject, signature: Vec<u8>) -> Vote {
    Vote {
        subject: Subject::of(flat.kind, &flat.proposal),
        signer: Participant::new(flat.member),
        signature,
    }
}

impl FetchKind {
    /// Returns the kind of a number of the library, which uses no other number.
    fn of(number: u32) -> FetchKind {
        match number {
            ffi::NOTARIZATION => FetchKind::Notarization,
            ffi::NULLIFICATION => FetchKind::Nullification,
            _ => FetchKind::Decision,
        }
    }
}

impl OpenFetch {
    /// Returns the fetch that the library shows; `None` if there is no such fetch.
    pub(crate) fn of(flat: &ffi::Open) -> Option<OpenFetch> {
        (flat.fetch != 0).then(|| OpenFetch {
            kind: FetchKind::of(flat.fetch),
            view: View::new(flat.view),
            count: flat.count,
            moment: Moment::from_millis(flat.moment),
        })
    }
}
