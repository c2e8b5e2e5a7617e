//! A proved core of the Simplex consensus protocol.
//!
//! An [`Engine`] decides what a member votes for, proposes, verifies, certifies and fetches. The host passes it what comes in
//! ([`Engine::handle`]) and carries out what it returns, in order ([`Engine::poll`]): entries to store, texts to sign, votes and certificates
//! to send, work for the application. The host keeps the network, the clock, the disk and the keys.
//!
//! A member alone, whose application finds each block good:
//!
//! ```
//! use simplex_view_state::{Config, Digest, Engine, Epoch, Input, Moment, Namespace, Options, Output, Participant, View};
//!
//! const MOST_OUTPUTS: usize = 100;                                      // of a turn
//! let network = Namespace::new([1; 32]);                                // begins each signed text: a digest of your network's name, say
//! let config = Config::new(network, 1.try_into()?, Some(Participant::new(0)), Epoch::new(1), Digest::default());
//! let mut now = Moment::from_millis(0);                                 // of a clock that does not fall
//! let mut engine = Engine::start(&config, &Options::default(), now)?;   // or Engine::resume, with what was stored
//! let (mut journal, mut finalized, mut inputs) = (Vec::new(), View::GENESIS, Vec::new());
//! while finalized < View::new(3) {
//!     for _ in 0..MOST_OUTPUTS {
//!         let Some(output) = engine.poll(now)? else { break };
//!         match output {
//!             Output::Replace(entries) => journal = entries.bytes,      // with entries.stored, in one step
//!             Output::Store(entries) => journal.extend(entries.bytes),  // and synced before the next output is carried out
//!             Output::Vote(order) => {
//!                 let signature = order.text.iter().rev().copied().collect(); // of your key
//!                 inputs.push(Input::Vote(order.signed(signature)));    // which is sent to all others too
//!             }
//!             Output::Build(context) => inputs.push(Input::Built { context, payload: Digest::new([7; 32]) }),
//!             Output::Verify(_, proposal) => inputs.push(Input::Verified { view: proposal.view(), is_valid: true }),
//!             Output::Certify(proposal) => inputs.push(Input::Certified { view: proposal.view(), is_success: true }),
//!             Output::Finalized(proposal) => finalized = proposal.view(), // deliver it after its ancestors: they are not reported
//!             _ => {}                                                   // nobody to send to, or to ask
//!         }
//!     }
//!     now = Moment::from_millis(now.as_millis() + 1);                   // clock.now()
//!     for input in inputs.drain(..) {                                   // what came in; nothing where engine.wake() has come
//!         engine.handle(input, now)?;
//!     }
//! }
//! assert_eq!(engine.views().expect("it has not failed").last_finalized, finalized);
//! # Ok::<(), Box<dyn std::error::Error>>(())
//! ```
//!
//! A [`Member`] is the core in the engine, for hosts that write their own: each of its calls returns a [`Result`] with a [`Refusal`], and a
//! vote is an order to sign a text once the new entries of the record are stored. `docs/EMBEDDING.md` of the repository has both loops.
//!
//! ```
//! use simplex_view_state::{Config, Digest, Epoch, Member, Moment, Namespace, Nullification, Participant, Round, TimeoutReason, View};
//!
//! let epoch = Epoch::new(1);
//! let config = Config::new(Namespace::new([1; 32]), 4.try_into()?, Some(Participant::new(3)), epoch, Digest::default());
//! let mut member = Member::start(&config, Moment::from_millis(0))?;
//!
//! let timeout = member.next_timeout(Moment::from_millis(0))?;
//! assert_eq!(timeout.reason, TimeoutReason::LeaderTimeout);
//! let vote = member.construct_nullify(View::new(1), timeout.reason)?.expect("it has not voted there");
//! assert_eq!(vote.round, Round { epoch, view: View::new(1) });
//!
//! // A certificate of three members' votes comes, and the host has verified it.
//! let nullification = Nullification { round: vote.round, certificate: vec![1, 2, 3] };
//! assert!(member.add_nullification(&nullification, timeout.moment)?);
//! assert_eq!(member.views().expect("it has not failed").current, View::new(2));
//! # Ok::<(), Box<dyn std::error::Error>>(())
//! ```

#![deny(missing_docs)]
#![warn(clippy::missing_errors_doc)]

mod build_info;
mod engine;
mod errors;
mod ffi;
mod journal;
mod member;
mod messages;
mod numbers;
mod reasons;
mod resolver;
mod settings;
mod withheld;

pub use build_info::build_info;
pub use engine::{Engine, Fetch, FetchKind, Input, OpenFetch, Options, Order, Output, Snapshot};
pub use errors::{EngineError, EntriesError, OpenError, RecoverError, Refusal, SettingsError};
pub use journal::{Ending, Entries, EntryCount, Scan, Stored, scan};
pub use member::{Answer, Cut, Member, Timeout, Views};
pub use messages::{
    Added, Candidates, Certificate, CertificateFetch, CertificateKind, Context, Finalization, Finalize, MissingCertificate, Notarization,
    Notarize, Nullification, Nullify, Proposal, ProposalRequest, Subject, Verify, Vote,
};
pub use numbers::{Digest, Epoch, Moment, Namespace, ParseDigestError, Participant, Round, Token, View, ViewDelta};
pub use reasons::{HandoffAbandonedReason, TimeoutReason};
pub use resolver::{Effect, FetchReason, Resolver};
pub use settings::{Config, Floor, Leaders, Skip, Terms};
pub use withheld::{VoteKind, Withheld};
