//! Traces of a network's members, as lines of JSON: the types ([`Line`], [`Event`]), a [`Reader`], a [`TraceFile`], a [`Queue`] whose
//! writer never blocks the thread that owns the engine, and an [`Observer`] that makes events of an engine's inputs and outputs.
//!
//! `docs/TRACE.md` of the repository describes the format.

#![deny(missing_docs)]

mod event;
mod file;
mod header;
mod observer;
mod queue;
mod reader;
mod withheld;

pub use event::{CertificateKind, Event, FetchKind, Line, Proposal, SignedVote, TimeoutReason, VoteKind};
pub use file::{FileError, TraceFile};
pub use header::{Header, VERSION};
pub use observer::{Observed, Observer};
pub use queue::Queue;
pub use reader::{ReadError, Reader, Trace};
pub use withheld::Withheld;
