//! A node of a Simplex network as a library: bring an [`Application`], and [`run`] it.
//!
//! The members of a network agree on a chain of blocks. What blocks hold, which are good, and what follows from them is the application's;
//! the node does all else: it votes by the proved core, stores before it sends, keeps TLS links to the other members, catches up, and serves
//! peers that lag.
//!
//! ```no_run
//! use simplex_node::{Ancestors, Application, Cancelled, Outcome, Settings, run};
//! use simplex_view_state::{Context, Digest, View};
//! use simplex_wire::Block;
//!
//! /// Orders greetings, and counts them. It stores nothing: at each start it gets all final blocks again.
//! struct Greetings {
//!     last: (View, Digest),
//!     count: u64,
//! }
//!
//! impl Application for Greetings {
//!     fn build(&mut self, _: &Context, _: &Ancestors, _: &Cancelled) -> Option<Vec<u8>> { Some(b"hello".to_vec()) }
//!     fn verify(&mut self, block: &Block, _: &Ancestors, _: &Cancelled) -> Option<bool> { Some(block.content() == b"hello") }
//!     fn certify(&mut self, block: &Block, _: &Ancestors, _: &Cancelled) -> Option<bool> { Some(block.content() == b"hello") }
//!     fn finalized(&mut self, block: &Block) -> std::io::Result<()> {
//!         self.last = (block.view, block.payload());
//!         self.count += 1;
//!         Ok(())
//!     }
//!     fn last(&self) -> (View, Digest) { self.last }
//!     fn height(&self) -> u64 { self.count }
//!     fn durable(&mut self) -> std::io::Result<u64> { Ok(0) }
//! }
//!
//! fn main() -> Outcome {
//!     let settings = Settings::read("node.toml".as_ref())?;              // node/node.toml explains them
//!     run(settings, |start| Ok(Greetings { last: start.block, count: 0 }))   // `init` makes the folder of a new member, once
//! }
//! ```
//!
//! `examples/thirty_lines.rs` is that program, `examples/ledger_http` takes transactions over HTTP and shows balances, `examples/numbered.rs`
//! has a state that follows from a block's [`Ancestors`], and [`ledger`] is an application with a file of its own, which the program
//! `simplex-node` runs.
//! [`network`] runs networks of processes, for tests of yours too.
//!
//! # A part a module, or a crate
//!
//! The journal is `simplex_journal`, messages and blocks are `simplex_wire`, delivery is `simplex_chain`, and who a member is
//! `simplex_identity`: take them alone where you write your own node. Here [`crypto`] signs and verifies, [`peers`] sends and receives,
//! [`blocks`] and [`archive`] keep blocks, [`state_sync`] takes the application's state of peers, [`application`] says what is asked of one, and
//! [`replica`] is the one thread that owns the engine.

#![forbid(unsafe_code)]
#![deny(missing_docs)]

pub mod application;
pub mod archive;
pub mod audit;
pub mod blocks;
pub mod chain;
pub mod clock;
pub mod crypto;
pub mod events;
pub mod evidence;
pub mod faults;
pub mod floor;
pub mod http;
pub mod inbox;
pub mod init;
pub mod leader_votes;
pub mod ledger;
pub mod metrics;
pub mod missing_blocks;
pub mod named;
pub mod network;
pub mod pace;
pub mod peers;
pub mod picture;
pub mod replica;
pub mod run_folder;
pub mod segments;
pub mod set_aside;
pub mod settings;
pub mod signer;
pub mod start;
pub mod state_sync;
pub mod trace;
pub mod version;
pub mod vote;

pub use application::{Ancestors, Application, Cancelled};
pub use crypto::Signature;
pub use init::init;
pub use settings::{Outcome, Settings};
pub use signer::Signer;
pub use start::{Start, open, open_with_signer, run, run_with_signer};
