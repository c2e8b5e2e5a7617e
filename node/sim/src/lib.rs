//! A deterministic simulator of networks of Simplex engines.
//!
//! A [`Simulation`] runs the [`Host`]s of a [`Plan`] over a network that delays, loses and cuts messages, crashes members, and has faulty
//! ones send what a [`Fault`] says. Time is simulated, and all chance follows from the plan's seed: the same plan gives the same trace, byte for
//! byte. Whatever honest members vote and finalize is checked ([`Violation`]); [`search`] looks for a seed that breaks a promise, and shrinks
//! the plan; [`rounds`] measures after how many rounds of messages a network with a hostile past finalizes.
//!
//! Plug in your own [`Application`] with [`EngineHost`], or your own [`Host`]; `examples/forgetful.rs` has one with a fault that is found:
//!
//! ```
//! use simplex_sim::{EngineHost, Log, Plan, Simulation};
//!
//! let plan = Plan { views: 20, ..Plan::default() };
//! let outcome = Simulation::new(&plan, |seat| Box::new(EngineHost::new(seat, Log::default()))).run(&mut |_| {});
//! assert!(outcome.violations.is_empty() && outcome.finalized >= 20);
//! ```

#![deny(missing_docs)]

mod application;
mod block;
mod checks;
mod engine_host;
mod fault;
mod host;
mod keys;
mod message;
mod network;
mod plan;
mod random;
pub mod rounds;
pub mod search;
pub mod words;

pub use application::{Application, Log};
pub use block::Block;
pub use checks::Violation;
pub use engine_host::{Disk, EngineHost};
pub use fault::{Byzantine, Fault, Insider};
pub use host::{Effects, Host, HostError, Seat};
pub use keys::{is_good, is_signed};
pub use message::{Message, Sent};
pub use network::{Ended, Outcome, Simulation};
pub use plan::{Crash, Partition, Plan, Times};
pub use random::Random;
