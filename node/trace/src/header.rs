//! The first line of a trace.

use serde::{Deserialize, Serialize};

/// The version of the format that this crate writes. It reads this one.
pub const VERSION: u32 = 1;

/// The first line of a trace, and of each process lifetime in it: what network it is of.
#[derive(Clone, PartialEq, Eq, Debug, Serialize, Deserialize)]
pub struct Header {
    /// The version of the format: [`VERSION`].
    pub simplex_trace: u32,
    /// The program that wrote it.
    pub source: String,
    /// How many members the network has.
    pub members: u32,
    /// The members that are faulty on purpose; empty where nobody knows.
    #[serde(default)]
    pub faulty: Vec<u32>,
    /// How many views in a row have the same leader. Leaders are round-robin.
    pub term_length: u32,
    /// How many views ahead of the current one may be voted for.
    #[serde(default)]
    pub optimistic_views: u64,
    /// The epoch.
    pub epoch: u64,
}

impl Header {
    /// The leader of a view from 1 on.
    pub fn leader(&self, view: u64) -> u32 {
        let term = view.saturating_sub(1) / u64::from(self.term_length.max(1));
        (term % u64::from(self.members.max(1))) as u32
    }

    /// How many votes of one kind make a certificate: n - f.
    pub fn quorum(&self) -> u32 {
        self.members - self.members.saturating_sub(1) / 3
    }

    /// Returns whether another header is of the same network: all but the source and the faulty members are equal.
    pub fn is_of_the_network_of(&self, other: &Header) -> bool {
        let network = |it: &Header| (it.members, it.term_length, it.optimistic_views, it.epoch);
        network(self) == network(other)
    }
}
