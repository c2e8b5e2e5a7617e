//! The plan of a simulation.

use crate::fault::Byzantine;
use crate::host::{EPOCH, Seat};
use simplex_trace::{Header, VERSION};
use simplex_view_state::Participant;
use std::fmt;
use std::num::NonZeroU32;
use std::ops::RangeInclusive;
use std::time::Duration;

/// Timeouts of all members.
#[derive(Clone, Copy, PartialEq, Eq, Debug)]
pub struct Times {
    /// How long a view waits for its proposal.
    pub leader: Duration,
    /// How long a view waits until it is certified.
    pub certification: Duration,
    /// After how long a vote to nullify is sent again.
    pub retry: Duration,
    /// After how long without a message a leader is skipped.
    pub inactivity: Duration,
}

impl Default for Times {
    /// 1 s, 2 s, 500 ms and 3 s.
    fn default() -> Times {
        Times {
            leader: Duration::from_secs(1),
            certification: Duration::from_secs(2),
            retry: Duration::from_millis(500),
            inactivity: Duration::from_secs(3),
        }
    }
}

/// A time in which links are cut, in milliseconds.
#[derive(Clone, PartialEq, Eq, Debug)]
pub struct Partition {
    /// From when on.
    pub from: u64,
    /// Until when.
    pub to: u64,
    /// The members on one side; drawn from the seed by default.
    pub side: Option<Vec<u32>>,
}

/// A member's process that ends and comes back, in milliseconds.
#[derive(Clone, Copy, PartialEq, Eq, Debug)]
pub struct Crash {
    /// Whose.
    pub member: u32,
    /// When it ends.
    pub from: u64,
    /// When it comes back.
    pub to: u64,
}

impl Crash {
    /// How long a member is away where nothing is said.
    pub const DOWN: u64 = 2000;
}

/// The plan of a simulation. All times are simulated.
#[derive(Clone, PartialEq, Eq, Debug)]
pub struct Plan {
    /// How many members there are.
    pub members: NonZeroU32,
    /// How many of the last members are faulty.
    pub faulty: u32,
    /// Their fault.
    pub byzantine: Byzantine,
    /// How long a message is on its way, in milliseconds.
    pub latency: RangeInclusive<u64>,
    /// How many messages of a hundred are lost.
    pub loss: u64,
    /// When links are cut.
    pub partitions: Vec<Partition>,
    /// Which processes end, and when.
    pub crashes: Vec<Crash>,
    /// How many views a term has.
    pub term_length: NonZeroU32,
    /// How many views ahead of the current one may be voted for.
    pub optimistic_views: u64,
    /// How many views below the last finalized one are retained.
    pub view_retention: u64,
    /// Timeouts.
    pub times: Times,
    /// The view that all honest members finalize before the simulation ends.
    pub views: u64,
    /// The seed of all randomness.
    pub seed: u64,
}

impl Default for Plan {
    /// Four honest members, 50 to 200 ms between them, nothing lost, terms of one view, 100 views.
    fn default() -> Plan {
        Plan {
            members: NonZeroU32::MIN.saturating_add(3),
            faulty: 0,
            byzantine: Byzantine::Equivocate,
            latency: 50..=200,
            loss: 0,
            partitions: Vec::new(),
            crashes: Vec::new(),
            term_length: NonZeroU32::MIN,
            optimistic_views: 0,
            view_retention: 64,
            times: Times::default(),
            views: 100,
            seed: 1,
        }
    }
}

impl Plan {
    /// How many members may be faulty at most: (n - 1) / 3, rounded down.
    pub fn most_faulty(&self) -> u32 {
        (self.members.get() - 1) / 3
    }

    /// Returns whether a member is faulty.
    pub fn is_faulty(&self, member: Participant) -> bool {
        member.get() >= self.members.get().saturating_sub(self.faulty)
    }

    /// A member's place.
    pub fn seat(&self, me: Participant) -> Seat {
        Seat {
            me,
            members: self.members,
            term_length: self.term_length,
            optimistic_views: self.optimistic_views,
            view_retention: self.view_retention,
            times: self.times,
        }
    }

    /// The first line of its trace.
    pub fn header(&self) -> Header {
        let members = (0..self.members.get()).map(Participant::new);
        Header {
            simplex_trace: VERSION,
            source: format!("simplex-sim {}", env!("CARGO_PKG_VERSION")),
            members: self.members.get(),
            faulty: members.filter(|it| self.is_faulty(*it)).map(Participant::get).collect(),
            term_length: self.term_length.get(),
            optimistic_views: self.optimistic_views,
            epoch: EPOCH.get(),
        }
    }

    /// Says what contradicts itself in it, and what to do.
    pub fn test(&self) -> Result<(), String> {
        let members = self.members.get();
        if members > 1000 {
            return Err(format!("--members {members}: a simulation has at most 1000 members"));
        }
        if self.faulty > members {
            return Err(format!("--faulty {}: there are {members} members", self.faulty));
        }
        if self.loss > 99 {
            return Err(format!("--loss {}: of a hundred messages at most 99 are lost", self.loss));
        }
        let sides = self.partitions.iter().filter_map(|it| it.side.as_ref()).flatten();
        let mut named = sides.copied().chain(self.crashes.iter().map(|it| it.member));
        match named.find(|it| *it >= members) {
            Some(member) => Err(format!(
                "there is no member {member}: members are numbered from 0 to {}",
                members - 1
            )),
            None => Ok(()),
        }
    }
}

impl fmt::Display for Plan {
    /// The words with which the command plays it.
    fn fmt(&self, f: &mut fmt::Formatter<'_>) -> fmt::Result {
        write!(f, "--members {}", self.members)?;
        if self.faulty > 0 {
            write!(f, " --faulty {} --byzantine {}", self.faulty, self.byzantine)?;
        }
        write!(f, " --latency {}..{}", self.latency.start(), self.latency.end())?;
        if self.loss > 0 {
            write!(f, " --loss {}", self.loss)?;
        }
        self.partitions.iter().try_for_each(|it| write!(f, " --partition {it}"))?;
        self.crashes.iter().try_for_each(|it| write!(f, " --crash {it}"))?;
        write!(f, " --term {} --optimistic {}", self.term_length, self.optimistic_views)?;
        write!(f, " --views {} --seed {}", self.views, self.seed)
    }
}
