//! The settings of a member.

use crate::errors::SettingsError;
use crate::ffi;
use crate::messages::{Finalization, Proposal};
use crate::numbers::{Digest, Epoch, Namespace, Participant, Round, ViewDelta};
use std::num::{NonZeroU32, NonZeroU64};
use std::time::Duration;

/// The settings of a member. All members of an epoch have the same ones, except for the signer and the floor.
///
/// Times are read in whole milliseconds. [`Config::new`] has usual values; set the fields that differ.
#[derive(Clone, PartialEq, Eq, Debug)]
#[non_exhaustive]
pub struct Config {
    /// The namespace of the network, with which each text to sign begins.
    pub namespace: Namespace,
    /// The number of members.
    pub members: NonZeroU32,
    /// The member that signs here; `None` for a member that only follows.
    pub signer: Option<Participant>,
    /// The epoch.
    pub epoch: Epoch,
    /// The leaders.
    pub leaders: Leaders,
    /// How views are divided into terms.
    pub terms: Terms,
    /// The floor: the last final view at the start.
    pub floor: Floor,
    /// How long a view waits for its proposal.
    pub leader_timeout: Duration,
    /// How long a view waits for its certification; above the leader timeout.
    pub certification_timeout: Duration,
    /// The time after which a vote to nullify is sent again.
    pub timeout_retry: Duration,
    /// The number of views below the last finalized one that are retained.
    pub view_retention: ViewDelta,
    /// True if the views of inactive leaders are skipped.
    pub skip: Option<Skip>,
}

/// The leaders.
#[derive(Clone, PartialEq, Eq, Debug)]
pub enum Leaders {
    /// The table's members lead in its order, one term each, and then from its start again. It has as many entries as there are members,
    /// each a member's index; a member that is in it twice leads twice. Other tables are refused.
    Table(Vec<Participant>),
    /// The certificate that leads to a term names its leader: its first four bytes are the index, big-endian. An index of no member counts
    /// modulo the number of members. The table names the leader of the first term, and after a certificate of fewer bytes: it has at least
    /// one entry, each a member's index. All certificates that may lead to a view must name the same leader.
    Drawn(Vec<Participant>),
}

impl Leaders {
    /// Returns the table in which each of this number of members leads once.
    pub fn round_robin(members: NonZeroU32) -> Leaders {
        Leaders::Table((0..members.get()).map(Participant::new).collect())
    }

    fn table(&self) -> &[Participant] {
        match self {
            Leaders::Table(table) | Leaders::Drawn(table) => table,
        }
    }
}

/// How views are divided into terms, each with one leader.
#[derive(Clone, Copy, PartialEq, Eq, Debug)]
pub struct Terms {
    /// The number of views of a term.
    pub length: NonZeroU32,
    /// The number of views ahead of the current one, in its term, that may be voted for.
    pub optimistic_views: ViewDelta,
    /// The time after which a term stalls, if it does.
    pub stall_timeout: Option<Duration>,
}

impl Terms {
    /// One view a term.
    pub const ONE_VIEW: Terms = Terms {
        length: NonZeroU32::MIN,
        optimistic_views: ViewDelta::new(0),
        stall_timeout: None,
    };
}

/// The last final view when a member starts.
#[derive(Clone, PartialEq, Eq, Debug)]
pub enum Floor {
    /// Genesis, with its payload.
    Genesis(Digest),
    /// A finalized proposal, whose certificate the host verified.
    Finalized(Finalization),
}

/// Skipping the views of inactive leaders.
#[derive(Clone, Copy, PartialEq, Eq, Debug)]
pub struct Skip {
    /// The time after which a leader counts as inactive. The host finds that out, and reports it by
    /// [`Input::GivenUp`](crate::Input::GivenUp) or [`Member::trigger_timeout`](crate::Member::trigger_timeout); the library tests only
    /// that it is above the other timeouts.
    pub timeout: Duration,
    /// The number of unfinalized terms that may be skipped; `None` for the number of members.
    pub budget: Option<NonZeroU64>,
}

impl Config {
    /// Settings of this number of members of a network that lead round-robin, one view each, from genesis. The times are usual ones: 1 s for a proposal,
    /// 2 s for its certification, 500 ms for a repeat. 10 views are retained, and views of inactive leaders are skipped after 3 s.
    ///
    /// ```
    /// use simplex_view_state::{Config, Digest, Epoch, Namespace, Participant};
    ///
    /// let (network, members) = (Namespace::new([1; 32]), 4.try_into().expect("not 0"));
    /// let config = Config::new(network, members, Some(Participant::new(0)), Epoch::new(1), Digest::default());
    /// assert_eq!(config.view_retention.get(), 10);
    /// ```
    pub fn new(namespace: Namespace, members: NonZeroU32, signer: Option<Participant>, epoch: Epoch, genesis: Digest) -> Config {
        Config {
            namespace,
            members,
            signer,
            epoch,
            leaders: Leaders::round_robin(members),
            terms: Terms::ONE_VIEW,
            floor: Floor::Genesis(genesis),
            leader_timeout: Duration::from_millis(1000),
            certification_timeout: Duration::from_millis(2000),
            timeout_retry: Duration::from_millis(500),
            view_retention: ViewDelta::new(10),
            skip: Some(Skip {
                timeout: Duration::from_millis(3000),
                budget: None,
            }),
        }
    }

    /// Returns what the library takes of it.
    pub(crate) fn flat(&self) -> Result<Flat, SettingsError> {
        let (is_finalized, floor, certificate) = match &self.floor {
            Floor::Genesis(payload) => (0, genesis(*payload), Vec::new()),
            Floor::Finalized(it) => (1, it.proposal, it.certificate.clone()),
        };
        let settings = ffi::Settings {
            members: self.members.get(),
            signer: self.signer.map_or(Ok(ffi::NOBODY), index_of)?,
            term_length: self.terms.length.get(),
            draws: u32::from(matches!(self.leaders, Leaders::Drawn(_))),
            stalls: u32::from(self.terms.stall_timeout.is_some()),
            is_finalized,
            stall_timeout: self.terms.stall_timeout.map_or(Ok(0), millis)?,
            optimistic_views: self.terms.optimistic_views.get(),
            epoch: self.epoch.get(),
            view_retention: self.view_retention.get(),
            leader_timeout: millis(self.leader_timeout)?,
            certification_timeout: millis(self.certification_timeout)?,
            timeout_retry: millis(self.timeout_retry)?,
            skip_timeout: self.skip.map_or(Ok(0), |skip| skip_millis(skip.timeout))?,
            skip_budget: self.skip.and_then(|skip| skip.budget).map_or(0, NonZeroU64::get),
            floor: floor.flat(),
            namespace: *self.namespace.bytes(),
        };
        Ok(Flat {
            settings,
            leaders: self.leaders.table().iter().map(|member| member.get()).collect(),
            certificate,
        })
    }
}

/// The settings as the library takes them.
pub(crate) struct Flat {
    pub(crate) settings: ffi::Settings,
    pub(crate) leaders: Vec<u32>,
    pub(crate) certificate: Vec<u8>,
}

fn genesis(payload: Digest) -> Proposal {
    Proposal {
        round: Round::default(),
        payload,
        ..Proposal::default()
    }
}

/// Returns the index of a signer; the greatest number is no member's.
fn index_of(signer: Participant) -> Result<u32, SettingsError> {
    match signer.get() {
        ffi::NOBODY => Err(SettingsError::NoSuchMember),
        index => Ok(index),
    }
}

pub(crate) fn millis(time: Duration) -> Result<u64, SettingsError> {
    u64::try_from(time.as_millis()).map_err(|_| SettingsError::TimeTooLong)
}

/// A skip timeout of 0 is refused as the library refuses one that is not above the certification timeout.
fn skip_millis(time: Duration) -> Result<u64, SettingsError> {
    match millis(time)? {
        0 => Err(SettingsError::SkipNotAboveCertification),
        time => Ok(time),
    }
}
