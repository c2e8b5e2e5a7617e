//! The host of an engine.

use crate::keys::NAMESPACE;
use crate::message::{Message, Sent};
use crate::plan::Times;
use simplex_trace::Event;
use simplex_view_state::{Config, Digest, Epoch, Moment, Participant, Proposal, Skip, Terms, View, ViewDelta};
use std::num::NonZeroU32;

/// Why a host failed. The simulation counts it as a violation.
pub type HostError = Box<dyn std::error::Error>;

/// The epoch of all simulations.
pub(crate) const EPOCH: Epoch = Epoch::new(1);

/// A member's host: what is around its engine. The simulation calls it with the moments of simulated time, in milliseconds, which never
/// fall.
pub trait Host {
    /// Begins a process lifetime, from what is on the disk.
    fn begin(&mut self, now: Moment, effects: &mut Effects) -> Result<(), HostError>;

    /// Ends the process at once: all that is not on the disk is lost.
    fn crash(&mut self);

    /// Takes a message. [`Host::run`] is called after it.
    fn receive(&mut self, from: Participant, message: Message, now: Moment, effects: &mut Effects) -> Result<(), HostError>;

    /// Does all that is to be done now.
    fn run(&mut self, now: Moment, effects: &mut Effects) -> Result<(), HostError>;

    /// Returns the moment at which [`Host::run`] is to be called where no message comes before.
    fn wake(&self) -> Moment;
}

/// A member's place in a network.
#[derive(Clone, Debug)]
pub struct Seat {
    /// Which member it is.
    pub me: Participant,
    /// How many members there are.
    pub members: NonZeroU32,
    /// How many views a term has.
    pub term_length: NonZeroU32,
    /// How many views ahead of the current one may be voted for.
    pub optimistic_views: u64,
    /// How many views below the last finalized one are retained.
    pub view_retention: u64,
    /// Timeouts.
    pub times: Times,
}

impl Seat {
    /// The settings of its engine.
    pub fn config(&self) -> Config {
        let stall = (self.optimistic_views > 0).then_some(self.times.certification);
        let mut config = Config::new(NAMESPACE, self.members, Some(self.me), EPOCH, Digest::default());
        config.terms = Terms {
            length: self.term_length,
            optimistic_views: ViewDelta::new(self.optimistic_views),
            stall_timeout: stall,
        };
        config.leader_timeout = self.times.leader;
        config.certification_timeout = self.times.certification;
        config.timeout_retry = self.times.retry;
        config.view_retention = ViewDelta::new(self.view_retention);
        config.skip = Some(Skip {
            timeout: self.times.inactivity,
            budget: None,
        });
        config
    }

    /// The leader of a view.
    pub fn leader(&self, view: View) -> Participant {
        let term = view.get().saturating_sub(1) / u64::from(self.term_length.get());
        Participant::new((term % u64::from(self.members.get())) as u32)
    }
}

/// The effects of a host on the world around it.
#[derive(Debug)]
pub struct Effects {
    me: Participant,
    members: NonZeroU32,
    pub(crate) sent: Vec<Sent>,
    pub(crate) finalized: Vec<Proposal>,
    pub(crate) events: Vec<(u64, Event)>,
}

impl Effects {
    pub(crate) fn new(me: Participant, members: NonZeroU32) -> Effects {
        Effects {
            me,
            members,
            sent: Vec::new(),
            finalized: Vec::new(),
            events: Vec::new(),
        }
    }

    /// Sends a message to a member.
    pub fn send(&mut self, to: Participant, message: Message) {
        let from = self.me;
        self.sent.push(Sent { from, to, message });
    }

    /// Sends a message to all other members.
    pub fn send_to_others(&mut self, message: &Message) {
        let me = self.me;
        for to in (0..self.members.get()).map(Participant::new).filter(|it| *it != me) {
            self.send(to, message.clone());
        }
    }

    /// Reports that a proposal is final, and all its ancestors: the simulation compares it with the other members'.
    pub fn finalized(&mut self, proposal: Proposal) {
        self.finalized.push(proposal);
    }

    /// Writes an event of a view into the trace; view 0 for an event of none.
    pub fn trace(&mut self, view: u64, event: Event) {
        self.events.push((view, event));
    }
}
