//! A network in simulated time.

use crate::checks::{Checks, Violation};
use crate::fault::{Fault, Insider};
use crate::host::{Effects, Host, HostError, Seat};
use crate::message::{Message, Sent};
use crate::plan::Plan;
use crate::random::Random;
use simplex_trace::{Event, Line, Proposal as TracedProposal};
use simplex_view_state::{Moment, Participant, Subject, View};
use std::cmp::Ordering;
use std::collections::BinaryHeap;

/// For how many simulated milliseconds nothing new may be finalized before a simulation is ended: ten minutes.
const STANDSTILL: u64 = 600_000;

/// Where the lines of a trace go.
pub type Tracer<'a> = &'a mut dyn FnMut(Line);

/// Why a simulation ended.
#[derive(Clone, Copy, PartialEq, Eq, Debug)]
pub enum Ended {
    /// All honest members finalized the plan's views.
    Reached,
    /// Nothing new was finalized for ten simulated minutes.
    StoodStill,
    /// A promise was broken.
    Violated,
}

/// The outcome of a simulation.
#[derive(Clone, PartialEq, Eq, Debug)]
pub struct Outcome {
    /// Why it ended.
    pub ended: Ended,
    /// The view that all honest members finalized, and all below it.
    pub finalized: u64,
    /// How many simulated milliseconds it took.
    pub milliseconds: u64,
    /// How many messages were sent.
    pub messages: u64,
    /// How many of them were lost.
    pub lost: u64,
    /// The promises that were broken.
    pub violations: Vec<Violation>,
}

/// An occurrence at a moment.
#[derive(Debug)]
pub(crate) enum Occurrence {
    Message(Sent),
    Crash(Participant),
    Begin(Participant),
    Cut(usize),
    Heal,
}

/// An occurrence in its place: the earliest is the greatest, of one moment the one that was planned first.
#[derive(Debug)]
struct Planned {
    at: u64,
    order: u64,
    occurrence: Occurrence,
}

impl Ord for Planned {
    fn cmp(&self, other: &Planned) -> Ordering {
        (other.at, other.order).cmp(&(self.at, self.order))
    }
}

impl PartialOrd for Planned {
    fn partial_cmp(&self, other: &Planned) -> Option<Ordering> {
        Some(self.cmp(other))
    }
}

impl PartialEq for Planned {
    fn eq(&self, other: &Planned) -> bool {
        self.cmp(other) == Ordering::Equal
    }
}

impl Eq for Planned {}

/// A member with its host, and its fault where it is faulty.
pub(crate) struct Member {
    seat: Seat,
    host: Box<dyn Host>,
    fault: Option<Box<dyn Fault>>,
    pub(crate) is_up: bool,
    wake: u64,
    /// The highest view that it finalized.
    pub(crate) finalized: u64,
}

impl Member {
    pub(crate) fn is_honest(&self) -> bool {
        self.fault.is_none()
    }
}

/// A network of hosts in simulated time.
pub struct Simulation {
    pub(crate) plan: Plan,
    pub(crate) random: Random,
    pub(crate) now: u64,
    pub(crate) members: Vec<Member>,
    queue: BinaryHeap<Planned>,
    order: u64,
    /// Which side each member is on; empty where no link is cut.
    sides: Vec<bool>,
    checks: Checks,
    moved: u64,
    pub(crate) outcome: Outcome,
}

impl Simulation {
    /// A network of this plan, whose hosts are made for each seat. The faulty members have the plan's fault.
    pub fn new(plan: &Plan, host: impl Fn(&Seat) -> Box<dyn Host>) -> Simulation {
        Simulation::with_faults(plan, host, |_| plan.byzantine.fault())
    }

    /// The same, where each faulty member has a fault of your own.
    pub fn with_faults(plan: &Plan, host: impl Fn(&Seat) -> Box<dyn Host>, fault: impl Fn(&Seat) -> Box<dyn Fault>) -> Simulation {
        let member = |index| {
            let seat = plan.seat(Participant::new(index));
            Member {
                host: host(&seat),
                fault: plan.is_faulty(seat.me).then(|| fault(&seat)),
                is_up: false,
                wake: 0,
                finalized: 0,
                seat,
            }
        };
        let mut simulation = Simulation {
            random: Random::new(plan.seed),
            now: 0,
            members: (0..plan.members.get()).map(member).collect(),
            queue: BinaryHeap::new(),
            order: 0,
            sides: Vec::new(),
            checks: Checks::new(plan),
            moved: 0,
            outcome: Outcome {
                ended: Ended::StoodStill,
                finalized: 0,
                milliseconds: 0,
                messages: 0,
                lost: 0,
                violations: Vec::new(),
            },
            plan: plan.clone(),
        };
        simulation.plan_all();
        simulation
    }

    fn plan_all(&mut self) {
        for member in (0..self.plan.members.get()).map(Participant::new) {
            self.at(0, Occurrence::Begin(member));
        }
        for (index, partition) in self.plan.partitions.clone().iter().enumerate() {
            self.at(partition.from, Occurrence::Cut(index));
            self.at(partition.to, Occurrence::Heal);
        }
        for crash in self.plan.crashes.clone() {
            let member = Participant::new(crash.member);
            self.at(crash.from, Occurrence::Crash(member));
            self.at(crash.to, Occurrence::Begin(member));
        }
    }

    pub(crate) fn at(&mut self, at: u64, occurrence: Occurrence) {
        self.order += 1;
        let order = self.order;
        self.queue.push(Planned { at, order, occurrence });
    }

    /// Plays until all honest members finalized the plan's views, nothing moves, or a promise is broken. Each line of the trace is passed
    /// on.
    pub fn run(mut self, trace: Tracer) -> Outcome {
        self.outcome.ended = loop {
            if !self.outcome.violations.is_empty() {
                break Ended::Violated;
            }
            if self.lowest() >= self.plan.views {
                break Ended::Reached;
            }
            if self.now > self.moved + STANDSTILL || !self.step(trace) {
                break Ended::StoodStill;
            }
        };
        self.outcome.milliseconds = self.now;
        self.outcome.finalized = self.lowest();
        self.outcome
    }

    /// The view that all honest members finalized.
    pub(crate) fn lowest(&self) -> u64 {
        let honest = self.members.iter().filter(|it| it.is_honest());
        honest.map(|it| it.finalized).min().unwrap_or(0)
    }

    /// Plays what comes next: an occurrence, or a host that wakes. Returns whether there was any.
    pub(crate) fn step(&mut self, trace: Tracer) -> bool {
        let next = self.queue.peek().map(|it| it.at);
        let wake = self.wake();
        match (next, wake) {
            (Some(next), Some(wake)) if wake < next => self.wake_up(wake, trace),
            (Some(_), _) => self.happen(trace),
            (None, Some(wake)) => self.wake_up(wake, trace),
            (None, None) => return false,
        }
        true
    }

    /// The least moment at which a host wakes; `None` where no process is up.
    pub(crate) fn wake(&self) -> Option<u64> {
        self.members.iter().filter(|it| it.is_up).map(|it| it.wake).min()
    }

    /// Continues to a moment, and runs the hosts that wake then.
    pub(crate) fn wake_up(&mut self, wake: u64, trace: Tracer) {
        self.now = self.now.max(wake);
        for index in 0..self.members.len() {
            if self.members[index].is_up && self.members[index].wake <= self.now {
                self.call(index, trace, |host, now, effects| host.run(now, effects));
            }
        }
    }

    fn happen(&mut self, trace: Tracer) {
        let Some(planned) = self.queue.pop() else { return };
        self.now = self.now.max(planned.at);
        match planned.occurrence {
            Occurrence::Message(sent) => self.deliver(sent, trace),
            Occurrence::Crash(member) => self.crash(member, trace),
            Occurrence::Begin(member) => self.begin(member, trace),
            Occurrence::Cut(index) => self.cut(index, trace),
            Occurrence::Heal => {
                self.sides.clear();
                self.line(None, 0, Event::Partition { groups: Vec::new() }, trace);
            }
        }
    }

    /// Joins all links again.
    pub(crate) fn heal(&mut self) {
        self.sides.clear();
    }

    /// All messages that are on their way, taken out of the network.
    pub(crate) fn take_messages(&mut self) -> Vec<Sent> {
        let planned = std::mem::take(&mut self.queue).into_sorted_vec().into_iter().rev();
        planned
            .filter_map(|it| match it.occurrence {
                Occurrence::Message(sent) => Some(sent),
                _ => None,
            })
            .collect()
    }

    pub(crate) fn deliver(&mut self, sent: Sent, trace: Tracer) {
        let index = sent.to.get() as usize;
        if !self.members[index].is_up {
            return;
        }
        let of_fault = self.fault_receives(index, sent.from, &sent.message);
        self.call(index, trace, |host, now, effects| {
            host.receive(sent.from, sent.message, now, effects)?;
            host.run(now, effects)
        });
        of_fault.into_iter().for_each(|it| self.send(it));
    }

    fn fault_receives(&mut self, index: usize, from: Participant, message: &Message) -> Vec<Sent> {
        let member = &mut self.members[index];
        let Some(fault) = &mut member.fault else { return Vec::new() };
        let (seat, random) = (&member.seat, &mut self.random);
        fault.receive(from, message, &mut Insider { seat, random })
    }

    pub(crate) fn crash(&mut self, member: Participant, trace: Tracer) {
        let it = &mut self.members[member.get() as usize];
        if it.is_up {
            it.is_up = false;
            it.host.crash();
            self.line(Some(member), 0, Event::Crash, trace);
        }
    }

    pub(crate) fn begin(&mut self, member: Participant, trace: Tracer) {
        let index = member.get() as usize;
        if !self.members[index].is_up {
            self.members[index].is_up = true;
            self.call(index, trace, |host, now, effects| host.begin(now, effects));
        }
    }

    fn cut(&mut self, index: usize, trace: Tracer) {
        let members = self.plan.members.get();
        let side = match &self.plan.partitions[index].side {
            Some(side) => side.clone(),
            None => {
                let mut all: Vec<u32> = (0..members).collect();
                self.random.shuffle(&mut all);
                all.truncate(self.random.between(1, u64::from(members / 2).max(1)) as usize);
                all
            }
        };
        self.sides = (0..members).map(|it| side.contains(&it)).collect();
        let group = |is_side: bool| (0..members).filter(|it| self.sides[*it as usize] == is_side).collect();
        let groups = vec![group(true), group(false)];
        self.line(None, 0, Event::Partition { groups }, trace);
    }

    /// Calls a host, and does what it asks for.
    fn call(&mut self, index: usize, trace: Tracer, call: impl FnOnce(&mut dyn Host, Moment, &mut Effects) -> Result<(), HostError>) {
        let now = Moment::from_millis(self.now);
        let it = &mut self.members[index];
        let me = it.seat.me;
        let mut effects = Effects::new(me, it.seat.members);
        let called = call(it.host.as_mut(), now, &mut effects);
        it.wake = it.host.wake().as_millis().max(self.now + 1);
        let is_honest = it.is_honest();
        if let Err(error) = called {
            it.is_up = false;
            it.host.crash();
            if is_honest {
                let (member, error) = (me, error.to_string());
                self.violation(Some(Violation::HostFailed { member, error }), trace);
            }
        }
        for (view, event) in std::mem::take(&mut effects.events) {
            self.line(Some(me), view, event, trace);
        }
        for proposal in std::mem::take(&mut effects.finalized) {
            self.finalized(index, &proposal, trace);
        }
        self.send_all(index, effects.sent, trace);
    }

    fn finalized(&mut self, index: usize, proposal: &simplex_view_state::Proposal, trace: Tracer) {
        let it = &mut self.members[index];
        if proposal.view().get() > it.finalized {
            it.finalized = proposal.view().get();
            self.moved = self.now;
        }
        if it.is_honest() {
            let violation = self.checks.finalized(Participant::new(index as u32), proposal);
            self.violation(violation, trace);
        }
    }

    /// Sends what a host sends, or what its fault makes of it.
    fn send_all(&mut self, index: usize, sent: Vec<Sent>, trace: Tracer) {
        let mut all = Vec::with_capacity(sent.len());
        for it in sent {
            let member = &mut self.members[index];
            match &mut member.fault {
                None => {
                    let violation = self.checks.sent(it.from, &it.message);
                    self.violation(violation, trace);
                    all.push(it);
                }
                Some(fault) => {
                    let (seat, random) = (&member.seat, &mut self.random);
                    all.extend(fault.send(it, &mut Insider { seat, random }));
                }
            }
        }
        self.trace_proposals(&all, trace);
        all.into_iter().for_each(|it| self.send(it));
    }

    /// Writes each proposal that is sent, once, with those who get it.
    fn trace_proposals(&mut self, sent: &[Sent], trace: Tracer) {
        let mut found: Vec<(Participant, View, TracedProposal, Vec<u32>)> = Vec::new();
        for it in sent {
            let Message::Proposal(vote, block) = &it.message else { continue };
            self.checks.block(block);
            let Subject::Notarize(proposal) = &vote.subject else { continue };
            let (view, traced) = (proposal.view(), TracedProposal::from(proposal));
            match found.iter_mut().find(|it| it.1 == view && it.2 == traced) {
                Some(same) => same.3.push(it.to.get()),
                None => found.push((it.from, view, traced, vec![it.to.get()])),
            }
        }
        let others = self.members.len() - 1;
        for (from, view, proposal, mut to) in found {
            if to.len() == others {
                to.clear();
            }
            self.line(Some(from), view.get(), Event::ProposalSent { to, proposal }, trace);
        }
    }

    fn send(&mut self, sent: Sent) {
        self.outcome.messages += 1;
        let latency = self.random.between(*self.plan.latency.start(), *self.plan.latency.end());
        let side = |it: Participant| self.sides.get(it.get() as usize).copied().unwrap_or(false);
        let is_cut = side(sent.from) != side(sent.to);
        if self.random.percent(self.plan.loss) || is_cut {
            self.outcome.lost += 1;
        } else {
            self.at(self.now + latency, Occurrence::Message(sent));
        }
    }

    fn violation(&mut self, violation: Option<Violation>, trace: Tracer) {
        let Some(violation) = violation else { return };
        let text = violation.to_string();
        self.line(None, violation.view().get(), Event::Violation { text }, trace);
        self.outcome.violations.push(violation);
    }

    fn line(&self, member: Option<Participant>, view: u64, event: Event, trace: Tracer) {
        let (at, member) = (self.now * 1000, member.map(Participant::get));
        trace(Line { at, member, view, event });
    }
}
