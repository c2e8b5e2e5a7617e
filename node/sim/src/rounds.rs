//! Networks that continue in rounds after a hostile past: after how many does each honest host carry out a new `Finalized`?
//!
//! A seed draws a past: messages are lost and late, links are cut, processes end. Then a round delivers all messages that are on their way.
//! Where none of them is of an honest member to an honest one, the clocks jump to the next moment at which a host wakes: faulty members,
//! which do what their fault does all the time, can't stop time by talking.

use crate::host::{Host, Seat};
use crate::network::Simulation;
use crate::plan::{Crash, Partition, Plan};
use crate::random::Random;
use simplex_trace::Line;
use simplex_view_state::Participant;

/// After how many rounds a network counts as stuck.
pub const MOST_ROUNDS: u64 = 20_000;

/// The measurements of one seed's network.
#[derive(Clone, PartialEq, Eq, Debug)]
pub struct Measured {
    /// The seed.
    pub seed: u64,
    /// The last view that any honest member had finalized in its past.
    pub past: u64,
    /// After how many rounds each honest host had carried out a new `Finalized`; `None` where it did not within [`MOST_ROUNDS`].
    pub rounds: Option<u64>,
    /// How often the clocks jumped, since no honest member had anything on its way to another one.
    pub jumps: u64,
    /// How many simulated milliseconds that took.
    pub milliseconds: u64,
    /// How many promises were broken.
    pub violations: usize,
}

/// Measures the network of a plan's seed.
pub fn measure(plan: &Plan, host: impl Fn(&Seat) -> Box<dyn Host>, trace: &mut dyn FnMut(Line)) -> Measured {
    let mut chance = Random::new(plan.seed ^ 0x7061_7374);
    let (hostile, past) = hostile(plan, &mut chance);
    let mut network = Simulation::new(&hostile, host);
    while network.now < past && network.outcome.violations.is_empty() && network.step(trace) {}
    begin_all(&mut network, trace);
    network.plan.loss = 0;
    let above = network
        .members
        .iter()
        .filter(|it| it.is_honest())
        .map(|it| it.finalized)
        .max()
        .unwrap_or(0);
    let (begun, mut rounds, mut jumps) = (network.now, 0, 0);
    while network.lowest() <= above && rounds < MOST_ROUNDS {
        rounds += 1;
        jumps += u64::from(round(&mut network, trace));
    }
    Measured {
        seed: plan.seed,
        past: above,
        rounds: (network.lowest() > above).then_some(rounds),
        jumps,
        milliseconds: network.now - begun,
        violations: network.outcome.violations.len(),
    }
}

/// The plan with a hostile past, and how long that lasts.
fn hostile(plan: &Plan, chance: &mut Random) -> (Plan, u64) {
    let past = chance.below(120_000);
    let members = u64::from(plan.members.get());
    let crash = |chance: &mut Random| {
        let from = chance.below(past.max(1));
        let (member, to) = (chance.below(members) as u32, from + chance.between(100, 20_000));
        Crash { member, from, to }
    };
    let partition = |chance: &mut Random| {
        let from = chance.below(past.max(1));
        let to = from + chance.between(1000, 30_000);
        Partition { from, to, side: None }
    };
    let loss = [0, 5, 15, 30, 50, 75][chance.below(6) as usize];
    let slowest = [200, 1000, 3000, 10_000][chance.below(4) as usize];
    let (crashes, partitions) = (chance.below(2 * members), chance.below(4));
    let plan = Plan {
        loss,
        latency: 1..=slowest,
        crashes: (0..crashes).map(|_| crash(chance)).collect(),
        partitions: (0..partitions).map(|_| partition(chance)).collect(),
        ..plan.clone()
    };
    (plan, past)
}

/// Begins all processes that are down.
fn begin_all(network: &mut Simulation, trace: &mut dyn FnMut(Line)) {
    network.heal();
    for member in (0..network.plan.members.get()).map(Participant::new) {
        network.begin(member, trace);
    }
}

/// Plays a round. Returns whether the clocks jumped, since no honest member had anything on its way to another one.
fn round(network: &mut Simulation, trace: &mut dyn FnMut(Line)) -> bool {
    let mut messages = network.take_messages();
    let is_honest = |it: Participant| network.members[it.get() as usize].is_honest();
    let is_quiet = !messages.iter().any(|it| is_honest(it.from) && is_honest(it.to));
    network.random.shuffle(&mut messages);
    for sent in messages {
        network.deliver(sent, trace);
    }
    if is_quiet {
        let wake = network.wake().unwrap_or(network.now);
        network.wake_up(wake, trace);
    }
    is_quiet
}
