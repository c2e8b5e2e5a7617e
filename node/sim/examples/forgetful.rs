//! A host with a fault that is easy to make: it takes up its work after a crash without its journal, so it votes a second time in views in
//! which it voted before. The simulator finds the double vote, and the least plan that shows it.
//!
//!     cargo run --example forgetful
//!
//! To test a host of your own, implement [`Host`] for it in place of [`Forgetful`].

use simplex_sim::search::{shrink, until_disagreement};
use simplex_sim::{Disk, Effects, EngineHost, Host, HostError, Log, Message, Plan, Seat};
use simplex_view_state::{Moment, Participant};

/// A host that forgets its journal in a crash.
pub struct Forgetful(EngineHost<Log>);

impl Forgetful {
    /// The host of a member.
    pub fn host(seat: &Seat) -> Box<dyn Host> {
        Box::new(Forgetful(EngineHost::new(seat, Log::default())))
    }
}

impl Host for Forgetful {
    fn begin(&mut self, now: Moment, effects: &mut Effects) -> Result<(), HostError> {
        self.0.begin(now, effects)
    }

    fn crash(&mut self) {
        self.0.crash();
        self.0.disk = Disk::default();
    }

    fn receive(&mut self, from: Participant, message: Message, now: Moment, effects: &mut Effects) -> Result<(), HostError> {
        self.0.receive(from, message, now, effects)
    }

    fn run(&mut self, now: Moment, effects: &mut Effects) -> Result<(), HostError> {
        self.0.run(now, effects)
    }

    fn wake(&self) -> Moment {
        self.0.wake()
    }
}

/// A plan in which members crash, and one of them is cut off when it comes back: so it votes to nullify views that it finalized.
pub fn plan() -> Plan {
    let crash = |word: &str| word.parse().expect("a crash");
    Plan {
        loss: 5,
        crashes: ["1@3s..3100ms", "2@5s..5100ms", "3@8s..8100ms"].map(crash).to_vec(),
        partitions: ["5s..8s:2", "20s..25s"].map(|it| it.parse().expect("a partition")).to_vec(),
        ..Plan::default()
    }
}

fn main() {
    match until_disagreement(&plan(), 100, &Forgetful::host) {
        None => println!("no seed breaks a promise"),
        Some((found, violation)) => {
            println!("seed {}: {violation}", found.seed);
            println!("the least plan: {}", shrink(&found, &Forgetful::host));
        }
    }
}
