//! Three members that run while the fourth one's process is stopped, from any moment on: they finalize blocks soon.
//!
//! Archives are small and are passed in seconds. One process is stopped at a time, or ends and begins again just before another is stopped.
//! `SIMPLEX_LONG=1` does that for some minutes, and `SIMPLEX_SEED` chooses the moments. Where nothing is final for long
//! the folder stays, with the logs and the traces of events of all nodes (`simplex-view` shows them); and the test prints for how long the machine
//! let this process wait meanwhile, and how long a sync of its disk took.

use simplex_node::audit::disagreements;
use simplex_node::network::{Network, Plan, folder_of};
use simplex_node::settings::{Protocol, Settings};
use std::collections::BTreeMap;
use std::fs::{self, File};
use std::io::Write;
use std::path::{Path, PathBuf};
use std::process::Command;
use std::sync::atomic::{AtomicU64, Ordering::Relaxed};
use std::sync::{Arc, Weak};
use std::thread::{self, sleep};
use std::time::{Duration, Instant};

/// How long nothing may be final while three members run.
const SOON: Duration = Duration::from_secs(10);
/// How long a network gets that begins, on a machine that does much else.
const START: Duration = Duration::from_secs(180);
/// For how long processes are stopped.
const LONG: Duration = Duration::from_secs(240);
/// How often it is looked what is final.
const LOOK: Duration = Duration::from_millis(50);

fn network(name: &str) -> Network {
    let plan = Plan {
        nodes: 4,
        protocol: Protocol {
            inactivity_ms: 1500,
            leader_timeout_ms: 1000,
            certification_timeout_ms: 1400,
            snapshot_blocks: 40,
            ..Protocol::default()
        },
        sync: false,
        faults: Vec::new(),
        delay_ms: 0,
        program: env!("CARGO_BIN_EXE_simplex-node").into(),
        folder: folder_of(name),
    };
    let mut network = Network::new(plan).expect("keys and settings");
    for index in 0..4 {
        let small = |it: &mut Settings| {
            it.archive.segment_bytes = 10_000;
            it.archive.most_bytes = Some(30_000);
            it.state_sync = Some(1_000_000);
            it.events = Some(PathBuf::from(format!("{index}.events")));
        };
        network.set(index, small).expect("settings");
    }
    network
}

/// The machine's delays, whatever the nodes do: in milliseconds, the longest since they were read last.
#[derive(Default)]
struct Machine {
    /// By how much a short sleep was longer.
    paused: AtomicU64,
    synced: AtomicU64,
}

/// Calls this until nobody has the machine any more, and notes how long it takes beyond some time.
fn measure(machine: &Weak<Machine>, longest: fn(&Machine) -> &AtomicU64, beyond: Duration, mut call: impl FnMut()) {
    while let Some(it) = machine.upgrade() {
        let begun = Instant::now();
        call();
        let late = begun.elapsed().saturating_sub(beyond).as_millis() as u64;
        longest(&it).fetch_max(late, Relaxed);
    }
}

impl Machine {
    fn watched(folder: &Path) -> Arc<Machine> {
        let machine = Arc::new(Machine::default());
        let (first, second) = (Arc::downgrade(&machine), Arc::downgrade(&machine));
        thread::spawn(move || measure(&first, |it| &it.paused, LOOK, || sleep(LOOK)));
        let mut file = File::create(folder.join("synced")).expect("a disk");
        thread::spawn(move || {
            measure(
                &second,
                |it| &it.synced,
                LOOK,
                || {
                    sleep(LOOK);
                    file.write_all(b"x").and_then(|()| file.sync_data()).expect("a disk");
                },
            );
        });
        machine
    }

    fn delays(&self) -> String {
        let [paused, synced] = [&self.paused, &self.synced].map(|it| it.swap(0, Relaxed));
        format!("the machine let this process wait for {paused} ms at most, and a sync took {synced} ms")
    }
}

/// A network, and how long nothing was final at most in each kind of round.
struct Stops {
    network: Network,
    machine: Arc<Machine>,
    random: u64,
    longest: BTreeMap<&'static str, Vec<Duration>>,
}

impl Stops {
    fn begin(seed: u64) -> Stops {
        let network = network("stopped");
        let mut stops = Stops {
            machine: Machine::watched(network.folder()),
            network,
            random: seed.wrapping_mul(0x9e37_79b9_7f4a_7c15) | 1,
            longest: BTreeMap::new(),
        };
        (0..4).for_each(|index| stops.run(index));
        assert!(stops.network.wait_until(&[0, 1, 2, 3], "height", 10, START), "it does not begin");
        stops
    }

    fn below(&mut self, most: u64) -> u64 {
        self.random ^= self.random << 13;
        self.random ^= self.random >> 7;
        self.random ^= self.random << 17;
        self.random % most
    }

    fn pause(&mut self, most_ms: u64) {
        sleep(Duration::from_millis(self.below(most_ms)));
    }

    /// Begins a node that logs all that it says.
    fn run(&mut self, index: u32) {
        let variables = [("RUST_LOG", "debug".to_owned())];
        self.network.begin_with_variables(index, &variables).expect("a process");
    }

    fn signal(&self, index: u32, name: &str) {
        let id = self.network.process(index).expect("it runs").to_string();
        assert!(Command::new("kill").args([name, &id]).status().expect("a command").success());
    }

    fn round(&mut self) {
        let (away, other) = (self.below(4) as u32, 1 + self.below(3) as u32);
        let other = (away + other) % 4;
        let kind = match self.below(4) {
            0 => "one stopped",
            1 => self.begin_again(other, 400, "one stopped after another began again"),
            2 => self.begin_again(other, 8000, "one stopped after another was away"),
            _ => self.continue_again(other, 8000, "one stopped after another was stopped"),
        };
        self.stop(kind, away);
        let view = self.network.highest(&[0, 1, 2, 3]) + 20;
        assert!(
            self.network.wait_for(&[0, 1, 2, 3], view, START),
            "{kind}: {:?}",
            self.network.folder()
        );
    }

    /// A node is away for a while. The other one is stopped soon after it is back.
    fn begin_again(&mut self, index: u32, most_ms: u64, kind: &'static str) -> &'static str {
        self.network.kill(index).expect("a process");
        self.pause(most_ms);
        self.run(index);
        self.pause(3000);
        kind
    }

    /// A process stands still for a while. The other one is stopped soon after it continues.
    fn continue_again(&mut self, index: u32, most_ms: u64, kind: &'static str) -> &'static str {
        self.signal(index, "-STOP");
        self.pause(most_ms);
        self.signal(index, "-CONT");
        self.pause(1500);
        kind
    }

    /// A process stands still, and the others are watched.
    fn stop(&mut self, kind: &'static str, away: u32) {
        let others: Vec<u32> = (0..4).filter(|it| *it != away).collect();
        self.signal(away, "-STOP");
        self.machine.delays();
        let watched = Duration::from_millis(2000 + self.below(6000));
        let longest = self.watch(kind, away, &others, watched);
        self.signal(away, "-CONT");
        if longest > SOON / 3 {
            println!("{kind}: nothing was final for {longest:.1?}; {}", self.machine.delays());
        }
        self.longest.entry(kind).or_default().push(longest);
        self.pause(3000);
    }

    /// The longest time without a final block.
    fn watch(&self, kind: &str, away: u32, others: &[u32], watched: Duration) -> Duration {
        let (begun, mut grew, mut longest) = (Instant::now(), Instant::now(), Duration::ZERO);
        let mut highest = self.network.highest(others);
        while begun.elapsed() < watched || grew.elapsed() > watched / 2 {
            sleep(LOOK);
            let now = self.network.highest(others);
            longest = longest.max(grew.elapsed());
            if now > highest {
                (highest, grew) = (now, Instant::now());
            }
            assert!(
                grew.elapsed() < SOON,
                "{kind}: nothing is final above view {highest} without node {away}: {:?}; {}{}",
                self.network.folder(),
                self.machine.delays(),
                self.counts(others)
            );
        }
        longest
    }

    /// Returns the counters of these nodes.
    fn counts(&self, nodes: &[u32]) -> String {
        let names = [
            "height",
            "current_view",
            "last_finalized",
            "open_fetches",
            "nullifies",
            "finalizes",
            "slowed_readers",
            "offences",
            "state_syncs",
        ];
        let count = |node: &u32| {
            let metrics = self.network.metrics(*node);
            let values = names.map(|name| format!("{name}={:?}", metrics.as_ref().and_then(|it| it.get(name))));
            format!("\nnode {node}: {}", values.join(" "))
        };
        nodes.iter().map(count).collect()
    }

    fn end(mut self) {
        for (kind, times) in &mut self.longest {
            times.sort();
            let (half, last) = (times[times.len() / 2], times[times.len() - 1]);
            println!(
                "{kind}: {} times; nothing was final for {half:.1?} (median), {last:.1?} (longest)",
                times.len()
            );
        }
        self.network.stop().expect("they stop");
        let chains = self.network.chains().expect("chains");
        assert_eq!(disagreements(&chains), Vec::<String>::new());
        fs::remove_dir_all(self.network.folder()).expect("a folder");
    }
}

#[test]
fn three_members_finalize_blocks_whenever_the_fourth_stops() {
    if std::env::var_os("SIMPLEX_LONG").is_none() {
        return;
    }
    let seed = std::env::var("SIMPLEX_SEED").ok().and_then(|it| it.parse().ok()).unwrap_or(1);
    let (mut stops, begun) = (Stops::begin(seed), Instant::now());
    while begun.elapsed() < LONG {
        stops.round();
    }
    stops.end();
}
