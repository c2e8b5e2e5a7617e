//! A network of four under one fault after another, for as long as `SIMPLEX_CHAOS` says, in minutes: kills, torn ends of files, stops,
//! pauses, partitions, links that are cut one way or slow, and a member that floods. After each the network heals soon, and in the end all
//! agree.
//!
//! `tests/node/node.py --chaos MINUTES` runs it; `SIMPLEX_SEED` chooses the faults.

mod members;

use members::{played, settings_of};
use simplex_node::audit::{contradictions, disagreements};
use simplex_node::network::{Network, Plan, folder_of};
use simplex_node::settings::Protocol;
use simplex_view_state::{Epoch, FetchKind, Participant, Round, Subject, View, Vote};
use simplex_wire::Message;
use std::collections::BTreeMap;
use std::fs::{self, OpenOptions};
use std::io::Write;
use std::path::PathBuf;
use std::process::Command;
use std::thread::{self, sleep};
use std::time::{Duration, Instant};

/// Within what time all nodes finalize views again.
const HEALS_WITHIN: Duration = Duration::from_secs(10);
/// Within what time a network that heals later is still looked at.
const GIVEN_UP_AFTER: Duration = Duration::from_secs(120);
/// How much memory a node has at most, in kilobytes.
const MOST_KB: u64 = 64 << 10;
/// The member that floods.
const FAULTY: u32 = 3;
const ALL: [u32; 4] = [0, 1, 2, 3];

struct Chaos {
    network: Network,
    random: u64,
    most_kb: u64,
    /// How long it took after each fault until the network had healed.
    healed: BTreeMap<&'static str, Vec<Duration>>,
}

impl Chaos {
    fn begin(seed: u64) -> Chaos {
        let plan = Plan {
            nodes: 4,
            protocol: Protocol {
                pace_ms: 150,
                leader_timeout_ms: 500,
                certification_timeout_ms: 1000,
                timeout_retry_ms: 250,
                inactivity_ms: 1500,
                ..Protocol::default()
            },
            sync: true,
            faults: Vec::new(),
            delay_ms: 0,
            program: env!("CARGO_BIN_EXE_simplex-node").into(),
            folder: folder_of("chaos"),
        };
        let mut network = Network::new(plan).expect("keys and settings");
        network.begin_all().expect("processes");
        assert!(network.wait_for(&[0, 1, 2, 3], 5, Duration::from_secs(180)), "it does not begin");
        Chaos {
            network,
            random: seed.wrapping_mul(0x9e37_79b9_7f4a_7c15) | 1,
            most_kb: 0,
            healed: BTreeMap::new(),
        }
    }

    fn below(&mut self, most: u64) -> u64 {
        self.random ^= self.random << 13;
        self.random ^= self.random >> 7;
        self.random ^= self.random << 17;
        self.random % most
    }

    fn pause(&mut self) {
        sleep(Duration::from_millis(200 + self.below(3000)));
    }

    /// Tries one fault, and waits until it has healed.
    fn step(&mut self) {
        let node = self.below(4) as u32;
        let fault = match self.below(9) {
            0 => self.kill(node, Self::tear_journal),
            1 => self.kill(node, Self::tear_blocks),
            2 => self.stop(node),
            3 => self.suspend(node),
            4 => self.part(node),
            5 => self.part_one(node),
            6 => self.cut_one_way(node),
            7 => self.slow(node),
            _ => self.flood(),
        };
        let heals: &[u32] = if fault == FLOODED { &ALL[..FAULTY as usize] } else { &ALL };
        self.heals(fault, heals);
        if fault == FLOODED {
            // (the others refuse a member that forged for a time)
            self.heals("the member that had flooded, begun again", &ALL);
        }
        let memory = ALL.into_iter().filter_map(|index| self.network.metric(index, "resident_kb"));
        self.most_kb = memory.chain([self.most_kb]).max().unwrap_or(0);
    }

    /// Waits until these nodes finalize three views more.
    fn heals(&mut self, fault: &'static str, nodes: &[u32]) {
        let (begun, view) = (Instant::now(), self.network.highest(nodes) + 3);
        let is_healed = self.network.wait_for(nodes, view, GIVEN_UP_AFTER);
        let folder = self.network.folder();
        assert!(is_healed, "{fault}: view {view} is not finalized by {nodes:?}: {folder:?}");
        self.healed.entry(fault).or_default().push(begun.elapsed());
    }

    fn kill(&mut self, node: u32, tear: impl FnOnce(&mut Self, u32) -> &'static str) -> &'static str {
        self.network.kill(node).expect("a process");
        let fault = tear(self, node);
        self.pause();
        self.network.begin(node).expect("a process");
        fault
    }

    fn tear_journal(&mut self, node: u32) -> &'static str {
        let torn = 1 + self.below(60) as usize;
        self.network.tear(node, torn).expect("a journal");
        "killed, and its journal torn"
    }

    /// Leaves a beginning of a record behind the last ones of blocks and of the archive, and of a line behind the chain's.
    fn tear_blocks(&mut self, node: u32) -> &'static str {
        let torn = 1 + self.below(200) as usize;
        let data = self.network.data(node);
        for folder in ["blocks", "archive"] {
            let Some(last) = last_file(data.join(folder)) else { continue };
            // (the first record's beginning, as far as a segment has one)
            let bytes = fs::read(&last).expect("a segment");
            let first = bytes.get(simplex_node::segments::HEAD as usize..).unwrap_or_default();
            append(last, &first[..torn.min(first.len() / 2)]);
        }
        append(data.join("chain"), &b"1234 5678"[..1 + torn % 9]);
        "killed, and its blocks, archive and chain torn"
    }

    fn stop(&mut self, node: u32) -> &'static str {
        self.signal(node, "-TERM");
        let begun = Instant::now();
        while !self.network.has_ended(node).expect("a process") {
            assert!(begun.elapsed() < Duration::from_secs(60), "it does not stop");
            sleep(Duration::from_millis(20));
        }
        self.healed.entry("asked to stop, and ended").or_default().push(begun.elapsed());
        self.pause();
        self.network.begin(node).expect("a process");
        "stopped, and begun again"
    }

    fn suspend(&mut self, node: u32) -> &'static str {
        self.signal(node, "-STOP");
        self.pause();
        self.signal(node, "-CONT");
        "suspended"
    }

    fn part(&mut self, node: u32) -> &'static str {
        let (one, other) = ((node, (node + 1) % 4), ((node + 2) % 4, (node + 3) % 4));
        self.network.cut(Some((&[one.0, one.1], &[other.0, other.1]))).expect("a disk");
        self.pause();
        self.network.cut(None).expect("a disk");
        "parted, two and two"
    }

    fn part_one(&mut self, node: u32) -> &'static str {
        let others: Vec<u32> = ALL.into_iter().filter(|it| *it != node).collect();
        self.network.cut(Some((&[node], &others))).expect("a disk");
        self.pause();
        self.network.cut(None).expect("a disk");
        "parted, one and three"
    }

    fn cut_one_way(&mut self, node: u32) -> &'static str {
        let to = (node + 1 + self.below(3) as u32) % 4;
        self.network.cut_one_way(node, to).expect("a disk");
        self.pause();
        self.network.cut(None).expect("a disk");
        "a link cut one way"
    }

    fn slow(&mut self, node: u32) -> &'static str {
        for delay in [100, 0] {
            self.network.set(node, |it| it.trial.delay_ms = delay).expect("a disk");
            self.stop(node);
        }
        "slow links of one"
    }

    /// Member 3 is played: it sends all others as many votes, asks and forgeries as they read.
    fn flood(&mut self) -> &'static str {
        self.network.kill(FAULTY).expect("a process");
        let settings = settings_of(&self.network);
        let (keys, credentials) = played(&settings);
        let until = Instant::now() + Duration::from_secs(3);
        let view = self.network.highest(&[0, 1, 2]);
        thread::scope(|scope| {
            for to in 0..FAULTY {
                let (keys, credentials, address) = (&keys[FAULTY as usize], &credentials[FAULTY as usize], &settings[0].members);
                let address = &address[to as usize].address;
                scope.spawn(move || {
                    let Ok(mut session) = credentials.connect(Participant::new(to), address) else {
                        return;
                    };
                    let mut number = 0;
                    while Instant::now() < until {
                        number += 1;
                        let frame = flooding(keys, view, number).frame();
                        if session.write_all(&frame).is_err() {
                            return;
                        }
                    }
                });
            }
        });
        let goes_on = self.network.wait_for(&[0, 1, 2], view + 3, HEALS_WITHIN);
        assert!(goes_on, "three of four finalize nothing beside a flood");
        self.network.begin(FAULTY).expect("a process");
        FLOODED
    }

    fn signal(&mut self, node: u32, signal: &str) {
        let id = self.network.process(node).expect("it runs").to_string();
        assert!(Command::new("kill").args([signal, &id]).status().expect("a command").success());
    }

    fn end(mut self) {
        self.network.stop().expect("they stop");
        let (chains, votes) = (self.network.chains().expect("chains"), self.network.votes().expect("traces"));
        assert_eq!(disagreements(&chains), Vec::<String>::new());
        // (the member that floods signs votes that its own process does not know of)
        let of_honest = votes.iter().filter(|vote| vote.signer != FAULTY);
        assert_eq!(contradictions(of_honest, 1), Vec::<String>::new());
        for (fault, times) in &mut self.healed {
            times.sort();
            let (half, longest) = (times[times.len() / 2].as_secs_f64(), times[times.len() - 1].as_secs_f64());
            println!(
                "{fault}: {} times, after {half:.1} s (median), {longest:.1} s (longest)",
                times.len()
            );
        }
        let last = chains.iter().filter_map(|it| it.last()).map(|it| it.view).max().unwrap_or(0);
        println!(
            "view {last} is finalized; {} votes were seen; at most {} kB a node",
            votes.len(),
            self.most_kb
        );
        let late: Vec<_> = self
            .healed
            .iter()
            .filter(|(fault, times)| fault.starts_with("the member") || times.iter().all(|it| *it <= HEALS_WITHIN))
            .collect();
        assert_eq!(late.len(), self.healed.len(), "some healed later than within {HEALS_WITHIN:?}");
        assert!(self.most_kb <= MOST_KB, "{} kB", self.most_kb);
        fs::remove_dir_all(self.network.folder()).expect("a folder");
    }
}

const FLOODED: &str = "flooded by one member";

/// The last file of a folder by its name.
fn last_file(folder: PathBuf) -> Option<PathBuf> {
    fs::read_dir(folder).ok()?.flatten().map(|it| it.path()).max()
}

fn append(path: PathBuf, bytes: &[u8]) {
    let mut file = OpenOptions::new().append(true).open(path).expect("a file");
    file.write_all(bytes).expect("a disk");
}

/// Returns what a member that floods sends: a vote of its own of many views, an ask, and a vote in another's name.
fn flooding(keys: &simplex_node::crypto::Keys, view: u64, number: u64) -> Message {
    let round = Round {
        epoch: Epoch::new(1),
        view: View::new(view + number % 64),
    };
    let subject = Subject::Nullify(round);
    let vote = |signer| Vote {
        subject,
        signer: Participant::new(signer),
        signature: keys.sign(&subject).expect("a signature").to_vec(),
    };
    match number % 1000 {
        0 => Message::Vote(vote(0)),
        it if it % 50 == 0 => Message::Block(vec![it as u8; 100_000]),
        it if it % 25 == 0 => Message::AskRange(View::GENESIS, View::new(view)),
        it if it % 2 == 0 => Message::Vote(vote(FAULTY)),
        _ => Message::AskCertificate(FetchKind::Decision, View::new(number % (view + 1))),
    }
}

#[test]
fn a_network_heals_from_one_fault_after_another() {
    let Some(minutes) = std::env::var("SIMPLEX_CHAOS").ok().and_then(|it| it.parse::<f64>().ok()) else {
        return;
    };
    let seed = std::env::var("SIMPLEX_SEED").ok().and_then(|it| it.parse().ok()).unwrap_or(1);
    let until = Instant::now() + Duration::from_secs_f64(60.0 * minutes);
    let mut chaos = Chaos::begin(seed);
    while Instant::now() < until {
        chaos.step();
    }
    chaos.end();
}
