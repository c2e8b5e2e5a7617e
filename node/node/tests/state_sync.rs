//! Nodes that take the application's state of their peers, in place of blocks that nobody has any more.

mod members;
mod others;

use others::{Others, round};
use simplex_node::audit::{contradictions, disagreements};
use simplex_node::faults::Stage;
use simplex_node::ledger::snapshots::{Bond, RECORD, record};
use simplex_node::network::{Network, Plan, folder_of};
use simplex_node::settings::{Protocol, Settings};
use simplex_view_state::{Context, Digest, Participant, Proposal, Subject, View};
use simplex_wire::{Block, Manifest, Message, PIECE, Range};
use std::fs;
use std::path::PathBuf;
use std::process::Command;
use std::time::{Duration, Instant};

/// Within what time something has to be seen, on a machine that does much else.
const SOON: Duration = Duration::from_secs(120);
const LONG: Duration = Duration::from_secs(400);

/// Four nodes with small archives and frequent snapshots, of which none runs.
fn network(name: &str) -> Network {
    let plan = Plan {
        nodes: 4,
        protocol: Protocol {
            inactivity_ms: 1500,
            leader_timeout_ms: 1000,
            certification_timeout_ms: 1400,
            snapshot_blocks: 40,
            ..Protocol::default()
        },
        sync: false,
        faults: Vec::new(),
        delay_ms: 0,
        program: env!("CARGO_BIN_EXE_simplex-node").into(),
        folder: folder_of(name),
    };
    let mut network = Network::new(plan).expect("keys and settings");
    for index in 0..4 {
        let small = |it: &mut Settings| {
            it.archive.segment_bytes = 10_000;
            it.archive.most_bytes = Some(30_000);
            // (such an archive is passed in seconds: a process that a busy machine lets wait so long would vote no more, and the others
            // need its votes while node 3 is away)
            it.state_sync = Some(1_000_000);
        };
        network.set(index, small).expect("settings");
    }
    network
}

fn log(network: &Network, index: u32) -> String {
    fs::read_to_string(network.log(index)).unwrap_or_default()
}

/// The last lines of all nodes.
fn logs(network: &Network) -> String {
    let last = |index| {
        let log = log(network, index);
        let lines: Vec<&str> = log.lines().rev().take(8).collect();
        format!("node {index}:\n{}", lines.into_iter().rev().collect::<Vec<_>>().join("\n"))
    };
    (0..4).map(last).collect::<Vec<_>>().join("\n")
}

fn count(network: &Network, index: u32, name: &str) -> u64 {
    network.metric(index, name).expect("a reply")
}

/// The others finalize blocks until they have pruned those after node 3's last one. (Beside their archives they have the last 64 blocks.)
fn others_prune(network: &Network) {
    let height = network.chains().expect("chains")[3].len() as u64;
    let is_pruned = network.wait_until(&[0, 1, 2], "archive_first", height + 80, LONG);
    assert!(is_pruned, "the blocks up to {} are not pruned: {}", height + 80, logs(network));
}

/// Node 3 has the state of its peers, and all blocks after it.
fn catches_up(network: &Network) {
    let height = count(network, 0, "height");
    assert!(network.wait_until(&[3], "height", height, SOON), "{}", log(network, 3));
    let votes = count(network, 3, "finalizes");
    assert!(network.wait_until(&[3], "finalizes", votes + 3, SOON), "{}", log(network, 3));
}

/// All chains are the same from the first block on, and nobody contradicted itself in any lifetime.
fn ends_well(mut network: Network) {
    network.stop().expect("they stop");
    let (chains, votes) = (network.chains().expect("chains"), network.votes().expect("traces"));
    assert_eq!(disagreements(&chains), Vec::<String>::new());
    assert_eq!(contradictions(votes.iter(), 1), Vec::<String>::new());
    let first = |index: usize| chains[index].iter().map(|it| (it.view, it.payload.clone()));
    assert!(
        first(0).zip(first(3)).all(|(it, other)| it == other),
        "they begin with the same block"
    );
    fs::remove_dir_all(network.folder()).expect("a folder");
}

/// The archives of node 3 that snapshots took the place of.
fn set_aside(network: &Network) -> Vec<PathBuf> {
    let files = fs::read_dir(network.data(3)).expect("a folder").flatten().map(|it| it.path());
    files.filter(|it| it.to_string_lossy().contains("archive.until-")).collect()
}

#[test]
fn a_node_that_joins_late_begins_with_a_snapshot_of_its_peers() {
    let mut network = network("late-state");
    (0..3).for_each(|index| network.begin(index).expect("a process"));
    assert!(network.wait_until(&[0, 1, 2], "archive_first", 50, LONG), "{}", log(&network, 0));
    network.set(3, |it| it.state_sync = Some(1_000_000)).expect("settings");
    network.begin(3).expect("a process");
    catches_up(&network);
    assert_eq!(count(&network, 3, "state_syncs"), 1, "{}", log(&network, 3));
    let first = count(&network, 3, "archive_first");
    assert!(first > 40 && first % 40 == 1, "its archive begins with block {first}");
    // Its next lifetime continues from what it stored.
    network.kill(3).expect("a process");
    network.begin(3).expect("a process");
    catches_up(&network);
    assert_eq!(count(&network, 3, "state_syncs"), 0, "{}", log(&network, 3));
    assert!(set_aside(&network).is_empty(), "it had no blocks");
    ends_well(network);
}

#[test]
fn a_node_that_misses_too_many_blocks_takes_a_snapshot_though_peers_have_them() {
    let mut network = network("far-state");
    (0..4).for_each(|index| network.set(index, |it| it.archive.most_bytes = None).expect("settings"));
    (0..3).for_each(|index| network.begin(index).expect("a process"));
    assert!(network.wait_until(&[0, 1, 2], "height", 200, LONG), "{}", log(&network, 0));
    network.set(3, |it| it.state_sync = Some(100)).expect("settings");
    network.begin(3).expect("a process");
    catches_up(&network);
    assert_eq!(count(&network, 3, "state_syncs"), 1, "{}", log(&network, 3));
    assert_eq!(count(&network, 0, "archive_first"), 1);
    ends_well(network);
}

/// The journal, and with it each vote, stays; so does what the node had of the chain.
#[test]
fn a_member_below_all_archives_takes_a_snapshot_and_keeps_its_journal() {
    let mut network = network("behind-state");
    network.begin_all().expect("processes");
    assert!(network.wait_until(&[3], "height", 30, SOON), "{}", log(&network, 3));
    network.kill(3).expect("a process");
    others_prune(&network);
    let chain = fs::read_to_string(network.data(3).join("chain")).expect("a chain");
    let whole = &chain[..chain.rfind('\n').expect("lines") + 1];
    network.set(3, |it| it.state_sync = Some(1_000_000)).expect("settings");
    network.begin(3).expect("a process");
    catches_up(&network);
    assert_eq!(count(&network, 3, "state_syncs"), 1, "{}", log(&network, 3));
    let said = log(&network, 3);
    let resumed = said.lines().filter(|it| it.contains("begun")).nth(1).expect("two lifetimes");
    assert!(!resumed.contains("entries=0"), "{resumed}");
    let now = fs::read_to_string(network.data(3).join("chain")).expect("a chain");
    assert!(now.starts_with(whole), "its lines stay, with their times");
    let aside = set_aside(&network);
    assert!(
        aside.len() == 1 && fs::read_dir(&aside[0]).expect("a folder").count() > 0,
        "{aside:?}"
    );
    ends_well(network);
}

fn signal(network: &Network, index: u32, name: &str) {
    let process = network.process(index).expect("a process").to_string();
    assert!(Command::new("kill").args([name, &process]).status().expect("a process").success());
}

/// A process is stopped until the others have pruned what it misses; then another member ends, so that nothing is final without the votes
/// of the first one. It takes a snapshot of a network in which nothing is final meanwhile, and votes again.
#[test]
fn a_needed_member_that_misses_pruned_blocks_takes_a_snapshot_and_votes() {
    let mut network = network("needed-state");
    network.begin_all().expect("processes");
    assert!(network.wait_until(&[0, 1, 2, 3], "height", 10, SOON), "{}", logs(&network));
    signal(&network, 2, "-STOP");
    let height = network.chains().expect("chains")[2].len() as u64;
    assert!(
        network.wait_until(&[0, 1, 3], "archive_first", height + 80, LONG),
        "{}",
        logs(&network)
    );
    network.kill(3).expect("a process");
    signal(&network, 2, "-CONT");
    let height = count(&network, 0, "height");
    assert!(network.wait_until(&[0, 1, 2], "height", height + 20, SOON), "{}", logs(&network));
    assert!(count(&network, 2, "state_syncs") > 0, "{}", log(&network, 2));
    network.begin(3).expect("a process");
    catches_up(&network);
    ends_well(network);
}

/// The process ends at each stage of an installation, as by a power cut. The next one carries it to its end.
#[test]
fn a_crash_amid_the_installation_of_a_snapshot_costs_nothing() {
    let mut network = network("crash-state");
    network.begin_all().expect("processes");
    assert!(network.wait_until(&[3], "height", 10, SOON), "{}", log(&network, 3));
    for (stage, restored) in [(Stage::Fetched, 1), (Stage::Restored, 0), (Stage::Aside, 0)] {
        network.kill(3).expect("a process");
        others_prune(&network);
        let change = |it: &mut Settings| (it.state_sync, it.trial.dies_at) = (Some(1_000_000), Some(stage));
        network.set(3, change).expect("settings");
        network.begin(3).expect("a process");
        let begun = Instant::now();
        while !network.has_ended(3).expect("a process") {
            assert!(begun.elapsed() < SOON, "{stage:?}: it continues: {}", log(&network, 3));
            std::thread::sleep(Duration::from_millis(20));
        }
        network.set(3, |it| it.trial.dies_at = None).expect("settings");
        let before = log(&network, 3).len();
        network.begin(3).expect("a process");
        catches_up(&network);
        let said = log(&network, 3).split_off(before);
        assert_eq!(
            said.matches("that an earlier lifetime fetched").count(),
            restored,
            "{stage:?}: {said}"
        );
        let is_aside = said
            .find("a snapshot takes the place of these blocks")
            .is_some_and(|it| Some(it) < said.find("start: begun"));
        assert_eq!(is_aside, stage != Stage::Aside, "{stage:?}: before it votes: {said}");
        assert!(!network.data(3).join("snapshot").exists(), "{stage:?}: it is discarded");
    }
    assert_eq!(set_aside(&network).len(), 3, "no archive is lost");
    ends_well(network);
}

/// A chain whose last block binds a snapshot of some blocks before, as a ledger has it.
struct Chain {
    blocks: Vec<(Block, Proposal)>,
    manifest: Manifest,
    bytes: Vec<u8>,
}

impl Chain {
    fn new(genesis: Digest, count: u64) -> Chain {
        let mut blocks = members::chain(genesis, 1..count, 256);
        let taken = &blocks[..count as usize - 20];
        let records: Vec<[u8; RECORD]> = taken.iter().map(|(it, _)| record(it.view, &it.payload())).collect();
        let (bytes, last) = (records.concat(), &taken[taken.len() - 1].0);
        let manifest = Manifest::of(taken.len() as u64, last.view, last.payload(), &bytes).expect("few pieces");
        let bond = Bond {
            height: manifest.height,
            digest: manifest.digest(),
        };
        let parent = &blocks[blocks.len() - 1].0;
        let context = Context {
            round: round(count),
            leader: Participant::new(0),
            parent: parent.view,
            parent_payload: parent.payload(),
        };
        let block = Block::new(&context, &[&[7; 256][..], &bond.bytes()].concat());
        let proposal = Proposal {
            round: context.round,
            parent: context.parent,
            payload: block.payload(),
        };
        blocks.push((block, proposal));
        Chain { blocks, manifest, bytes }
    }

    /// The blocks after a view, up to the last one, with a finalization of it.
    fn range(&self, others: &Others, signers: &[usize], after: View) -> Range {
        let (_, last) = &self.blocks[self.blocks.len() - 1];
        Range {
            after,
            certificate: others.certificate(signers, Subject::Finalize(*last)),
            blocks: self.blocks[after.get() as usize..].iter().rev().map(|it| it.0.clone()).collect(),
        }
    }

    fn piece(&self, index: u32) -> Vec<u8> {
        self.bytes.chunks(PIECE).nth(index as usize).expect("a piece").to_vec()
    }
}

/// Returns what a member that is played replies: 1 lies, 2 sends no piece, and a certificate of too few votes, and 3 is honest.
fn reply(others: &Others, chain: &Chain, member: u32, message: &Message) -> Option<Message> {
    let bound_in = chain.blocks.len() as u64 - 1;
    match (member, message) {
        (_, Message::AskRange(after, _)) if *after < chain.manifest.view => Some(Message::NoRange(*after, View::new(bound_in))),
        (3, Message::AskRange(after, _)) => Some(Message::Range(chain.range(others, &[1, 2, 3], *after))),
        (1, Message::AskSnapshot) => {
            let mut other = chain.bytes.clone();
            other[0] ^= 1;
            let it = &chain.manifest;
            let higher = Manifest::of(it.height + 5, it.view, it.payload, &other).expect("few pieces");
            Some(Message::Snapshot(higher, chain.range(others, &[1, 2, 3], View::new(bound_in))))
        }
        (2, Message::AskSnapshot) => {
            let range = chain.range(others, &[1, 2], View::new(bound_in));
            Some(Message::Snapshot(chain.manifest.clone(), range))
        }
        (3, Message::AskSnapshot) => {
            let range = chain.range(others, &[1, 2, 3], View::new(bound_in));
            Some(Message::Snapshot(chain.manifest.clone(), range))
        }
        (1, Message::AskPiece(snapshot, index)) => {
            let mut other = chain.piece(*index);
            other[5] ^= 1;
            Some(Message::Piece(*snapshot, *index, other))
        }
        (3, Message::AskPiece(snapshot, index)) => Some(Message::Piece(*snapshot, *index, chain.piece(*index))),
        _ => None,
    }
}

#[test]
fn members_that_lie_of_snapshots_are_found_and_others_are_asked() {
    let mut others = Others::around_a_node_with("lied-state", |it| it.state_sync = Some(1_000_000));
    let chain = Chain::new(others.genesis, 40_000);
    assert!(chain.manifest.pieces.len() > 5);
    let (_, last) = chain.blocks[chain.blocks.len() - 1];
    let certificate = others.certificate(&[1, 2, 3], Subject::Finalize(last));
    others.send(3, &Message::Certificate(certificate));
    let begun = Instant::now();
    while others.counts("height") < chain.blocks.len() as u64 {
        assert!(begun.elapsed() < SOON, "{}", log(&others.network, 0));
        while let Ok((member, message)) = others.heard.recv_timeout(Duration::from_millis(100)) {
            if let Some(it) = reply(&others, &chain, member, &message) {
                others.send(member as usize, &it);
            }
        }
    }
    let said = log(&others.network, 0);
    assert_eq!(others.counts("state_syncs"), 1);
    assert!(said.contains("a member offers a snapshot that its block does not bind"), "{said}");
    assert!(said.contains("another piece of a snapshot than the chain vouches for"), "{said}");
    let wrong = others.counts("wrong_pieces");
    assert!((1..=4).contains(&wrong), "{wrong} wrong pieces: who sends one is asked no more");
    assert!(others.counts("forged") > wrong, "a certificate of two votes of four is none");
    assert_eq!(others.counts("snapshot_pieces"), chain.manifest.pieces.len() as u64);
    let lines = simplex_node::ledger::read_chain(&others.network.data(0)).expect("a chain");
    let blocks = chain.blocks.iter().map(|(it, _)| (it.view.get(), it.payload().to_string()));
    assert!(lines.into_iter().map(|it| (it.view, it.payload)).eq(blocks));
    others.end();
}
