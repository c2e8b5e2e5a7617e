//! The cost of a member that floods, in final blocks of the others: three nodes, and a fourth member, which the test plays, that votes for
//! nothing. In turn it is quiet, and sends each of them as much as they read.
//!
//! It measures for minutes, so `SIMPLEX_LONG` runs it.

mod members;

use members::{Link, played, settings_of};
use simplex_node::audit::disagreements;
use simplex_node::crypto::Keys;
use simplex_node::network::{Network, Plan, folder_of};
use simplex_node::settings::Protocol;
use simplex_view_state::{Context, Epoch, FetchKind, Participant, Proposal, Round, Subject, View, Vote};
use simplex_wire::{Block, Message};
use std::fs;
use std::sync::Arc;
use std::sync::atomic::{AtomicBool, Ordering::Relaxed};
use std::thread::{self, sleep};
use std::time::Duration;

const SOON: Duration = Duration::from_secs(120);
const HONEST: [u32; 3] = [0, 1, 2];
/// How long each measurement takes, and how often each is made.
const WINDOW: Duration = Duration::from_secs(5);
const TIMES: usize = 5;

fn network() -> Network {
    let plan = Plan {
        nodes: 4,
        protocol: Protocol {
            // (a quarter of all views ends by these, with and without a flood)
            leader_timeout_ms: 60,
            certification_timeout_ms: 200,
            timeout_retry_ms: 100,
            inactivity_ms: 60_000,
            ..Protocol::default()
        },
        sync: true,
        faults: Vec::new(),
        delay_ms: 0,
        program: env!("CARGO_BIN_EXE_simplex-node").into(),
        folder: folder_of("floods"),
    };
    let mut network = Network::new(plan).expect("keys and settings");
    HONEST.into_iter().for_each(|index| network.begin(index).expect("a process"));
    assert!(network.wait_for(&HONEST, 20, SOON), "it does not begin");
    network
}

/// Frames of one kind, of views near this one.
fn frames(kind: &str, keys: &Keys, view: u64) -> Vec<u8> {
    let round = |ahead: u64| Round {
        epoch: Epoch::new(1),
        view: View::new(view + ahead),
    };
    let signed = |subject: Subject| Vote {
        subject,
        signer: keys.me,
        signature: keys.sign(&subject).expect("a signature").to_vec(),
    };
    let proposal = |ahead: u64| {
        let context = Context {
            round: round(ahead),
            leader: keys.me,
            parent: View::GENESIS,
            parent_payload: Default::default(),
        };
        let block = Block::new(&context, &vec![ahead as u8; 1_000_000]);
        let (round, parent, payload) = (context.round, context.parent, block.payload());
        let vote = signed(Subject::Notarize(Proposal { round, parent, payload }));
        Message::Proposal(vote, block.bytes().to_vec())
    };
    let message = |number: u64| match kind {
        "blocks" => Message::Block(vec![number as u8; 1_000_000]),
        "proposals" => proposal(4 * number + 4 - (view % 4)),
        "ranges" => Message::AskRange(View::new(number), View::new(view)),
        "certificates" => Message::AskCertificate(FetchKind::Decision, View::new(view - number % 20)),
        _ => Message::Vote(signed(Subject::Nullify(round(number % 60)))),
    };
    (0..if ["blocks", "proposals"].contains(&kind) { 4 } else { 200 })
        .flat_map(|number| message(number).frame())
        .collect()
}

/// How many final blocks each application gets in a window, at least.
fn blocks(network: &Network) -> u64 {
    let heights = || HONEST.map(|index| network.metric(index, "height").expect("a reply"));
    let before = heights();
    sleep(WINDOW);
    let grown = heights().into_iter().zip(before).map(|(after, before)| after - before);
    grown.min().unwrap_or(0)
}

/// The same, while the member sends these frames again and again to all.
fn blocks_under(network: &Network, links: &[Link], frames: &Arc<Vec<u8>>) -> u64 {
    let is_over = Arc::new(AtomicBool::new(false));
    let flooding = links.iter().cloned().map(|link| {
        let (is_over, frames) = (is_over.clone(), frames.clone());
        thread::spawn(move || while !is_over.load(Relaxed) && link.write_all(&frames).is_ok() {})
    });
    let flooding: Vec<_> = flooding.collect();
    let grown = blocks(network);
    is_over.store(true, Relaxed);
    flooding.into_iter().for_each(|it| it.join().expect("it ends"));
    grown
}

fn median(mut of: Vec<u64>) -> u64 {
    of.sort();
    of[of.len() / 2]
}

#[test]
fn a_member_that_floods_costs_the_others_a_fifth_of_their_blocks_at_most() {
    if std::env::var_os("SIMPLEX_LONG").is_none() {
        return;
    }
    let mut network = network();
    let settings = settings_of(&network);
    let (keys, credentials) = played(&settings);
    let mut costs = Vec::new();
    for kind in ["blocks", "proposals", "ranges", "certificates", "votes"] {
        let (mut quiet, mut flooded) = (Vec::new(), Vec::new());
        for _ in 0..TIMES {
            let connect = |to: u32| {
                let address = &settings[0].members[to as usize].address;
                let session = credentials[3].connect(Participant::new(to), address);
                Link::of(session.expect("it greets"))
            };
            let links: Vec<Link> = HONEST.into_iter().map(connect).collect();
            links.iter().for_each(Link::show_life);
            quiet.push(blocks(&network));
            let frames = Arc::new(frames(kind, &keys[3], network.highest(&HONEST)));
            flooded.push(blocks_under(&network, &links, &frames));
        }
        let (quiet, flooded) = (median(quiet), median(flooded));
        println!("{kind}: {quiet} blocks in {WINDOW:?} where it is quiet, {flooded} under its flood");
        costs.push((kind, quiet, flooded));
    }
    let memory: Vec<u64> = HONEST
        .into_iter()
        .filter_map(|index| network.metric(index, "resident_kb"))
        .collect();
    println!("{memory:?} kB");
    assert!(memory.iter().all(|it| *it < 64 << 10), "{memory:?} kB");
    network.stop().expect("they stop");
    assert_eq!(disagreements(&network.chains().expect("chains")), Vec::<String>::new());
    fs::remove_dir_all(network.folder()).expect("a folder");
    for (kind, quiet, flooded) in costs {
        assert!(5 * flooded >= 4 * quiet, "{kind}: {flooded} of {quiet} blocks");
    }
}
