//! Replies of the application: one wait for the disk serves what follows from a fast one, and a slow one is not waited for.

use simplex_node::network::{Network, Plan, folder_of};
use simplex_node::settings::Protocol;
use std::fs;
use std::time::Duration;

/// Within what time something has to be seen, on a machine that does much else.
const SOON: Duration = Duration::from_secs(60);

/// A member alone, whose application takes so long for each reply.
fn alone(name: &str, application_ms: u64) -> Network {
    let plan = Plan {
        nodes: 1,
        protocol: Protocol::default(),
        sync: true,
        faults: Vec::new(),
        delay_ms: 0,
        program: env!("CARGO_BIN_EXE_simplex-node").into(),
        folder: folder_of(name),
    };
    let mut network = Network::new(plan).expect("keys and settings");
    network.set(0, |it| it.trial.application_ms = application_ms).expect("settings");
    network.begin(0).expect("a process");
    network
}

fn comes_to(network: &Network, name: &str, least: u64) {
    let is_there = network.wait_until(&[0], name, least, SOON);
    let log = fs::read_to_string(network.log(0)).unwrap_or_default();
    assert!(is_there, "{name} is {:?} in place of {least}: {log}", network.metric(0, name));
}

fn end(mut network: Network) {
    network.stop().expect("it stops");
    fs::remove_dir_all(network.folder()).expect("a folder");
}

#[test]
fn a_fast_reply_is_waited_for_before_the_disk_is() {
    let network = alone("fast", 0);
    comes_to(&network, "awaited_replies", 20);
    end(network);
}

#[test]
fn a_slow_application_is_waited_for_once_at_most() {
    let network = alone("slow", 5);
    comes_to(&network, "height", 30);
    let counts = network.metrics(0).expect("a reply");
    let [awaited, missed] = ["awaited_replies", "missed_replies"].map(|name| counts.get(name).expect("it is counted"));
    assert!(awaited == 0 && missed <= 1, "{awaited} replies came in time, {missed} did not");
    end(network);
}
