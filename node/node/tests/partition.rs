//! A network whose packets are all dropped for a while: TCP then waits longer and longer before it sends them again, and links do not.
//!
//! The test runs once more in a network namespace of its own (`unshare --net`), whose loopback device it takes down and up. Where that is not
//! allowed, it says so and passes. `SIMPLEX_LONG` has it down for a minute.

use simplex_node::audit::disagreements;
use simplex_node::network::{Network, Plan, folder_of};
use simplex_node::settings::Protocol;
use std::fs;
use std::process::Command;
use std::thread::sleep;
use std::time::{Duration, Instant};

const SOON: Duration = Duration::from_secs(120);
/// Within what time all members finalize views again: five seconds, and as much again on a machine that does much else.
const HEALS_WITHIN: Duration = Duration::from_secs(10);
const ALL: [u32; 4] = [0, 1, 2, 3];
const NAME: &str = "packets_that_are_dropped_for_long_cost_some_seconds";
const INSIDE: &str = "SIMPLEX_NAMESPACE";

#[test]
fn packets_that_are_dropped_for_long_cost_some_seconds() {
    if std::env::var_os(INSIDE).is_some() {
        return network_that_is_parted();
    }
    let is_allowed = Command::new("unshare").args(["--net", "ip", "link", "set", "lo", "up"]).output();
    if !is_allowed.is_ok_and(|it| it.status.success()) {
        println!("skipped: this user may not make a network namespace");
        return;
    }
    let test = std::env::current_exe().expect("this program");
    let done = Command::new("unshare")
        .arg("--net")
        .arg(test)
        .args([NAME, "--exact", "--nocapture"])
        .env(INSIDE, "1")
        .output()
        .expect("a process");
    let said = String::from_utf8_lossy(&[done.stdout, done.stderr].concat()).into_owned();
    println!("{said}");
    assert!(done.status.success(), "{said}");
}

fn loopback(state: &str) {
    let done = Command::new("ip").args(["link", "set", "lo", state]).status().expect("a command");
    assert!(done.success());
}

fn network_that_is_parted() {
    loopback("up");
    let plan = Plan {
        nodes: 4,
        protocol: Protocol {
            pace_ms: 20,
            ..Protocol::default()
        },
        sync: false,
        faults: Vec::new(),
        delay_ms: 0,
        program: env!("CARGO_BIN_EXE_simplex-node").into(),
        folder: folder_of("dropped"),
    };
    let mut network = Network::new(plan).expect("keys and settings");
    network.begin_all().expect("processes");
    assert!(network.wait_for(&ALL, 20, SOON), "it does not begin");
    let seconds = if std::env::var_os("SIMPLEX_LONG").is_some() { 60 } else { 15 };
    let before = network.highest(&ALL);
    loopback("down");
    sleep(Duration::from_secs(seconds));
    loopback("up");
    let begun = Instant::now();
    // (what was on its way may finalize a view or two)
    let is_healed = network.wait_for(&ALL, before + 10, HEALS_WITHIN);
    println!("after {seconds} s: {:.1} s", begun.elapsed().as_secs_f64());
    assert!(
        is_healed,
        "view {} of {} after {HEALS_WITHIN:?}",
        network.highest(&ALL),
        before + 10
    );
    network.stop().expect("they stop");
    assert_eq!(disagreements(&network.chains().expect("chains")), Vec::<String>::new());
    fs::remove_dir_all(network.folder()).expect("a folder");
}
