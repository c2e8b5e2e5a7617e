//! The example that takes transactions over HTTP: four nodes apply each once, and agree on balances.

use serde_json::{Value, json};
use simplex_node::network::{Network, Plan, folder_of};
use simplex_node::settings::Protocol;
use std::fs;
use std::io::{Read, Write};
use std::net::TcpStream;
use std::path::Path;
use std::thread::sleep;
use std::time::{Duration, Instant};

/// Within what time something has to be seen, on a machine that does much else.
const SOON: Duration = Duration::from_secs(120);

fn network(name: &str) -> Network {
    let program = Path::new(env!("CARGO_BIN_EXE_simplex-node"))
        .with_file_name("examples")
        .join("ledger_http");
    assert!(program.exists(), "{}: build it by `cargo build --examples`", program.display());
    let plan = Plan {
        nodes: 4,
        protocol: Protocol::default(),
        sync: true,
        faults: Vec::new(),
        delay_ms: 0,
        program,
        folder: folder_of(name),
    };
    let mut network = Network::new(plan).expect("keys and settings");
    network.begin_all().expect("processes");
    network
}

/// Returns a node's reply: the status, and the body.
fn asked(network: &Network, node: u32, method: &str, path: &str, body: &str) -> Option<(u16, Value)> {
    let at = fs::read_to_string(network.data(node).join("http")).ok()?;
    let mut stream = TcpStream::connect(at).ok()?;
    stream.set_read_timeout(Some(SOON)).ok()?;
    let length = body.len();
    let head = format!("{method} {path} HTTP/1.1\r\nHost: node\r\nConnection: close\r\nContent-Length: {length}\r\n\r\n");
    stream.write_all(format!("{head}{body}").as_bytes()).ok()?;
    let mut answer = String::new();
    stream.read_to_string(&mut answer).ok()?;
    let status = answer.split(' ').nth(1)?.parse().ok()?;
    Some((status, serde_json::from_str(answer.split("\r\n\r\n").nth(1)?).ok()?))
}

/// Posts a transaction once the node replies, and returns the status.
fn post(network: &Network, node: u32, from: &str, to: &str, amount: u64, number: u64) -> u16 {
    let body = json!({"from": from, "to": to, "amount": amount, "number": number}).to_string();
    let until = Instant::now() + SOON;
    loop {
        match asked(network, node, "POST", "/transactions", &body) {
            Some((status, _)) => return status,
            None => assert!(Instant::now() < until, "node {node} does not reply"),
        }
        sleep(Duration::from_millis(50));
    }
}

fn balance(network: &Network, node: u32, name: &str) -> Option<(u64, u64)> {
    let account = &asked(network, node, "GET", "/balances", "")?.1["accounts"][name];
    Some((account["balance"].as_u64()?, account["next"].as_u64()?))
}

/// Waits until nodes show a balance, and the number of the account's next transaction.
fn wait_for(network: &Network, nodes: &[u32], name: &str, shown: (u64, u64)) {
    let until = Instant::now() + SOON;
    for node in nodes {
        while balance(network, *node, name) != Some(shown) {
            let seen = balance(network, *node, name);
            assert!(Instant::now() < until, "node {node} shows {seen:?} of {name}, and not {shown:?}");
            sleep(Duration::from_millis(50));
        }
    }
}

/// Waits until a node's state on the disk has a balance.
fn wait_for_stored(network: &Network, node: u32, name: &str, balance: u64) {
    let path = network.data(node).join("ledger.json");
    let stored = || serde_json::from_slice::<Value>(&fs::read(&path).ok()?).ok();
    let until = Instant::now() + SOON;
    while stored().is_none_or(|it| it["accounts"][name]["balance"] != balance) {
        assert!(Instant::now() < until, "{} has no balance of {balance}", path.display());
        sleep(Duration::from_millis(50));
    }
}

#[test]
fn four_nodes_apply_each_transaction_once_and_agree_on_balances() {
    const ALL: [u32; 4] = [0, 1, 2, 3];
    let mut network = network("ledger-http");
    // One transaction, sent to three nodes and again: each node may build a block with it.
    for node in [0, 1, 2, 0] {
        let status = post(&network, node, "treasury", "alice", 100, 0);
        assert!(status == 202 || status == 409, "{status}");
    }
    assert_eq!(
        post(&network, 3, "treasury", "bob", 50, 1),
        202,
        "the next one may overtake it, and waits then"
    );
    wait_for(&network, &ALL, "alice", (100, 0));
    wait_for(&network, &ALL, "treasury", (999_850, 2));
    // One that the account can't pay waits, and has no effect; nor has another one with its number.
    assert_eq!(post(&network, 1, "alice", "bob", 101, 0), 202);
    assert_eq!(post(&network, 1, "alice", "bob", 7, 0), 409);
    assert_eq!(post(&network, 2, "alice", "bob", 30, 0), 202);
    wait_for(&network, &ALL, "alice", (70, 1));
    wait_for(&network, &ALL, "bob", (80, 0));
    // A node that crashes comes back with all that the chain holds, and takes none of it twice: neither what it stored, nor what came later.
    wait_for_stored(&network, 1, "alice", 70);
    network.kill(1).expect("a process");
    assert_eq!(post(&network, 0, "treasury", "carol", 9, 2), 202);
    wait_for(&network, &[0, 2, 3], "carol", (9, 0));
    fs::remove_file(network.data(1).join("http")).expect("the endpoint's address");
    network.begin(1).expect("a process");
    assert_eq!(post(&network, 1, "treasury", "alice", 100, 0), 409);
    wait_for(&network, &ALL, "carol", (9, 0));
    wait_for(&network, &ALL, "alice", (70, 1));
    wait_for(&network, &ALL, "treasury", (999_841, 3));
    network.stop().expect("they stop");
    fs::remove_dir_all(network.folder()).expect("a folder");
}

/// Clients that begin a transaction and send no more of it.
#[test]
fn clients_that_are_slow_hold_up_no_other() {
    let mut network = network("ledger-http-slow");
    post(&network, 0, "treasury", "alice", 1, 0);
    let at = fs::read_to_string(network.data(0).join("http")).expect("an address");
    let slow = |length: u32| {
        let mut stream = TcpStream::connect(&at).expect("it listens");
        let head = format!("POST /transactions HTTP/1.1\r\nHost: node\r\nContent-Length: {length}\r\n\r\n{{");
        stream.write_all(head.as_bytes()).expect("it reads");
        stream
    };
    let begun = Instant::now();
    let open: Vec<TcpStream> = [500, 5000].into_iter().flat_map(|length| [length; 5]).map(slow).collect();
    assert_eq!(post(&network, 0, "treasury", "alice", 1, 1), 202);
    assert!(begun.elapsed() < Duration::from_secs(20), "{:?}", begun.elapsed());
    drop(open);
    network.stop().expect("they stop");
    fs::remove_dir_all(network.folder()).expect("a folder");
}

#[test]
fn what_is_no_transaction_is_refused_and_says_why() {
    let mut network = network("ledger-http-refusals");
    post(&network, 0, "treasury", "alice", 1, 0);
    let status = |method, path, body: &str| asked(&network, 0, method, path, body).map(|it| it.0);
    for body in [
        "",
        "{}",
        r#"{"from":"a","to":"b","amount":1,"number":0,"more":1}"#,
        r#"{"from":"A","to":"b","amount":1,"number":0}"#,
    ] {
        assert_eq!(status("POST", "/transactions", body), Some(400), "{body}");
    }
    assert_eq!(
        status("POST", "/transactions", r#"{"from":"a","to":"b","amount":0,"number":0}"#),
        Some(400)
    );
    assert_eq!(status("POST", "/transactions", &"7".repeat(2000)), Some(413));
    assert_eq!(status("GET", "/transactions", ""), Some(404));
    assert!(asked(&network, 0, "GET", "/height", "").is_some_and(|it| it.0 == 200 && it.1["height"].is_u64()));
    network.stop().expect("they stop");
    fs::remove_dir_all(network.folder()).expect("a folder");
}
