//! The examples: nodes with an application of thirty lines, and a host made of the parts.

use simplex_node::network::{Network, Plan, folder_of};
use simplex_node::settings::Protocol;
use std::fs;
use std::path::{Path, PathBuf};
use std::process::Command;
use std::thread::sleep;
use std::time::Duration;

/// Within what time something has to be seen, on a machine that does much else.
const SOON: Duration = Duration::from_secs(120);

/// An example's program, which `cargo test` builds beside the others.
fn program(name: &str) -> PathBuf {
    let beside = Path::new(env!("CARGO_BIN_EXE_simplex-node")).with_file_name("examples");
    let program = beside.join(name);
    assert!(program.exists(), "{}: build it by `cargo build --examples`", program.display());
    program
}

/// Returns what a node's application printed in all its lifetimes.
fn printed(network: &Network, index: u32) -> Vec<String> {
    let log = fs::read_to_string(network.log(index)).expect("a log");
    let lines = log.lines().filter(|it| it.contains("hello from member"));
    lines.map(str::to_owned).collect()
}

/// Lets the archive drop blocks early.
fn keep_little(settings: &mut simplex_node::Settings) {
    settings.archive.segment_bytes = 2000;
    settings.archive.most_bytes = Some(5000);
}

#[test]
fn four_nodes_order_the_blocks_of_an_application_of_thirty_lines() {
    let plan = Plan {
        nodes: 4,
        protocol: Protocol::default(),
        sync: true,
        faults: Vec::new(),
        delay_ms: 0,
        program: program("thirty_lines"),
        folder: folder_of("library"),
    };
    let mut network = Network::new(plan).expect("keys and settings");
    // The application has nothing on the disk, so the archive drops no block, however long it gets.
    (0..4).for_each(|index| network.set(index, keep_little).expect("settings"));
    network.begin_all().expect("processes");
    let log = |network: &Network| fs::read_to_string(network.log(0)).unwrap_or_default();
    assert!(network.wait_until(&[0, 1, 2, 3], "height", 60, SOON), "{}", log(&network));
    let archive = network.metric(0, "archive_bytes").expect("a reply");
    assert!(archive > 10_000, "{archive} bytes");
    // It stores nothing, so its next lifetime prints the chain from the first block on.
    network.kill(0).expect("a process");
    let before = printed(&network, 0);
    network.begin(0).expect("a process");
    assert!(
        network.wait_until(&[0], "height", before.len() as u64 + 5, SOON),
        "{}",
        log(&network)
    );
    network.stop().expect("they stop");
    let again = printed(&network, 0).split_off(before.len());
    assert_eq!(again[..before.len()], before);
    for index in 1..4 {
        let other = printed(&network, index);
        let both = other.len().min(again.len());
        assert!(both >= 60 && other[..both] == again[..both], "node {index}: {other:?}");
    }
    fs::remove_dir_all(network.folder()).expect("a folder");
}

/// Kills four nodes at once. The first two vote to nullify their view before the other two are there, so a certified block may stay without
/// a finalization.
fn crash_all(network: &mut Network, first: [u32; 2], second: [u32; 2]) {
    let ids = [0, 1, 2, 3].map(|index| network.process(index).expect("it runs").to_string());
    assert!(Command::new("kill").arg("-KILL").args(ids).status().expect("a program").success());
    (0..4).for_each(|index| network.kill(index).expect("it is waited for"));
    first.iter().for_each(|index| network.begin(*index).expect("a process"));
    sleep(Duration::from_millis(700));
    second.iter().for_each(|index| network.begin(*index).expect("a process"));
}

/// The application replies only where it is shown all ancestors; and after a crash of all nodes none of them remembers a block.
#[test]
fn four_nodes_continue_after_each_crash_of_all_of_them_with_an_application_that_needs_all_ancestors() {
    const ALL: [u32; 4] = [0, 1, 2, 3];
    const CRASHES: u64 = 12;
    let plan = Plan {
        nodes: 4,
        protocol: Protocol {
            leader_timeout_ms: 300,
            certification_timeout_ms: 600,
            timeout_retry_ms: 200,
            inactivity_ms: 1500,
            ..Protocol::default()
        },
        sync: true,
        faults: Vec::new(),
        delay_ms: 0,
        program: program("numbered"),
        folder: folder_of("numbered"),
    };
    let mut network = Network::new(plan).expect("keys and settings");
    network.begin_all().expect("processes");
    let logs = |network: &Network| ALL.map(|index| fs::read_to_string(network.log(index)).unwrap_or_default()).concat();
    let mut height = 0;
    for crash in 1..=CRASHES {
        assert!(
            network.wait_until(&ALL, "height", height + 5, SOON),
            "crash {crash}, height {height}: {}",
            logs(&network)
        );
        sleep(Duration::from_millis(7 * crash)); // at another point of a view each time
        let heights = ALL.iter().filter_map(|index| network.metric(*index, "height"));
        height = heights.max().expect("they reply");
        let (first, second) = if crash % 2 == 0 { ([0, 1], [2, 3]) } else { ([2, 3], [0, 1]) };
        crash_all(&mut network, first, second);
    }
    assert!(network.wait_until(&ALL, "height", height + 5, SOON), "{}", logs(&network));
    network.stop().expect("they stop");
    let logs = logs(&network);
    assert!(!logs.contains("and the parent is of view"), "{logs}");
    fs::remove_dir_all(network.folder()).expect("a folder");
}

#[test]
fn four_hosts_of_parts_deliver_the_same_blocks() {
    let folder = std::env::temp_dir().join(format!("simplex-parts-{}", std::process::id()));
    // (a member that fetches missing blocks too often is cut off, and never has all)
    let run = || {
        let mut command = Command::new("timeout");
        command
            .arg("120")
            .arg(program("with_parts"))
            .arg(&folder)
            .output()
            .expect("a program")
    };
    let done = run();
    let (printed, said) = (String::from_utf8_lossy(&done.stdout), String::from_utf8_lossy(&done.stderr));
    assert!(done.status.success() && printed.lines().count() == 60, "{printed}{said}");
    assert!((0..4).all(|index| folder.join(index.to_string()).join("journal").is_file()));
    // Its blocks are gone with the process, so it takes no folder twice, and leaves that as it is.
    let again = run();
    assert!(!again.status.success() && String::from_utf8_lossy(&again.stderr).contains("name a folder"));
    fs::remove_dir_all(folder).expect("a folder");
}
