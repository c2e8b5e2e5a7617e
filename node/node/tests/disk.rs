//! A disk that refuses calls, and what a node has on the disk before it sends a vote: `disk/calls.c` is preloaded into its process.

mod members;
mod others;
mod stored;

use members::SOON;
use others::Others;
use simplex_node::audit::{contradictions, disagreements};
use simplex_node::network::{Network, Plan, folder_of};
use simplex_node::settings::{Protocol, Settings};
use simplex_view_state::Subject;
use simplex_wire::Message;
use std::collections::BTreeMap;
use std::fs::{self, OpenOptions};
use std::path::{Path, PathBuf};
use std::process::{Command, Output};
use std::sync::OnceLock;
use std::thread::sleep;
use std::time::{Duration, Instant};
use stored::has_stored;

/// How long a network gets that begins, or a node until it ends, on a machine that does much else.
const LONG: Duration = Duration::from_secs(180);
/// The numbers of errors: the disk is broken, or full.
const BROKEN: u32 = 5;
const FULL: u32 = 28;

/// The library, built once in a process.
fn library() -> &'static Path {
    static LIBRARY: OnceLock<PathBuf> = OnceLock::new();
    LIBRARY.get_or_init(|| {
        let source = Path::new(env!("CARGO_MANIFEST_DIR")).join("tests/disk/calls.c");
        let made = Path::new(env!("CARGO_TARGET_TMPDIR")).join(format!("calls-{}.so", std::process::id()));
        let done = Command::new("cc")
            .args(["-shared", "-fPIC", "-O2", "-o"])
            .arg(&made)
            .arg(source)
            .arg("-ldl")
            .output()
            .expect("a compiler of C");
        assert!(done.status.success(), "{}", String::from_utf8_lossy(&done.stderr));
        made
    })
}

/// The disk of node 0, whose calls are logged over all its lifetimes.
struct Disk {
    below: PathBuf,
    log: PathBuf,
}

impl Disk {
    fn of(network: &Network) -> Disk {
        Disk {
            below: network.folder().to_owned(),
            log: network.folder().join("0.calls"),
        }
    }

    /// Begins node 0 on a disk that refuses this, or nothing.
    fn begin(&self, network: &mut Network, refuses: Option<&str>) {
        network.begin_with_variables(0, &self.variables(refuses)).expect("a process");
    }

    fn variables(&self, refuses: Option<&str>) -> Vec<(&'static str, String)> {
        let text = |path: &Path| path.to_str().expect("a path of letters").to_owned();
        let mut variables = vec![
            ("LD_PRELOAD", text(library())),
            ("DISK_BELOW", text(&self.below)),
            ("DISK_LOG", text(&self.log)),
        ];
        variables.extend(refuses.map(|it| ("DISK_REFUSES", it.to_owned())));
        variables
    }

    /// The calls that succeeded, in order: the words of each.
    fn calls(&self) -> Vec<Vec<String>> {
        let text = fs::read_to_string(&self.log).expect("a log");
        let whole = text.split_inclusive('\n').filter(|it| it.ends_with('\n'));
        whole.map(|line| line.split_whitespace().map(str::to_owned).collect()).collect()
    }

    /// Cuts off what the disk was not seen to have of node 0's files, as a power cut may. The node must not run.
    fn lose_power(&self) {
        let mut synced: BTreeMap<String, u64> = BTreeMap::new();
        for call in self.calls() {
            match &call.iter().map(String::as_str).collect::<Vec<_>>()[..] {
                ["sync", file, length] => {
                    synced.insert((*file).to_owned(), length.parse().expect("a length"));
                }
                ["rename", from, to] => {
                    let length = synced.remove(*from);
                    synced.extend(length.map(|it| ((*to).to_owned(), it)));
                }
                ["remove", file] => {
                    synced.remove(*file);
                }
                _ => {}
            }
        }
        for (file, length) in synced {
            let path = self.below.join(file);
            if path.is_file() && fs::metadata(&path).expect("a file").len() > length {
                let file = OpenOptions::new().write(true).open(&path).expect("a file");
                file.set_len(length).expect("a disk");
            }
        }
    }
}

fn plan(name: &str) -> Plan {
    Plan {
        nodes: 4,
        protocol: Protocol {
            pace_ms: 5,
            leader_timeout_ms: 500,
            certification_timeout_ms: 1000,
            timeout_retry_ms: 250,
            inactivity_ms: 1500,
            ..Protocol::default()
        },
        sync: true,
        faults: Vec::new(),
        delay_ms: 0,
        program: env!("CARGO_BIN_EXE_simplex-node").into(),
        folder: folder_of(name),
    }
}

fn log(network: &Network) -> String {
    fs::read_to_string(network.log(0)).unwrap_or_default()
}

/// Waits until node 0 has ended by itself, and returns why.
fn ends(network: &mut Network, refusal: &str) -> String {
    let begun = Instant::now();
    while !network.has_ended(0).expect("a process") {
        assert!(begun.elapsed() < LONG, "{refusal}: the node continues");
        sleep(Duration::from_millis(20));
    }
    let log = log(network);
    let last = log.lines().rfind(|it| it.starts_with("simplex-node: "));
    last.unwrap_or_else(|| panic!("{refusal}: it says nothing: {log}")).to_owned()
}

/// All nodes finalize some views more, and node 0 has their blocks.
fn goes_on(network: &Network) {
    let all = [0, 1, 2, 3];
    let view = network.highest(&all) + 5;
    assert!(network.wait_for(&all, view, SOON), "view {view} is not finalized: {}", log(network));
    let height = network.metric(1, "height").expect("it replies");
    assert!(
        network.wait_until(&[0], "height", height, SOON),
        "height {height}: {}",
        log(network)
    );
}

/// Each of the last votes that node 0 sent is in its journal.
fn sent_votes_are_stored(network: &Network, refusal: &str) {
    let votes = network.votes().expect("traces");
    let own: Vec<_> = votes.iter().filter(|it| it.signer == 0).collect();
    let last = own.iter().map(|it| it.view).max().expect("it voted");
    for vote in own.iter().filter(|it| it.view + 2 >= last) {
        assert!(has_stored(network, vote), "{refusal}: it sent {vote:?}, and did not store that");
    }
}

/// Node 0's disk refuses each of these calls, one after another. It ends with an error that names the file and what to do; after a power
/// cut it has each vote that it sent, and continues.
fn ends_and_continues(name: &str, refusals: &[(String, &str)]) {
    let mut network = Network::new(plan(name)).expect("keys and settings");
    let disk = Disk::of(&network);
    (1..4).for_each(|index| network.begin(index).expect("a process"));
    disk.begin(&mut network, None);
    assert!(network.wait_for(&[0, 1, 2, 3], 5, LONG), "it does not begin: {}", log(&network));
    for (refusal, file) in refusals {
        network.kill(0).expect("a process");
        disk.begin(&mut network, Some(refusal));
        let said = ends(&mut network, refusal);
        let named = network.data(0).join(file).display().to_string();
        assert!(
            said.contains(&named) && said.contains("then start again"),
            "{refusal}: {named} in: {said}"
        );
        disk.lose_power();
        sent_votes_are_stored(&network, refusal);
        disk.begin(&mut network, None);
        goes_on(&network);
    }
    network.stop().expect("they stop");
    assert_eq!(disagreements(&network.chains().expect("chains")), Vec::<String>::new());
    let votes = network.votes().expect("traces");
    assert_eq!(contradictions(votes.iter(), 1), Vec::<String>::new());
    fs::remove_dir_all(network.folder()).expect("a folder");
}

fn refusal<'a>(call: &str, of: &str, nth: u32, error: u32, named: &'a str) -> (String, &'a str) {
    (format!("{call} 0/{of} {nth} {error}"), named)
}

#[test]
fn a_node_whose_journal_cannot_be_appended_sends_no_vote_that_is_not_stored() {
    ends_and_continues(
        "disk-journal",
        &[
            refusal("write", "journal", 20, BROKEN, "journal"),
            refusal("write", "journal", 20, FULL, "journal"),
            refusal("sync", "journal", 20, BROKEN, "journal"),
        ],
    );
}

#[test]
fn a_node_whose_journal_cannot_be_replaced_ends_and_has_the_old_one() {
    ends_and_continues(
        "disk-replaced",
        &[
            refusal("write", "journal.new", 1, FULL, "journal"),
            refusal("sync", "journal.new", 1, BROKEN, "journal"),
            refusal("rename", "journal.new", 1, BROKEN, "journal"),
        ],
    );
}

#[test]
fn a_node_whose_blocks_or_archive_cannot_be_stored_ends_and_loses_none() {
    ends_and_continues(
        "disk-blocks",
        &[
            refusal("write", "blocks/*", 20, BROKEN, "blocks"),
            refusal("sync", "blocks/*", 20, BROKEN, "blocks"),
            refusal("write", "archive/*", 20, BROKEN, "archive"),
            refusal("write", "archive/*", 20, FULL, "archive"),
            refusal("sync", "archive/*", 2, BROKEN, "archive"),
        ],
    );
}

#[test]
fn a_node_whose_application_cannot_store_its_chain_ends_and_loses_no_block() {
    ends_and_continues(
        "disk-chain",
        &[
            refusal("write", "chain", 20, BROKEN, "chain"),
            refusal("write", "chain", 20, FULL, "chain"),
            refusal("sync", "chain", 2, BROKEN, "chain"),
        ],
    );
}

/// The folder of a file, by names relative to the network's folder.
fn folder_of_file(file: &str) -> &str {
    file.rsplit_once('/').map_or(".", |it| it.0)
}

/// The files and folders that were made, or got their names, after the last sync of their folder.
fn without_name(calls: &[Vec<String>]) -> Vec<&str> {
    let mut open = Vec::new();
    for call in calls {
        match &call.iter().map(String::as_str).collect::<Vec<_>>()[..] {
            ["make" | "folder", file] => open.push(*file),
            ["rename", from, to] => {
                open.retain(|it| it != from);
                open.push(*to);
            }
            ["remove", file] => open.retain(|it| it != file),
            ["sync", folder, _] => open.retain(|it| folder_of_file(it) != *folder),
            _ => {}
        }
    }
    // (nothing depends on these after a power cut: a lock, an audit's votes, records that each start writes again)
    open.retain(|it| !["lock", "0.votes", "chain.records"].iter().any(|end| it.ends_with(end)));
    open
}

/// The files that were written to more than once before their folder was synced: the first write is a segment's head.
fn written_without_name(calls: &[Vec<String>]) -> Vec<&str> {
    let (mut writes, mut early) = (BTreeMap::new(), Vec::new());
    for (at, call) in calls.iter().enumerate() {
        match &call.iter().map(String::as_str).collect::<Vec<_>>()[..] {
            ["make", file] => {
                writes.insert(*file, 0);
            }
            ["write", file] if without_name(&calls[..at]).contains(file) => {
                let count = writes.entry(*file).or_insert(0);
                *count += 1;
                if *count > 1 && !file.ends_with(".new") {
                    early.push(*file);
                }
            }
            _ => {}
        }
    }
    early
}

/// A machine that loses power may forget a file whose folder was not synced, and with it votes that were sent.
#[test]
fn each_new_file_has_its_name_on_the_disk_before_a_vote_leaves() {
    let mut disk = None;
    let mut others = Others::around_a_node_begun_by("disk-names", |_| (), |network| disk.insert(Disk::of(network)).begin(network, None));
    let disk = disk.expect("it was begun");
    others.nullify(1);
    let (vote, block) = others.proposal(2, 1, 7);
    others.send(1, &Message::Proposal(vote, block.bytes().to_vec()));
    let of_second = |message: &Message| matches!(message, Message::Vote(it) if it.subject.round().view.get() == 2);
    assert!(others.hears(SOON, |_, message| of_second(message)), "it does not vote");
    let calls = disk.calls();
    let made = |file: &str| calls.iter().any(|it| it[0] == "make" && it[1].starts_with(file));
    assert!(made("0/journal.new") && made("0/blocks/0"), "{calls:?}");
    assert_eq!(without_name(&calls), Vec::<&str>::new(), "{calls:?}");
    assert_eq!(written_without_name(&calls), Vec::<&str>::new(), "{calls:?}");
    others.end();
}

/// A process that is killed leaves records that the system has, and the disk has not: no vote may depend on them.
#[test]
fn what_an_earlier_process_wrote_is_synced_at_the_start() {
    let alone = Plan {
        nodes: 1,
        ..plan("disk-earlier")
    };
    let mut network = Network::new(alone).expect("keys and settings");
    let disk = Disk::of(&network);
    disk.begin(&mut network, None);
    assert!(network.wait_until(&[0], "height", 10, LONG), "{}", log(&network));
    network.kill(0).expect("a process");
    let before = disk.calls().len();
    disk.begin(&mut network, None);
    assert!(network.wait_until(&[0], "current_view", 10, LONG), "{}", log(&network));
    for folder in ["0/blocks/", "0/archive/"] {
        let calls = disk.calls();
        let first = calls[before..].iter().find(|it| it[1].starts_with(folder));
        assert!(first.is_some_and(|it| it[0] == "sync"), "{folder}: {first:?}");
    }
    network.stop().expect("it stops");
    fs::remove_dir_all(network.folder()).expect("a folder");
}

/// Runs `simplex-node init` of node 0, which is killed at the call of this number.
fn init(network: &Network, disk: &Disk, kills: Option<u32>) -> Output {
    let mut variables = disk.variables(None);
    variables.extend(kills.map(|it| ("DISK_KILLS", it.to_string())));
    Command::new(env!("CARGO_BIN_EXE_simplex-node"))
        .args(["init", "--config"])
        .arg(network.config(0))
        .envs(variables)
        .output()
        .expect("a process")
}

/// `simplex-node init` makes what a node can't make again: the journal, and the folders above it.
#[test]
fn a_folder_that_init_made_is_on_the_disk() {
    let mut network = Network::new(plan("disk-init")).expect("keys and settings");
    network.set(0, |it| it.data = "deep/er/0".into()).expect("settings");
    let disk = Disk::of(&network);
    let done = init(&network, &disk, None);
    assert!(done.status.success(), "{}", String::from_utf8_lossy(&done.stderr));
    let calls = disk.calls();
    assert!(
        calls.iter().any(|it| it[0] == "rename" && it[2] == "deep/er/0/journal"),
        "{calls:?}"
    );
    assert_eq!(without_name(&calls), Vec::<&str>::new(), "{calls:?}");
    fs::remove_dir_all(network.folder()).expect("a folder");
}

/// Wherever `simplex-node init` is killed, the next one makes the folder, all of which is on the disk then. Once the journal has its name
/// the next one says to run the node.
#[test]
fn an_init_that_was_killed_at_any_call_is_made_again() {
    let mut network = Network::new(plan("disk-init-killed")).expect("keys and settings");
    let disk = Disk::of(&network);
    let mut refused = 0;
    let calls_of_init = (1..).find(|kills| {
        let data = PathBuf::from(format!("deep{kills}/er/0"));
        network.set(0, |it| it.data = data.clone()).expect("settings");
        if init(&network, &disk, Some(*kills)).status.success() {
            return true;
        }
        let is_named = network.folder().join(&data).join("journal").exists();
        let again = init(&network, &disk, None);
        let said = String::from_utf8_lossy(&again.stderr).into_owned();
        assert_eq!(again.status.success(), !is_named, "killed at call {kills}: {said}");
        assert!(!is_named || said.contains("runs without init"), "killed at call {kills}: {said}");
        refused += u32::from(is_named);
        let identity = Settings::read(&network.config(0)).and_then(|it| it.identity()).expect("settings");
        let made = simplex_journal::read(&network.folder().join(&data), &identity).expect("its own");
        assert_eq!(made.expect("a journal").stored.entries.get(), 0);
        let calls = disk.calls();
        let open = without_name(&calls)
            .into_iter()
            .filter(|it| Path::new(it).starts_with(data.components().next().expect("a name")));
        assert!(is_named || open.count() == 0, "killed at call {kills}: {calls:?}");
        false
    });
    assert!(calls_of_init > Some(10) && refused == 1, "{calls_of_init:?}, {refused} refused");
    fs::remove_dir_all(network.folder()).expect("a folder");
}

/// The application's thread verifies and judges blocks, and each second it says what the disk has of the chain.
#[test]
fn a_disk_that_stores_the_chain_slowly_holds_up_no_vote() {
    let mut others = Others::around_a_node_begun_by(
        "disk-slow-chain",
        |_| (),
        |network| {
            let mut variables = Disk::of(network).variables(None);
            variables.push(("DISK_DELAYS", "0/chain 600000".to_owned()));
            network.begin_with_variables(0, &variables).expect("a process");
        },
    );
    let blocks = members::chain(others.genesis, 1..5, 256);
    let (first, proposal) = &blocks[0];
    let certificate = others.certificate(&[1, 2, 3], Subject::Finalize(*proposal));
    others.gives(&certificate, first);
    others.comes_to("height", 1);
    for (leader, (block, proposal)) in (1..).zip(&blocks[1..]) {
        // (so long after the last time it is asked again)
        sleep(Duration::from_millis(1100));
        let vote = others.vote(leader, Subject::Notarize(*proposal));
        others.send(leader, &Message::Proposal(vote.clone(), block.bytes().to_vec()));
        let is_voted = others.hears(
            SOON,
            |_, message| matches!(message, Message::Vote(it) if it.subject == vote.subject),
        );
        assert!(is_voted, "it does not vote in view {}: {}", block.view, log(&others.network));
        let certificate = others.certificate(&[1, 2, 3], vote.subject);
        others.send(1, &Message::Certificate(certificate));
    }
    others.end();
}

/// Blocks that wait for the disk are not archived yet.
#[test]
fn the_lag_counts_what_the_disk_has() {
    let alone = Plan {
        nodes: 1,
        ..plan("disk-lag")
    };
    let mut network = Network::new(alone).expect("keys and settings");
    let mut variables = Disk::of(&network).variables(None);
    variables.push(("DISK_DELAYS", "0/archive/* 600000".to_owned()));
    network.begin_with_variables(0, &variables).expect("a process");
    assert!(network.wait_until(&[0], "lag_views", 20, SOON), "{}", log(&network));
    network.kill(0).expect("a process");
    network.begin(0).expect("a process");
    assert!(network.wait_until(&[0], "height", 30, SOON), "{}", log(&network));
    network.stop().expect("it stops");
    fs::remove_dir_all(network.folder()).expect("a folder");
}
