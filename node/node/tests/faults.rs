//! Networks of processes under faults. After each: the finalized chains agree, no honest node signed two votes that contradict each other,
//! and views are finalized again soon.
//!
//! `SIMPLEX_LONG=1` kills fifty times in place of six.

mod stored;

use simplex_node::audit::{contradictions, disagreements};
use simplex_node::faults::Fault;
use simplex_node::ledger::Link;
use simplex_node::network::{Network, Plan, folder_of};
use simplex_node::settings::Protocol;
use simplex_node::trace;
use simplex_node::trace::Line;
use simplex_wire::LONGEST_BLOCK;
use std::fs;
use std::path::Path;
use std::process::{Command, Stdio};
use std::thread::sleep;
use std::time::{Duration, Instant};
use stored::has_stored;

/// Within what time something has to be finalized after each fault.
const SOON: Duration = Duration::from_secs(60);
/// How long a network gets that begins, on a machine that does much else.
const START: Duration = Duration::from_secs(180);

fn plan(name: &str, nodes: u32) -> Plan {
    Plan {
        nodes,
        protocol: Protocol {
            pace_ms: 5,
            leader_timeout_ms: 500,
            certification_timeout_ms: 1000,
            timeout_retry_ms: 250,
            inactivity_ms: 1500,
            ..Protocol::default()
        },
        sync: true,
        faults: Vec::new(),
        delay_ms: 0,
        program: env!("CARGO_BIN_EXE_simplex-node").into(),
        folder: folder_of(name),
    }
}

fn begun(plan: Plan) -> Network {
    let mut network = Network::new(plan).expect("keys and settings");
    network.begin_all().expect("processes");
    assert!(
        network.wait_for(&network.honest(), 5, START),
        "it does not begin: {}",
        logs(&network)
    );
    network
}

fn logs(network: &Network) -> String {
    let last = |index| {
        fs::read_to_string(network.log(index))
            .unwrap_or_default()
            .lines()
            .rev()
            .take(5)
            .collect::<Vec<_>>()
            .join("\n")
    };
    (0..network.lives.len() as u32).map(last).collect::<Vec<_>>().join("\n--\n")
}

/// These nodes continue: they all finalize some views more.
fn goes_on(network: &Network, nodes: &[u32]) {
    let view = network.highest(nodes) + 5;
    assert!(
        network.wait_for(nodes, view, SOON),
        "view {view} is not finalized: {}",
        logs(network)
    );
}

/// These nodes finalize nothing for two seconds, once what was on its way has come.
fn stands_still(network: &Network, nodes: &[u32]) {
    let begun = Instant::now();
    loop {
        let before = network.highest(nodes);
        sleep(Duration::from_secs(2));
        if network.highest(nodes) == before {
            return;
        }
        assert!(begun.elapsed() < SOON, "two of four finalize views");
    }
}

/// Ends a network whose honest nodes have to agree.
fn ends_well(mut network: Network, term_length: u64) {
    network.stop().expect("they stop");
    let chains = network.chains().expect("chains");
    assert_eq!(disagreements(&chains), Vec::<String>::new());
    let (votes, honest) = (network.votes().expect("traces"), network.honest());
    let of_honest: Vec<_> = votes.iter().filter(|vote| honest.contains(&vote.signer)).collect();
    assert!(of_honest.len() > 20, "votes were seen");
    assert_eq!(contradictions(of_honest.into_iter(), term_length), Vec::<String>::new());
    fs::remove_dir_all(network.folder()).expect("a folder");
}

fn with_fault(name: &str, fault: Fault) {
    let network = begun(Plan {
        faults: vec![(3, fault)],
        ..plan(name, 4)
    });
    for _ in 0..3 {
        goes_on(&network, &network.honest());
    }
    ends_well(network, 1);
}

/// Too few of seven members get one of the two blocks for a certificate: each honest one learns of the other from its peers.
#[test]
fn a_leader_that_proposes_twice_is_seen_by_each_honest_node() {
    for nodes in [4, 7] {
        let network = begun(Plan {
            faults: vec![(nodes - 1, Fault::Equivocates)],
            ..plan(&format!("twice-{nodes}"), nodes)
        });
        goes_on(&network, &network.honest());
        assert!(
            network.wait_until(&network.honest(), "equivocations", 2, START),
            "{}",
            logs(&network)
        );
        for index in network.honest() {
            let log = fs::read_to_string(network.log(index)).expect("a log");
            let evidence: Vec<&str> = log.lines().filter(|it| it.contains("two votes of one member")).collect();
            let is_of_leader = |it: &&str| it.contains("first_signature") && it.contains(&format!("signer={} ", nodes - 1));
            assert!(!evidence.is_empty() && evidence.iter().all(is_of_leader), "node {index}: {log}");
            let file = simplex_node::evidence::path(&network.data(index));
            let said = run(&["evidence", "--config", text_of(&network.config(0)), text_of(&file)], true);
            let is_shown = |it: &str| it.starts_with(&format!("member {} signed two votes to notarize in view ", nodes - 1));
            assert!(said.lines().count() > 0 && said.lines().all(is_shown), "node {index}: {said}");
            let other = format!("{}.other", text_of(&file));
            let text = fs::read_to_string(&file).expect("a file");
            let (line, rest) = text.split_once('\n').expect("a line");
            let (line, digit) = line.split_at(line.len() - 1);
            fs::write(&other, format!("{line}{}\n{rest}", if digit == "0" { 1 } else { 0 })).expect("a disk");
            let said = run(&["evidence", "--config", text_of(&network.config(0)), &other], false);
            assert!(said.contains("line 1: ") && said.contains("1 of "), "{said}");
        }
        ends_well(network, 1);
    }
}

/// Node 3's application builds blocks that are too long to be sent: they are not proposed, and it says why.
#[test]
fn a_block_that_no_peer_would_take_is_an_error_of_who_built_it() {
    let mut oversized = plan("oversized", 4);
    // (a debug build needs a second to hash such a block, and the engine cancels a block that comes too late)
    oversized.protocol.leader_timeout_ms = 4000;
    oversized.protocol.certification_timeout_ms = 5000;
    oversized.protocol.inactivity_ms = 8000;
    let mut network = Network::new(oversized).expect("keys and settings");
    network
        .set(3, |it| it.trial.block_bytes = Some(LONGEST_BLOCK + 1))
        .expect("settings");
    network.begin_all().expect("processes");
    assert!(network.wait_until(&[3], "oversized_blocks", 2, START), "{}", logs(&network));
    goes_on(&network, &[0, 1, 2]);
    let said = fs::read_to_string(network.log(3)).expect("a log");
    assert!(said.contains("ERROR") && said.contains("a block that no peer would take"), "{said}");
    ends_well(network, 1);
}

#[test]
fn a_leader_that_is_silent() {
    with_fault("silent", Fault::Silent);
}

#[test]
fn a_node_that_sends_garbage() {
    with_fault("garbage", Fault::Garbage);
}

#[test]
fn a_node_that_sends_old_votes_again() {
    with_fault("replays", Fault::Replays);
}

#[test]
fn a_node_that_votes_in_the_names_of_others() {
    with_fault("forges", Fault::Forges);
}

/// Node 3 is away, so each of its views ends once the three others have timed out. In the hundredth of all views, which is one of them,
/// node 1's clock jumps: that costs one timeout there, as ever. A clock that fell would not time out until it is where it was.
#[test]
fn a_clock_that_jumps_an_hour() {
    let mut jumps = plan("jumps", 4);
    jumps.faults = vec![(1, Fault::Jumps)];
    jumps.protocol.leader_timeout_ms = 300;
    jumps.protocol.inactivity_ms = 60_000;
    let mut network = Network::new(jumps).expect("keys and settings");
    (0..3).for_each(|index| network.begin(index).expect("a process"));
    let given_up = |index| network.metric(index, "nullifies").expect("a reply");
    let begun = Instant::now();
    let [first, half, before, after, last] = [2, 50, 98, 102, 150].map(|view| {
        assert!(network.wait_for(&[0, 1, 2], view, START), "view {view}: {}", logs(&network));
        (begun.elapsed(), (0..3).map(given_up).sum::<u64>())
    });
    assert!(fs::read_to_string(network.log(1)).expect("a log").contains("the clock jumps"));
    assert!(after.0 - before.0 < before.0 / 2, "views stood still: {before:?}, {after:?}");
    assert!(after.1 - before.1 <= 40, "votes to nullify at the jump: {before:?}, {after:?}");
    // Of each 48 views 12 are node 3's, with a vote of each of the others.
    let (least, most) = (half.1 - first.1, last.1 - after.1);
    assert!(
        most <= 2 * least + 40,
        "votes to nullify before the jump: {least}, behind it: {most}"
    );
    ends_well(network, 1);
}

#[test]
fn links_that_are_slow() {
    let network = begun(Plan {
        delay_ms: 40,
        ..plan("slow", 4)
    });
    goes_on(&network, &network.honest());
    ends_well(network, 1);
}

#[test]
fn terms_of_some_views_voted_ahead() {
    let mut terms = plan("terms", 4);
    terms.protocol.term_length = 4.try_into().expect("not 0");
    terms.protocol.optimistic_views = 2;
    let mut network = begun(terms);
    network.kill(1).expect("a process");
    goes_on(&network, &[0, 2, 3]);
    network.begin(1).expect("a process");
    goes_on(&network, &[0, 1, 2, 3]);
    ends_well(network, 4);
}

#[test]
fn nodes_that_are_killed_again_and_again() {
    let kills = if std::env::var_os("SIMPLEX_LONG").is_some() { 50 } else { 6 };
    let mut network = begun(plan("killed", 4));
    for turn in 0..kills {
        let victim = turn % 4;
        sleep(Duration::from_millis(u64::from(turn * 37 % 200)));
        network.kill(victim).expect("a process");
        network.tear(victim, 1 + turn as usize * 7 % 40).expect("a journal");
        let others: Vec<u32> = (0..4).filter(|it| *it != victim).collect();
        goes_on(&network, &others);
        network.begin(victim).expect("a process");
        goes_on(&network, &[0, 1, 2, 3]);
    }
    ends_well(network, 1);
}

#[test]
fn records_that_are_made_short_within_a_lifetime() {
    let mut quick = plan("short", 4);
    quick.protocol.pace_ms = 0;
    let mut network = begun(quick);
    assert!(network.wait_for(&[0, 1, 2, 3], 900, 2 * START), "{}", logs(&network));
    for index in 0..4 {
        assert!(network.metric(index, "compactions").is_some_and(|it| it > 0), "node {index}");
        assert!(network.metric(index, "record_entries").is_some_and(|it| it < 3000), "node {index}");
        // What is on the disk gets short too.
        let bytes = fs::metadata(simplex_journal::path(&network.data(index))).expect("a journal").len();
        assert!(bytes < 600_000, "node {index}: {bytes} bytes");
    }
    for victim in 0..4 {
        network.kill(victim).expect("a process");
        network.tear(victim, 20).expect("a journal");
        network.begin(victim).expect("a process");
        goes_on(&network, &[0, 1, 2, 3]);
    }
    ends_well(network, 1);
}

#[test]
fn all_killed_at_once() {
    let mut network = begun(plan("all", 4));
    (0..4).for_each(|index| network.kill(index).expect("a process"));
    network.begin_all().expect("processes");
    assert!(network.wait_for(&[0, 1, 2, 3], 6, START), "{}", logs(&network));
    goes_on(&network, &[0, 1, 2, 3]);
    ends_well(network, 1);
}

#[test]
fn two_against_two_until_they_are_joined() {
    let network = begun(plan("parted", 4));
    network.cut(Some((&[0, 1], &[2, 3]))).expect("files");
    stands_still(&network, &[0, 1, 2, 3]);
    network.cut(None).expect("files");
    goes_on(&network, &[0, 1, 2, 3]);
    ends_well(network, 1);
}

#[test]
fn fewer_than_a_quorum() {
    let mut network = begun(plan("few", 4));
    network.kill(0).expect("a process");
    network.kill(1).expect("a process");
    stands_still(&network, &[2, 3]);
    assert!(!network.has_ended(2).expect("a process") && !network.has_ended(3).expect("a process"));
    network.begin(0).expect("a process");
    goes_on(&network, &[0, 2, 3]);
    ends_well(network, 1);
}

#[test]
fn a_disk_that_is_full() {
    let mut network = Network::new(plan("full", 4)).expect("keys and settings");
    // It would be its trace that fills the disk first.
    network.set(0, |it| it.trace = None).expect("settings");
    network.begin_on_small_disk(0, 200).expect("a process");
    (1..4).for_each(|index| network.begin(index).expect("a process"));
    assert!(network.wait_for(&[1, 2, 3], 5, START), "{}", logs(&network));
    let begun = Instant::now();
    while !network.has_ended(0).expect("a process") {
        assert!(begun.elapsed() < START, "it can't store, so it must not continue");
        sleep(Duration::from_millis(100));
    }
    assert!(fs::read_to_string(network.log(0)).expect("a log").contains("simplex-node: "));
    goes_on(&network, &[1, 2, 3]);
    let votes = network.votes().expect("traces");
    let of_it: Vec<&Line> = votes.iter().filter(|it| it.signer == 0).collect();
    let last = of_it.iter().map(|it| it.view).max().expect("it voted");
    for vote in of_it.iter().filter(|it| it.view + 1 >= last) {
        assert!(has_stored(&network, vote), "it sent {vote:?}, and did not store that");
    }
    network.begin(0).expect("a process");
    goes_on(&network, &[0, 1, 2, 3]);
    ends_well(network, 1);
}

#[test]
fn a_node_that_joins_late_from_a_floor() {
    let mut network = Network::new(plan("late", 4)).expect("keys and settings");
    (0..3).for_each(|index| network.begin(index).expect("a process"));
    assert!(network.wait_for(&[0, 1, 2], 40, START), "{}", logs(&network));
    network.kill(0).expect("a process");
    let floor = network.data(3).with_extension("floor");
    run(&["floor", "--config", text_of(&network.config(0)), "--out", text_of(&floor)], true);
    network.begin(0).expect("a process");
    // What is finalized between the floor and its first view it has to ask for.
    assert!(network.wait_for(&[0, 1, 2], 80, START), "{}", logs(&network));
    network.set(3, |it| it.floor = Some("3.floor".into())).expect("settings");
    network.begin(3).expect("a process");
    goes_on(&network, &[0, 1, 2, 3]);
    network.kill(3).expect("a process");
    network.begin(3).expect("a process");
    goes_on(&network, &[0, 1, 2, 3]);
    // Views are finalized by certificates alone: the blocks from the floor on may still be on their way.
    assert!(network.wait_until(&[3], "height", 1, SOON), "no block comes: {}", logs(&network));
    let chains = network.chains().expect("chains");
    assert!(chains[3][0].view > 30, "it began at the floor");
    ends_well(network, 1);
}

#[test]
fn a_journal_that_is_damaged_is_refused() {
    let mut network = begun(plan("damaged", 4));
    network.kill(2).expect("a process");
    let path = simplex_journal::path(&network.data(2));
    let mut bytes = fs::read(&path).expect("a journal");
    let middle = bytes.len() / 2;
    bytes[middle] ^= 1;
    fs::write(&path, bytes).expect("a disk");
    run(&["--config", text_of(&network.config(2))], false);
    goes_on(&network, &[0, 1, 3]);
    ends_well(network, 1);
}

#[test]
fn a_second_process_with_one_key_is_refused() {
    let network = begun(plan("second", 4));
    let said = run(&["--config", text_of(&network.config(1))], false);
    assert!(said.contains("another process"), "{said}");
    ends_well(network, 1);
}

#[test]
fn the_audit_finds_what_a_faulty_node_signs() {
    let network = begun(Plan {
        faults: vec![(3, Fault::Equivocates)],
        ..plan("audit", 4)
    });
    goes_on(&network, &network.honest());
    let folder = network.folder().to_owned();
    let seen: Vec<_> = (0..4)
        .flat_map(|index| trace::read(&folder.join(format!("{index}.votes"))).expect("a trace"))
        .collect();
    let of_faulty = seen.iter().filter(|vote| vote.signer == 3);
    assert!(!contradictions(of_faulty, 1).is_empty(), "it signed two proposals in its views");
    ends_well(network, 1);
}

fn text_of(path: &Path) -> &str {
    path.to_str().expect("a path of letters")
}

/// Runs the program, which has to end soon, and returns what it wrote.
fn run(arguments: &[&str], is_good: bool) -> String {
    let mut child = Command::new(env!("CARGO_BIN_EXE_simplex-node"))
        .args(arguments)
        .stdout(Stdio::piped())
        .stderr(Stdio::piped())
        .spawn()
        .expect("a process");
    let begun = Instant::now();
    while child.try_wait().expect("a process").is_none() {
        if begun.elapsed() > SOON {
            child.kill().expect("a process");
            panic!("it continues: {arguments:?}");
        }
        sleep(Duration::from_millis(20));
    }
    let done = child.wait_with_output().expect("a process");
    let said = String::from_utf8_lossy(&[done.stdout, done.stderr].concat()).into_owned();
    assert_eq!(done.status.success(), is_good, "{said}");
    said
}

/// Node 3's application takes a minute for each reply, unless nobody waits for it any more: it votes for no block, and the node follows.
#[test]
fn an_application_that_is_slow_holds_up_its_own_votes_alone() {
    let mut network = Network::new(plan("application", 4)).expect("keys and settings");
    network.set(3, |it| it.trial.application_ms = 60_000).expect("settings");
    network.begin_all().expect("processes");
    assert!(network.wait_for(&[0, 1, 2, 3], 5, START), "{}", logs(&network));
    for _ in 0..2 {
        goes_on(&network, &[0, 1, 2, 3]);
        let height = network.metric(0, "height").expect("a reply");
        assert!(network.wait_until(&[3], "height", height, SOON), "{}", logs(&network));
    }
    assert_eq!(network.metric(3, "proposals"), Some(0));
    ends_well(network, 1);
}

/// Builds the chain of so many nodes, each with this time between its blocks, and returns its links.
fn paced(name: &str, nodes: u32, pace_ms: u64, views: u64) -> Vec<Link> {
    let mut paced = plan(name, nodes);
    paced.protocol.pace_ms = pace_ms;
    let network = begun(paced);
    assert!(network.wait_for(&[0], network.highest(&[0]) + views, START), "{}", logs(&network));
    assert!(network.wait_until(&[0], "height", views, SOON), "{}", logs(&network));
    let chain = network.chains().expect("chains").remove(0);
    ends_well(network, 1);
    chain
}

/// When a block was built, in microseconds.
fn built(link: &Link) -> u64 {
    link.taken_us - link.latency_us
}

#[test]
fn two_blocks_of_a_node_are_a_pace_apart() {
    let chain = paced("pace", 1, 50, 12);
    assert!(chain.len() >= 12);
    for (one, next) in chain.iter().zip(&chain[1..]) {
        assert!(built(next) - built(one) >= 49_000, "views {} and {}", one.view, next.view);
    }
}

#[test]
fn a_node_waits_for_its_own_last_block_alone() {
    let chain = paced("turns", 4, 400, 16);
    // Each of four nodes builds a block in 400 ms: with a wait before each block no two would be nearer than that.
    let is_near = |pair: &[Link]| built(&pair[1]) - built(&pair[0]) < 300_000;
    assert!(chain.windows(2).any(is_near));
    for (one, next) in chain.iter().flat_map(|one| chain.iter().map(move |next| (one, next))) {
        if next.view > one.view && next.view % 4 == one.view % 4 {
            assert!(built(next) - built(one) >= 399_000, "views {} and {}", one.view, next.view);
        }
    }
}
