//! Nodes that were away for long: they get all final blocks from their peers, or say which one nobody has.

use simplex_node::audit::disagreements;
use simplex_node::network::{Network, Plan, folder_of};
use simplex_node::settings::Protocol;
use std::fs;
use std::time::{Duration, Instant};

/// Within what time something has to be seen, on a machine that does much else.
const SOON: Duration = Duration::from_secs(120);
/// How long a network gets for many views.
const LONG: Duration = Duration::from_secs(400);

fn network(name: &str, nodes: u32) -> Network {
    let plan = Plan {
        nodes,
        protocol: Protocol {
            // (on a slow machine a healthy leader may take longer than some hundred milliseconds)
            inactivity_ms: 1500,
            leader_timeout_ms: 1000,
            certification_timeout_ms: 1400,
            timeout_retry_ms: 500,
            ..Protocol::default()
        },
        sync: false,
        faults: Vec::new(),
        delay_ms: 0,
        program: env!("CARGO_BIN_EXE_simplex-node").into(),
        folder: folder_of(name),
    };
    let mut network = Network::new(plan).expect("keys and settings");
    (0..nodes).for_each(|index| network.set(index, |it| it.trace = None).expect("settings"));
    network
}

fn log(network: &Network, index: u32) -> String {
    fs::read_to_string(network.log(index)).unwrap_or_default()
}

fn count(network: &Network, index: u32, name: &str) -> u64 {
    network.metric(index, name).expect("a reply")
}

fn ends_well(mut network: Network) {
    network.stop().expect("they stop");
    let chains = network.chains().expect("chains");
    assert_eq!(disagreements(&chains), Vec::<String>::new());
    fs::remove_dir_all(network.folder()).expect("a folder");
}

/// Three nodes finalize so many views, while node 3 is away.
fn away_for(name: &str, views: u64) -> Network {
    let mut network = network(name, 4);
    network.begin_all().expect("processes");
    assert!(network.wait_until(&[3], "height", 5, SOON), "{}", log(&network, 3));
    network.kill(3).expect("a process");
    let last = network.highest(&[0, 1, 2]) + views;
    assert!(network.wait_for(&[0, 1, 2], last, LONG), "{}", log(&network, 0));
    network
}

#[test]
fn a_node_that_was_away_for_2500_views_gets_all_blocks_of_several_peers() {
    let mut network = away_for("away", 2500);
    let (before, begun) = (count(&network, 0, "height"), Instant::now());
    network.begin(3).expect("a process");
    assert!(network.wait_until(&[3], "height", before, SOON), "{}", log(&network, 3));
    println!("{before} blocks after {:?}", begun.elapsed());
    let servers = (0..3).filter(|index| count(&network, *index, "served") > 0).count();
    assert!(servers >= 2, "{servers} members served it");
    assert!(count(&network, 3, "ranges") > 0);
    let said = log(&network, 3);
    assert!(
        said.contains("behind the finalized chain") && said.contains("caught up with"),
        "{said}"
    );
    ends_well(network);
}

/// Node 3 sends node 0 nothing, at full speed: node 0 gets each fourth block, and all certificates, of the others.
#[test]
fn a_node_that_one_member_leaves_out_keeps_up() {
    let mut network = network("left-out", 4);
    network.begin_all().expect("processes");
    assert!(network.wait_until(&[0], "height", 20, SOON), "{}", log(&network, 0));
    network.cut_one_way(3, 0).expect("a disk");
    let others = network.highest(&[1, 2]) + 800;
    assert!(network.wait_for(&[1, 2], others, LONG), "{}", log(&network, 1));
    let (here, there) = (count(&network, 0, "height"), count(&network, 1, "height"));
    assert!(here + 300 > there, "{here} of {there} blocks: {}", log(&network, 0));
    network.cut(None).expect("a disk");
    assert!(network.wait_until(&[0], "height", there + 10, SOON), "{}", log(&network, 0));
    ends_well(network);
}

/// Blocks of 128 kB, until there are more of them than fit any memory of a node: nothing that was written is written again.
#[test]
fn long_blocks_come_at_a_steady_rate() {
    if std::env::var_os("SIMPLEX_LONG").is_none() {
        return;
    }
    let mut network = network("long-blocks", 4);
    (0..4).for_each(|index| network.set(index, |it| it.trial.block_bytes = Some(128 << 10)).expect("settings"));
    network.begin_all().expect("processes");
    assert!(network.wait_until(&[0], "height", 300, LONG), "{}", log(&network, 0));
    let begun = Instant::now();
    assert!(network.wait_until(&[0], "height", 500, LONG), "{}", log(&network, 0));
    let (first, begun) = (begun.elapsed(), Instant::now());
    assert!(network.wait_until(&[0], "height", 700, LONG), "{}", log(&network, 0));
    println!("blocks 300 to 500 in {first:?}, 500 to 700 in {:?}", begun.elapsed());
    assert!(begun.elapsed() < 5 * first, "{:?} and {first:?}", begun.elapsed());
    let most = (0..4).map(|index| count(&network, index, "resident_kb")).max();
    assert!(most.is_some_and(|it| it < 128 << 10), "{most:?} kB");
    ends_well(network);
}

/// The members have pruned what node 3 misses, whose process has ended with so many blocks.
fn pruned(name: &str) -> (Network, u64) {
    let mut network = network(name, 4);
    for index in 0..4 {
        let small = |it: &mut simplex_node::settings::Settings| {
            it.archive.segment_bytes = 20_000;
            it.archive.most_bytes = Some(60_000);
        };
        network.set(index, small).expect("settings");
    }
    network.begin_all().expect("processes");
    assert!(network.wait_until(&[3], "height", 5, SOON), "{}", log(&network, 3));
    network.kill(3).expect("a process");
    let height = network.chains().expect("chains")[3].len() as u64;
    assert!(
        network.wait_until(&[0, 1, 2], "archive_first", height + 2, LONG),
        "{}",
        log(&network, 0)
    );
    (network, height)
}

/// Node 3 has so many blocks, and logs that the next one is missing.
fn says_what_it_lacks(network: &Network, height: u64) {
    let is_told = network.wait_until(&[3], "missing_height", height + 1, SOON);
    let said = log(network, 3);
    let missing = count(network, 3, "missing_height");
    assert!(is_told, "{missing} in place of {height} and 1: {said}");
    let line = said
        .lines()
        .find(|it| it.contains("no other member that replies has the final block"))
        .expect("a line");
    // (the archive may have had a block more than the application)
    assert!(line.contains(&format!("height={missing}")) && line.contains("ERROR"), "{line}");
}

#[test]
fn a_block_that_nobody_has_is_an_error_that_names_its_height() {
    let (mut network, height) = pruned("pruned");
    network.begin(3).expect("a process");
    says_what_it_lacks(&network, height);
    let last = network.highest(&[0]);
    assert!(network.wait_for(&[3], last + 5, SOON), "it votes on: {}", log(&network, 3));
    ends_well(network);
}

/// Without the votes of node 3 nothing is final then: whoever looks has to find why.
#[test]
fn a_member_that_is_down_hides_no_error_of_a_block_that_the_others_have_pruned() {
    let (mut network, height) = pruned("pruned-down");
    network.kill(2).expect("a process");
    network.begin(3).expect("a process");
    says_what_it_lacks(&network, height);
    ends_well(network);
}

/// Node 3's process ends again and again while it gets blocks, and its archive's end is torn.
#[test]
fn a_node_that_is_killed_while_it_catches_up_continues_where_it_was() {
    let mut network = away_for("torn", 600);
    for _ in 0..4 {
        network.begin(3).expect("a process");
        std::thread::sleep(Duration::from_millis(150));
        network.kill(3).expect("a process");
        tear_last_segment(&network);
    }
    let height = count(&network, 0, "height");
    network.begin(3).expect("a process");
    assert!(network.wait_until(&[3], "height", height, SOON), "{}", log(&network, 3));
    ends_well(network);
}

/// Cuts some bytes off the last segment of node 3's archive, as a power cut does where the disk had not all of it.
fn tear_last_segment(network: &Network) {
    let segments = fs::read_dir(network.data(3).join("archive")).expect("a folder").flatten();
    let Some(last) = segments.map(|it| it.path()).max() else { return };
    let file = fs::OpenOptions::new().write(true).open(&last).expect("a segment");
    let length = file.metadata().expect("a segment").len();
    file.set_len(length.saturating_sub(70).max(simplex_node::segments::HEAD))
        .expect("a disk");
}

/// A member alone, which has nobody to ask, with an archive of some segments. It has stopped.
fn alone(name: &str) -> Network {
    let mut network = network(name, 1);
    network.set(0, |it| it.archive.segment_bytes = 10_000).expect("settings");
    network.begin(0).expect("a process");
    assert!(network.wait_until(&[0], "height", 100, SOON), "{}", log(&network, 0));
    network.stop().expect("it stops");
    network
}

/// The lines of the chain, of which the first so many are left.
fn cut_chain(network: &Network, left: usize) -> Vec<String> {
    let path = network.data(0).join("chain");
    let text = fs::read_to_string(&path).expect("a chain");
    let lines: Vec<String> = text.lines().map(|it| it.split(' ').take(2).collect::<Vec<_>>().join(" ")).collect();
    let kept: String = text.split_inclusive('\n').take(left).collect();
    fs::write(path, kept).expect("a disk");
    lines
}

/// As where the machine lost power before the application's file was on the disk.
#[test]
fn an_application_that_lost_its_last_blocks_gets_them_from_the_archive() {
    let mut network = alone("lost");
    let before = cut_chain(&network, 20);
    network.begin(0).expect("a process");
    assert!(
        network.wait_until(&[0], "height", before.len() as u64 + 5, SOON),
        "{}",
        log(&network, 0)
    );
    network.stop().expect("it stops");
    assert!(log(&network, 0).contains("the application was behind the archive"));
    let after = cut_chain(&network, usize::MAX);
    assert_eq!(after[..before.len()], before);
    fs::remove_dir_all(network.folder()).expect("a folder");
}

#[test]
fn a_segment_that_is_damaged_and_needed_is_named() {
    let mut network = alone("damaged");
    cut_chain(&network, 2);
    let archive = network.data(0).join("archive");
    let mut segments: Vec<_> = fs::read_dir(archive).expect("a folder").flatten().map(|it| it.path()).collect();
    segments.sort();
    assert!(segments.len() > 2);
    let whole = fs::read(&segments[1]).expect("a segment");
    let mut bytes = whole.clone();
    bytes[500] ^= 1;
    fs::write(&segments[1], bytes).expect("a disk");
    network.begin(0).expect("a process");
    let begun = Instant::now();
    while !network.has_ended(0).expect("a process") {
        assert!(begun.elapsed() < SOON, "it continues");
        std::thread::sleep(Duration::from_millis(20));
    }
    let said = log(&network, 0);
    let is_named = said.contains(segments[1].to_str().expect("letters")) && said.contains("put back a whole copy");
    assert!(is_named, "{said}");
    fs::write(&segments[1], whole).expect("a disk");
    network.begin(0).expect("a process");
    assert!(network.wait_until(&[0], "height", 101, SOON), "{}", log(&network, 0));
    network.stop().expect("it stops");
    fs::remove_dir_all(network.folder()).expect("a folder");
}

/// A line that can't be read is named, and no line is removed: the archive has all blocks.
#[test]
fn a_chain_with_bytes_that_are_no_text_is_named_and_written_again_from_the_archive() {
    let mut network = alone("text");
    let path = network.data(0).join("chain");
    let good = fs::read(&path).expect("a chain");
    let mut bytes = good.clone();
    let third = bytes.iter().enumerate().filter(|(_, it)| **it == b'\n').nth(1).expect("lines").0 + 5;
    bytes[third] = 0xff;
    fs::write(&path, &bytes).expect("a disk");
    network.begin(0).expect("a process");
    let begun = Instant::now();
    while !network.has_ended(0).expect("a process") {
        assert!(begun.elapsed() < SOON, "it continues");
        std::thread::sleep(Duration::from_millis(20));
    }
    let said = log(&network, 0);
    let is_named = said.contains(path.to_str().expect("letters")) && said.contains("line 3 is damaged: move the file away");
    assert!(is_named, "{said}");
    assert_eq!(fs::read(&path).expect("a chain"), bytes, "it stays as it is");
    fs::rename(&path, path.with_extension("damaged")).expect("a disk");
    network.begin(0).expect("a process");
    assert!(network.wait_until(&[0], "height", 101, SOON), "{}", log(&network, 0));
    network.stop().expect("it stops");
    let payloads = |text: &[u8]| -> Vec<String> {
        let lines = String::from_utf8(text.to_vec()).expect("text");
        lines
            .lines()
            .map(|it| it.split(' ').take(2).collect::<Vec<_>>().join(" "))
            .collect()
    };
    let (before, after) = (payloads(&good), payloads(&fs::read(&path).expect("a chain")));
    assert_eq!(after[..before.len()], before);
    fs::remove_dir_all(network.folder()).expect("a folder");
}
