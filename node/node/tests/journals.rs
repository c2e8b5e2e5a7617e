//! Journals that a node must not begin with: lost ones, those of others, and those that are older than its chain.

use simplex_journal::{self as journal, HEAD};
use simplex_node::network::{Network, Plan, folder_of};
use simplex_node::settings::{Protocol, Settings};
use std::ffi::OsString;
use std::fs;
use std::path::Path;
use std::process::{Command, Output, Stdio};
use std::thread::sleep;
use std::time::{Duration, Instant};

/// Within what time something has to be seen, on a machine that does much else.
const SOON: Duration = Duration::from_secs(60);

/// A network of so many nodes, none of which has a folder yet.
fn network(name: &str, nodes: u32) -> Network {
    let plan = Plan {
        nodes,
        protocol: Protocol::default(),
        sync: true,
        faults: Vec::new(),
        delay_ms: 0,
        program: env!("CARGO_BIN_EXE_simplex-node").into(),
        folder: folder_of(name),
    };
    Network::new(plan).expect("keys and settings")
}

/// A network of so many nodes that has finalized some views, and has stopped.
fn stopped(name: &str, nodes: u32) -> Network {
    let mut network = network(name, nodes);
    runs_on(&mut network);
    network
}

/// Begins all nodes, has them finalize some views, and stops them.
fn runs_on(network: &mut Network) {
    let longest = network.chains().expect("chains").iter().map(Vec::len).max().unwrap_or(0);
    network.begin_all().expect("processes");
    let is_longer = network.wait_until(&network.honest(), "height", longest as u64 + 5, SOON);
    assert!(is_longer, "the chain does not grow");
    network.stop().expect("they stop");
}

/// Runs the program with these words and a node's settings until it ends.
fn run(words: &[&str], config: &Path) -> Output {
    let mut child = Command::new(env!("CARGO_BIN_EXE_simplex-node"))
        .args(words)
        .arg("--config")
        .arg(config)
        .stderr(Stdio::piped())
        .spawn()
        .expect("a process");
    let begun = Instant::now();
    while child.try_wait().expect("a process").is_none() {
        if begun.elapsed() > SOON {
            child.kill().expect("a process");
            panic!("it is not refused, and runs");
        }
        sleep(Duration::from_millis(20));
    }
    child.wait_with_output().expect("a process")
}

/// A node begins, and runs.
fn runs(network: &mut Network, index: u32) {
    network.begin(index).expect("a process");
    let log = network.log(index);
    assert!(
        network.wait_until(&[index], "current_view", 1, SOON),
        "{}",
        fs::read_to_string(log).unwrap_or_default()
    );
    network.kill(index).expect("a process");
}

/// Why a node is refused.
fn refused(network: &Network, index: u32) -> String {
    let done = run(&[], &network.config(index));
    assert!(!done.status.success());
    let said = String::from_utf8_lossy(&done.stderr).into_owned();
    assert!(!said.contains("begun"), "it began: {said}");
    said
}

fn end(network: Network) {
    fs::remove_dir_all(network.folder()).expect("a folder");
}

#[test]
fn a_node_that_lost_its_journal_is_refused_by_what_it_left() {
    let network = stopped("lost", 1);
    let data = network.data(0);
    fs::remove_file(journal::path(&data)).expect("a journal");
    for (left, named) in [("blocks", "blocks"), ("archive", "archive"), ("chain", "journal")] {
        let said = refused(&network, 0);
        assert!(said.contains(&data.join(named).display().to_string()), "{said}");
        assert!(said.contains("journal") && said.contains("ut the journal back"), "{said}");
        assert!(!journal::path(&data).exists(), "no other journal is begun");
        let path = data.join(left);
        if path.is_dir() {
            fs::remove_dir_all(path)
        } else {
            fs::remove_file(path)
        }
        .expect("it is left");
    }
    end(network);
}

/// All that the node stored is gone with its disk.
#[test]
fn a_node_whose_disk_is_not_mounted_is_refused() {
    let mut network = stopped("unmounted", 1);
    let (data, elsewhere) = (network.data(0), network.folder().join("elsewhere"));
    fs::rename(&data, &elsewhere).expect("a disk");
    let said = refused(&network, 0);
    assert!(said.contains("mount its disk, or put the journal back"), "{said}");
    assert!(!data.exists(), "nothing is made");
    fs::rename(&elsewhere, &data).expect("a disk");
    network.begin(0).expect("a process");
    assert!(network.wait_until(&[0], "height", 3, SOON), "it continues");
    network.stop().expect("it stops");
    end(network);
}

/// Returns what a folder holds: the names, and what is in the files.
fn held(folder: &Path) -> Vec<(OsString, Vec<u8>)> {
    let entries = fs::read_dir(folder).expect("a folder").map(|it| it.expect("an entry"));
    let mut held: Vec<_> = entries
        .map(|it| (it.file_name(), fs::read(it.path()).unwrap_or_default()))
        .collect();
    held.sort();
    held
}

#[test]
fn a_folder_that_init_did_not_make_is_refused_and_stays_as_it_is() {
    let network = network("no-init", 1);
    let data = network.data(0);
    let is_refused = || {
        let said = refused(&network, 0);
        let journal = journal::path(&data).display().to_string();
        assert!(
            said.contains(&journal) && said.contains("make the folder by `simplex-node init`"),
            "{said}"
        );
    };
    is_refused();
    assert!(!data.exists());
    fs::create_dir(&data).expect("a disk");
    for name in ["", "notes"] {
        if !name.is_empty() {
            fs::write(data.join(name), "mine").expect("a disk");
        }
        let before = held(&data);
        is_refused();
        assert_eq!(held(&data), before);
    }
    end(network);
}

#[test]
fn init_makes_the_folder_of_a_new_member_once() {
    let mut network = network("init", 1);
    let (data, config) = (network.data(0), network.config(0));
    let said = |done: &Output| String::from_utf8_lossy(&done.stderr).into_owned();
    let done = run(&["init"], &config);
    assert!(done.status.success(), "{}", said(&done));
    let identity = Settings::read(&config).and_then(|it| it.identity()).expect("settings");
    let made = journal::read(&data, &identity).expect("its own").expect("a journal");
    assert_eq!((made.stored.entries.get(), made.cut), (0, 0));
    let is_refused = |name: &str| {
        let before = held(&data);
        let done = run(&["init"], &config);
        let said = said(&done);
        assert!(
            !done.status.success() && said.contains(&format!("{} holds {name}", data.display())),
            "{said}"
        );
        assert!(said.contains("name another one as `data`"), "{said}");
        assert_eq!(held(&data), before, "it stays as it is");
    };
    is_refused("");
    runs_on(&mut network);
    is_refused("");
    fs::rename(&data, network.folder().join("elsewhere")).expect("a disk");
    fs::create_dir(&data).expect("a disk");
    fs::write(data.join("thesis"), "years of work").expect("a disk");
    is_refused("thesis");
    end(network);
}

/// An `init` that was interrupted leaves a lock, and part of the file that becomes the journal. Other files of these names stay as they
/// are.
#[test]
fn init_takes_a_folder_that_an_interrupted_init_left_and_no_other_one() {
    let network = network("init-again", 1);
    let (data, config, own) = (network.data(0), network.config(0), network.folder().join("own"));
    let is_refused = |next: &str| {
        let before = held(&data);
        let done = run(&["init"], &config);
        let said = String::from_utf8_lossy(&done.stderr).into_owned();
        assert!(!done.status.success() && said.contains(next), "{next}: {said}");
        assert_eq!(held(&data), before, "it stays as it is");
    };
    fs::create_dir(&data).expect("a disk");
    fs::write(data.join("lock"), "mine").expect("a disk");
    is_refused("name another one as `data`");
    fs::rename(data.join("lock"), &own).expect("a disk");
    std::os::unix::fs::symlink(&own, data.join("lock")).expect("a disk");
    is_refused("name another one as `data`");
    assert_eq!(fs::read_to_string(&own).expect("a file"), "mine");
    fs::remove_file(data.join("lock")).expect("a disk");
    let held_by_another = fs::File::create(data.join("lock")).expect("a disk");
    held_by_another.try_lock().expect("nobody has it");
    is_refused("another process has this folder: end it first, or name another folder");
    drop(held_by_another);
    fs::write(data.join("journal.new"), "votes").expect("a disk");
    is_refused("for a key that has never voted name another folder, else put the journal back");
    fs::write(data.join("journal.new"), "simplexj").expect("a disk");
    let done = run(&["init"], &config);
    assert!(done.status.success(), "{}", String::from_utf8_lossy(&done.stderr));
    is_refused("runs without init");
    end(network);
}

#[test]
fn a_journal_of_another_key_is_refused() {
    let mut network = stopped("key", 1);
    let folder = network.folder().to_owned();
    fs::remove_file(folder.join("0.pem")).expect("a key");
    let key = simplex_node::crypto::make_key(&folder.join("0.pem")).expect("a key");
    let before = fs::read(journal::path(&network.data(0))).expect("a journal");
    network.set(0, |it| it.members[0].key = key.clone()).expect("settings");
    let said = refused(&network, 0);
    assert!(
        said.contains("journal") && said.contains("it is of the key") && said.contains(&key),
        "{said}"
    );
    assert_eq!(
        fs::read(journal::path(&network.data(0))).expect("a journal"),
        before,
        "it stays as it is"
    );
    end(network);
}

#[test]
fn a_journal_of_another_epoch_is_refused() {
    let mut network = stopped("epoch", 1);
    network.set(0, |it| it.protocol.epoch = 7).expect("settings");
    let said = refused(&network, 0);
    assert!(said.contains("of epoch 1") && said.contains("epoch 7"), "{said}");
    end(network);
}

#[test]
fn a_journal_of_another_term_length_is_refused() {
    let mut network = stopped("term", 1);
    network
        .set(0, |it| it.protocol.term_length = 3.try_into().expect("not 0"))
        .expect("settings");
    let said = refused(&network, 0);
    assert!(said.contains("terms of 1") && said.contains("the term length is 3"), "{said}");
    end(network);
}

#[test]
fn a_journal_of_another_list_of_members_is_refused() {
    let mut network = stopped("members", 4);
    network.set(0, |it| it.members.swap(2, 3)).expect("settings");
    let said = refused(&network, 0);
    assert!(said.contains("other members"), "{said}");
    // Addresses may change.
    let listens = std::net::TcpListener::bind("127.0.0.1:0")
        .expect("a port")
        .local_addr()
        .expect("an address");
    network
        .set(0, |it| {
            it.members.swap(2, 3);
            it.members[3].address = listens.into();
        })
        .expect("settings");
    runs(&mut network, 0);
    end(network);
}

#[test]
fn a_journal_of_another_network_is_refused() {
    let mut network = stopped("network", 1);
    let other = "other".to_owned().try_into().expect("a name");
    network.set(0, |it| it.network = other).expect("settings");
    let said = refused(&network, 0);
    assert!(
        said.contains("of the network local") && said.contains("of the network other"),
        "{said}"
    );
    end(network);
}

#[test]
fn a_journal_of_before_networks_had_names_is_refused_and_stays_as_it_is() {
    let network = stopped("nameless", 1);
    let path = journal::path(&network.data(0));
    let bytes = fs::read(&path).expect("a journal");
    for version in [2, 3] {
        let before = [b"simplexj", &[version][..], &bytes[HEAD..]].concat();
        fs::write(&path, &before).expect("a disk");
        let said = refused(&network, 0);
        assert!(
            said.contains(&format!("has version {version}")) && said.contains("begin the next epoch"),
            "{said}"
        );
        assert_eq!(fs::read(&path).expect("a journal"), before);
    }
    end(network);
}

#[test]
fn a_journal_that_is_older_than_the_chain_is_refused() {
    let mut network = stopped("older", 1);
    let path = journal::path(&network.data(0));
    let older = fs::read(&path).expect("a journal");
    runs_on(&mut network);
    let newer = fs::read(&path).expect("a journal");
    fs::write(&path, older).expect("a disk");
    let said = refused(&network, 0);
    assert!(
        said.contains("is older than") && said.contains("chain") && said.contains("newest journal"),
        "{said}"
    );
    fs::write(&path, newer).expect("a disk");
    runs(&mut network, 0);
    end(network);
}

/// A member alone stores a finalization in each turn. Where that fails, its chain must not have the block already.
#[test]
fn a_node_whose_disk_is_full_continues_with_its_own_journal() {
    let mut network = stopped("full", 1);
    for blocks in 0..2 {
        let longest = fs::metadata(journal::path(&network.data(0))).expect("a journal").len() / 512;
        network.begin_on_small_disk(0, longest as u32 + 20 + blocks).expect("a process");
        let begun = Instant::now();
        while !network.has_ended(0).expect("a process") {
            assert!(begun.elapsed() < SOON, "its disk is not full");
            sleep(Duration::from_millis(20));
        }
        runs_on(&mut network);
    }
    let said = fs::read_to_string(network.log(0)).expect("a log");
    assert!(said.contains("File too large") && !said.contains("is older than"), "{said}");
    let folder = network.data(0).display().to_string();
    let ends: Vec<&str> = said.lines().filter(|it| it.contains("File too large")).collect();
    assert!(ends.iter().all(|it| it.contains(&folder)), "each names its file: {ends:?}");
    end(network);
}
