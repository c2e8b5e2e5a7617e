//! Journals that are refused by name: of others, of other versions, of another process.

mod common;

use common::{entries, identity, scratch};
use simplex_identity::{Difference, Identity};
use simplex_journal::{Cause, Journal, VERSION, parse, path, read};
use std::fs;
use std::path::{Path, PathBuf};

fn written(name: &str) -> (PathBuf, Vec<u8>) {
    let folder = scratch(name);
    let (mut journal, _) = Journal::open(&folder, &identity(), true).expect("a disk");
    journal.replace(&entries(3, 70)).expect("a disk");
    let bytes = fs::read(path(&folder)).expect("a journal");
    (folder, bytes)
}

fn refused(folder: &Path, identity: &Identity) -> Cause {
    let refused = read(folder, identity).expect_err("it is refused");
    assert_eq!(refused.path, path(folder));
    assert!(
        refused.to_string().starts_with(path(folder).to_str().expect("letters")),
        "{refused}"
    );
    refused.cause
}

#[test]
fn what_is_stored_comes_back_and_a_folder_without_a_journal_is_none() {
    let (folder, _) = written("back");
    let (journal, recovered) = Journal::open(&folder, &identity(), true).expect("a journal");
    let it = recovered.expect("a journal");
    assert_eq!((it.stored, it.frames, it.cut), (entries(3, 70).stored, entries(3, 70).bytes, 0));
    assert_eq!(journal.entries(), 0, "nothing is replaced yet");
    assert!(read(&scratch("none"), &identity()).expect("a disk").is_none());
}

#[test]
fn a_journal_of_another_member_is_refused_by_name() {
    let (folder, _) = written("identity");
    let network = "other".to_owned().try_into().expect("a name");
    let others = [
        ("the network test", Identity { network, ..identity() }),
        (
            "of the key 0808",
            Identity {
                key: [9; 32],
                ..identity()
            },
        ),
        ("of epoch 1", Identity { epoch: 2, ..identity() }),
        (
            "terms of 1",
            Identity {
                term_length: 2,
                ..identity()
            },
        ),
        (
            "other members",
            Identity {
                members: Default::default(),
                ..identity()
            },
        ),
    ];
    for (said, other) in others {
        let cause = refused(&folder, &other);
        assert!(cause.to_string().contains(said), "{cause}");
    }
    assert!(matches!(
        refused(&folder, &Identity { epoch: 2, ..identity() }),
        Cause::Other(Difference::Epoch(1, 2))
    ));
}

#[test]
fn other_files_are_refused_by_name() {
    let (folder, mut bytes) = written("other");
    bytes[8] = VERSION + 1;
    assert!(matches!(parse(&bytes), Err(Cause::OtherVersion(it)) if it == VERSION + 1));
    for earlier in [3, 4, VERSION - 1] {
        bytes[8] = earlier;
        assert!(matches!(parse(&bytes), Err(Cause::OfNoNamespace(it)) if it == earlier));
    }
    bytes[0] = b'S';
    assert!(matches!(parse(&bytes), Err(Cause::NoJournal)));
    assert!(matches!(parse(b""), Err(Cause::NoJournal)));
    fs::write(path(&folder), bytes).expect("a disk");
    assert!(matches!(refused(&folder, &identity()), Cause::NoJournal));
}

#[test]
fn a_folder_is_of_one_process_at_a_time() {
    let (folder, _) = written("lock");
    let first = Journal::open(&folder, &identity(), true).expect("nobody has it");
    let refused = Journal::open(&folder, &identity(), true).expect_err("it is taken");
    assert!(
        matches!(refused.cause, Cause::InUse) && refused.to_string().contains("another process"),
        "{refused}"
    );
    drop(first);
    assert!(Journal::open(&folder, &identity(), true).is_ok());
}

#[test]
fn nothing_is_appended_before_all_is_replaced_and_what_is_there_stays() {
    let (folder, bytes) = written("begin");
    let (mut journal, _) = Journal::open(&folder, &identity(), true).expect("a journal");
    let refused = journal.append(&entries(4, 9)).expect_err("it is refused");
    assert!(matches!(refused.cause, Cause::NotBegun), "{refused}");
    assert_eq!(fs::read(path(&folder)).expect("a journal"), bytes);
    journal.replace(&entries(4, 9)).expect("a disk");
    assert!(!journal.is_dirty() && !journal.sync().expect("a disk"));
    journal.append(&entries(5, 9)).expect("a disk");
    assert!(journal.is_dirty() && journal.sync().expect("a disk"));
    assert_eq!(journal.entries(), 5);
}

/// A crash amid the first replacement leaves a beginning of `journal.new`, and zeros where a sector was not written.
#[test]
fn what_a_crash_left_of_a_first_journal_is_written_again() {
    let folder = scratch("first");
    let replace = || {
        Journal::open(&folder, &identity(), true)
            .expect("a folder")
            .0
            .replace(&entries(0, 600))
    };
    replace().expect("a disk");
    let whole = fs::read(path(&folder)).expect("a journal");
    let zeroed = |sector: usize| {
        let mut bytes = whole.clone();
        bytes[512 * sector..].iter_mut().take(512).for_each(|it| *it = 0);
        bytes
    };
    let torn = (0..=whole.len()).step_by(13).map(|length| whole[..length].to_vec());
    for left in torn.chain((0..whole.len() / 512).map(zeroed)) {
        fs::remove_file(path(&folder)).expect("a journal");
        fs::write(folder.join("journal.new"), left).expect("a disk");
        replace().expect("it holds no vote");
        assert_eq!(fs::read(path(&folder)).expect("a journal"), whole);
    }
}

#[test]
fn a_replacement_without_its_journal_stays_as_it_is() {
    let (folder, votes) = written("alone");
    let fresh = folder.join("journal.new");
    fs::remove_file(path(&folder)).expect("a journal");
    for left in [&votes[..], &votes[..votes.len() - 40], b"mine"] {
        fs::write(&fresh, left).expect("a disk");
        let (mut journal, none) = Journal::open(&folder, &identity(), true).expect("a folder");
        let refused = journal.replace(&entries(0, 0)).expect_err("it may hold votes");
        assert!(none.is_none() && matches!(refused.cause, Cause::ReplacementAlone), "{refused}");
        assert_eq!(fs::read(&fresh).expect("it is there"), left);
        assert!(!path(&folder).exists());
    }
}

#[test]
fn what_is_in_the_lock_of_a_folder_stays() {
    let folder = scratch("own");
    fs::write(folder.join("lock"), "mine").expect("a disk");
    drop(Journal::open(&folder, &identity(), true).expect("a folder"));
    assert_eq!(fs::read_to_string(folder.join("lock")).expect("a file"), "mine");
}
