//! The engine of the tutorial: its members agree, and resume from their files.

#[path = "../examples/first_engine/host.rs"]
mod host;
#[path = "../examples/first_engine/network.rs"]
mod network;
#[path = "../examples/first_engine/toys.rs"]
mod toys;

use simplex_view_state::Proposal;
use std::collections::BTreeMap;
use std::fs;
use std::path::PathBuf;

fn folder(name: &str) -> PathBuf {
    let folder = std::env::temp_dir().join(format!("first-engine-{name}-{}", std::process::id()));
    fs::create_dir(&folder).expect("a new folder");
    folder
}

/// Returns whether no two chains have different proposals of a view.
fn agree(chains: &[Vec<Proposal>]) -> bool {
    let mut known = BTreeMap::new();
    chains
        .iter()
        .flatten()
        .all(|it| *known.entry(it.view()).or_insert(it.payload) == it.payload)
}

#[test]
fn members_agree_and_resume_from_their_files() -> host::Outcome {
    let folder = folder("resumes");
    let first = network::run(&folder, 8)?;
    let again = network::run(&folder, 8)?;
    let all: Vec<_> = first.iter().chain(&again).cloned().collect();
    assert!(agree(&all), "{all:?}");
    for (before, after) in first.iter().zip(&again) {
        assert!(before.last().expect("eight").view() < after.last().expect("eight").view());
        assert!(after[0].view() > before[0].view(), "it begins anew");
    }
    fs::remove_dir_all(folder)?;
    Ok(())
}

#[test]
fn a_cut_file_is_refused() -> host::Outcome {
    let folder = folder("cut");
    network::run(&folder, 3)?;
    let file = folder.join("member-2");
    let held = fs::read(&file)?;
    fs::write(&file, &held[..held.len() - 1])?;
    assert!(host::Host::begin(2.into(), file, Vec::new()).is_err());
    fs::remove_dir_all(folder)?;
    Ok(())
}
