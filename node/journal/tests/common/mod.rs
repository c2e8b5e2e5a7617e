//! Journals for tests.

use simplex_identity::{Identity, members_digest};
use simplex_view_state::{Entries, Stored};
use std::fs;
use std::path::PathBuf;

/// An empty folder for a test.
pub fn scratch(name: &str) -> PathBuf {
    let folder = std::env::temp_dir().join(format!("simplex-journal-test-{}-{name}", std::process::id()));
    let _ = fs::remove_dir_all(&folder);
    fs::create_dir_all(&folder).expect("a folder for a test");
    folder
}

/// A member.
pub fn identity() -> Identity {
    Identity {
        network: "test".to_owned().try_into().expect("a name"),
        key: [8; 32],
        epoch: 1,
        term_length: 1,
        members: members_digest(&[[8; 32]]),
    }
}

/// Entries of so many bytes, of a record that has so many entries then.
pub fn entries(count: u64, length: usize) -> Entries {
    let mut stored = [0; Stored::SIZE];
    stored[..8].copy_from_slice(&count.to_be_bytes());
    Entries {
        bytes: (0..length).map(|at| (1 + at % 250) as u8).collect(),
        stored: Stored::from_bytes(&stored).expect("numbers"),
    }
}
