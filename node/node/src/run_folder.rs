//! The folder of a network's files. Only files by the names of a node's, in a folder that a run made, are ever removed.

use crate::segments::is_segment;
use crate::settings::Outcome;
use std::fs::{self, File, OpenOptions, TryLockError};
use std::io::{self, Write};
use std::path::{Path, PathBuf};

/// The file that says that a run made the folder. A run that uses the folder holds a lock on it.
const MARKER: &str = ".simplex-local";
const MARKED: &str = "simplex-local made this folder. Each run removes the files of the run before.\n";
/// The files that a run writes beside a node's folder, by the ending of the name.
const OF_A_NODE: [&str; 7] = ["pem", "toml", "log", "votes", "cut", "floor", "trace"];
/// The files that a node writes in its own folder.
const IN_A_NODE: [&str; 8] = [
    "journal",
    "journal.new",
    "chain",
    "chain.new",
    "chain.records",
    "chain.floor",
    "evidence",
    "lock",
];
/// The folders of segments in a node's folder.
const OF_SEGMENTS: [&str; 2] = ["blocks", "archive"];

/// A folder that one run uses.
#[derive(Debug)]
pub struct RunFolder {
    path: PathBuf,
    /// The locked marker.
    _marker: File,
}

impl RunFolder {
    /// Takes a folder for a run, and creates it where it does not exist.
    ///
    /// The folder is empty afterwards, but for the marker: the files of an earlier run are removed. A folder without a marker that is not
    /// empty is refused, and so is one with a file that no node writes, or that another run uses. Nothing is removed then.
    pub fn take(path: &Path) -> Outcome<RunFolder> {
        let refused = |error: io::Error| format!("{}: {error}", path.display());
        fs::create_dir_all(path).map_err(refused)?;
        let is_empty = fs::read_dir(path).map_err(refused)?.next().is_none();
        let is_marked = fs::symlink_metadata(path.join(MARKER)).is_ok_and(|it| it.is_file());
        if !is_empty && !is_marked {
            return Err(format!(
                "{} is not empty, and simplex-local did not make it: name a new folder, or an empty one",
                path.display()
            )
            .into());
        }
        let marker = lock(path)?;
        for it in left_by_a_run(path)? {
            if it.is_dir() { fs::remove_dir(&it) } else { fs::remove_file(&it) }.map_err(|error| format!("{}: {error}", it.display()))?;
        }
        Ok(RunFolder {
            path: path.to_owned(),
            _marker: marker,
        })
    }

    /// Where it is.
    pub fn path(&self) -> &Path {
        &self.path
    }
}

/// The marker, which is written and locked.
fn lock(folder: &Path) -> Outcome<File> {
    let path = folder.join(MARKER);
    let refused = |error: io::Error| format!("{}: {error}", path.display());
    let options = OpenOptions::new().create(true).write(true).truncate(false).open(&path);
    let mut marker = options.map_err(refused)?;
    match marker.try_lock() {
        Ok(()) => {}
        Err(TryLockError::WouldBlock) => {
            return Err(format!(
                "another simplex-local uses {}: wait for it, or name another folder",
                folder.display()
            )
            .into());
        }
        Err(TryLockError::Error(error)) => return Err(refused(error).into()),
    }
    marker.write_all(MARKED.as_bytes()).map_err(refused)?;
    Ok(marker)
}

/// Returns what an earlier run left in a folder, what a folder holds before the folder itself. The first file that no node writes is an
/// error.
fn left_by_a_run(folder: &Path) -> Outcome<Vec<PathBuf>> {
    let mut found = Vec::new();
    for entry in fs::read_dir(folder)? {
        let entry = entry?;
        let (name, is_folder) = (entry.file_name(), entry.file_type()?.is_dir());
        let name = name.to_str().unwrap_or_default();
        if name == MARKER {
            continue;
        }
        if is_folder && is_index(name) {
            found.extend(left_by_a_node(&entry.path())?);
        } else if is_folder || !is_of_a_node(name) {
            return Err(foreign(&entry.path()));
        }
        found.push(entry.path());
    }
    Ok(found)
}

/// Returns what a node left in its folder, and in the folders of segments there.
fn left_by_a_node(folder: &Path) -> Outcome<Vec<PathBuf>> {
    let mut found = Vec::new();
    for entry in fs::read_dir(folder)? {
        let entry = entry?;
        let (name, is_folder) = (entry.file_name(), entry.file_type()?.is_dir());
        let name = name.to_str().unwrap_or_default();
        if is_folder && OF_SEGMENTS.contains(&name) {
            for segment in fs::read_dir(entry.path())? {
                let segment = segment?;
                if segment.file_type()?.is_dir() || !is_segment(&segment.file_name()) {
                    return Err(foreign(&segment.path()));
                }
                found.push(segment.path());
            }
        } else if is_folder || !IN_A_NODE.contains(&name) {
            return Err(foreign(&entry.path()));
        }
        found.push(entry.path());
    }
    Ok(found)
}

fn foreign(path: &Path) -> Box<dyn std::error::Error> {
    format!("{} is no file of a node: move it away, or name another folder", path.display()).into()
}

fn is_index(name: &str) -> bool {
    name.parse::<u32>().is_ok()
}

fn is_of_a_node(name: &str) -> bool {
    name.split_once('.')
        .is_some_and(|(index, ending)| is_index(index) && OF_A_NODE.contains(&ending))
}

#[cfg(test)]
mod tests {
    use super::*;
    use crate::trace::scratch;

    fn refusal(path: &Path) -> String {
        RunFolder::take(path).expect_err("it is refused").to_string()
    }

    #[test]
    fn a_folder_with_files_of_others_is_refused_and_stays_as_it_is() {
        let folder = scratch("others");
        fs::create_dir(folder.join("sub")).expect("a disk");
        fs::write(folder.join("sub/thesis.txt"), "years of work").expect("a disk");
        let said = refusal(&folder);
        assert!(said.contains("is not empty") && said.contains("name a new folder"), "{said}");
        assert_eq!(
            fs::read_to_string(folder.join("sub/thesis.txt")).expect("it is there"),
            "years of work"
        );
        assert!(!folder.join(MARKER).exists());
    }

    #[test]
    fn a_folder_of_an_earlier_run_is_emptied() {
        let folder = scratch("earlier").join("new");
        drop(RunFolder::take(&folder).expect("it is new"));
        for name in ["0.pem", "0.toml", "12.votes"] {
            fs::write(folder.join(name), "").expect("a disk");
        }
        fs::create_dir(folder.join("12")).expect("a disk");
        fs::write(folder.join("12/journal"), "").expect("a disk");
        fs::create_dir(folder.join("12/archive")).expect("a disk");
        fs::write(folder.join("12/archive/00000000000000000001"), "").expect("a disk");
        drop(RunFolder::take(&folder).expect("it is a run's"));
        let left: Vec<_> = fs::read_dir(&folder)
            .expect("a folder")
            .map(|it| it.expect("an entry").file_name())
            .collect();
        assert_eq!(left, [MARKER]);
    }

    #[test]
    fn a_file_that_no_node_writes_is_never_removed() {
        for name in [
            "notes.txt",
            "0.txt",
            "0/notes.txt",
            "0/sub/journal",
            "x/journal",
            "0/archive/notes",
            "0/archive/sub/x",
        ] {
            let folder = scratch("mixed");
            drop(RunFolder::take(&folder).expect("it is empty"));
            fs::write(folder.join("1.pem"), "").expect("a disk");
            let path = folder.join(name);
            fs::create_dir_all(path.parent().expect("a folder")).expect("a disk");
            fs::write(&path, "mine").expect("a disk");
            let said = refusal(&folder);
            assert!(said.contains("is no file of a node: move it away"), "{said}");
            assert!(path.exists() && folder.join("1.pem").exists(), "{name}");
        }
    }

    #[test]
    fn a_folder_that_another_run_uses_is_refused() {
        let folder = scratch("used");
        let first = RunFolder::take(&folder).expect("it is empty");
        let said = refusal(first.path());
        assert!(said.contains("another simplex-local uses"), "{said}");
    }
}
