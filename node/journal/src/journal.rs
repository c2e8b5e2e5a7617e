//! A journal that is written to.

use crate::error::{Cause, JournalError};
use crate::format::{self, Recovered};
use simplex_identity::Identity;
use simplex_view_state::Entries;
use std::fs::{self, File, OpenOptions, TryLockError};
use std::io::{self, Write};
use std::path::{Path, PathBuf};

/// A result of a journal.
type Outcome<T = ()> = Result<T, JournalError>;

/// The file of a folder whose lock the process holds that uses the folder.
const LOCK: &str = "lock";

/// The file of a folder's journal.
pub fn path(folder: &Path) -> PathBuf {
    folder.join("journal")
}

/// Reads what a folder's journal holds; `None` where there is none. No process has to use the folder: a journal that is written to
/// meanwhile may look torn.
///
/// # Errors
///
/// Where the disk refuses, the file is damaged or no journal of this version, or it is another member's.
pub fn read(folder: &Path, identity: &Identity) -> Outcome<Option<Recovered>> {
    let path = path(folder);
    let bytes = match fs::read(&path) {
        Ok(bytes) => bytes,
        Err(error) if error.kind() == io::ErrorKind::NotFound => return Ok(None),
        Err(error) => return Err(JournalError::new(&path, Cause::Disk(error))),
    };
    let refused = |cause| JournalError::new(&path, cause);
    let (found, recovered) = format::parse(&bytes).map_err(refused)?;
    match found.differs_from(identity) {
        Some(difference) => Err(refused(Cause::Other(difference))),
        None => Ok(Some(recovered)),
    }
}

/// The journal of a folder, which this process alone uses.
#[derive(Debug)]
pub struct Journal {
    folder: PathBuf,
    identity: Identity,
    /// The file that is appended to; none until it is replaced.
    file: Option<File>,
    /// The bytes of the file, and how many of them are synced.
    bytes: u64,
    synced: u64,
    entries: u64,
    is_dirty: bool,
    syncs: bool,
    has_failed: bool,
    /// Holds the lock.
    _lock: File,
}

impl Journal {
    /// Takes a folder, which is created where it does not exist, and reads the journal in it; `None` where there is none. The first call
    /// after that is [`Journal::replace`]. Without `syncs` nothing is waited for but replacements: a machine that loses power may then vote
    /// twice.
    ///
    /// # Errors
    ///
    /// Where another process has the folder, and those of [`read`].
    pub fn open(folder: &Path, identity: &Identity, syncs: bool) -> Outcome<(Journal, Option<Recovered>)> {
        make_folder(folder).map_err(JournalError::disk(folder))?;
        let lock = lock(folder)?;
        let recovered = read(folder, identity)?;
        let journal = Journal {
            folder: folder.to_owned(),
            identity: identity.clone(),
            file: None,
            bytes: 0,
            synced: 0,
            entries: 0,
            is_dirty: false,
            syncs,
            has_failed: false,
            _lock: lock,
        };
        Ok((journal, recovered))
    }

    /// The file.
    pub fn path(&self) -> PathBuf {
        path(&self.folder)
    }

    /// Puts a journal of these entries in the place of the folder's, in one step, which is synced: another file, `journal.new`, is written
    /// and renamed.
    ///
    /// # Errors
    ///
    /// Where the disk refuses. The journal of before or the new one is there then, and this one has failed. The same where the folder has
    /// no journal, and a `journal.new` that holds anything but a beginning of this one: it stays as it is ([`Cause::ReplacementAlone`]).
    pub fn replace(&mut self, entries: &Entries) -> Outcome {
        self.attempt(|it| {
            let mut bytes = format::head(&it.identity);
            bytes.extend_from_slice(&format::piece(entries, 0)?);
            replace(&it.folder, &bytes)?;
            it.file = Some(OpenOptions::new().append(true).open(path(&it.folder))?);
            it.bytes = bytes.len() as u64;
            it.synced = it.bytes;
            it.entries = entries.stored.entries.get();
            it.is_dirty = false;
            Ok(())
        })
    }

    /// Appends entries. They are on the disk after [`Journal::sync`].
    ///
    /// # Errors
    ///
    /// Where the disk refuses, or nothing was replaced yet. It has failed then.
    pub fn append(&mut self, entries: &Entries) -> Outcome {
        if self.file.is_none() && !self.has_failed {
            return Err(JournalError::new(&self.path(), Cause::NotBegun));
        }
        if entries.bytes.is_empty() {
            return Ok(());
        }
        self.attempt(|it| {
            let piece = format::piece(entries, it.synced)?;
            it.file.as_mut().map_or(Ok(()), |file| file.write_all(&piece))?;
            it.bytes += piece.len() as u64;
            it.entries = entries.stored.entries.get();
            it.is_dirty = true;
            Ok(())
        })
    }

    /// Returns whether something was appended since the last [`Journal::sync`].
    pub fn is_dirty(&self) -> bool {
        self.is_dirty
    }

    /// Waits until the disk has all that was appended. Returns whether it had to.
    ///
    /// # Errors
    ///
    /// Where the disk refuses. It has failed then: what the disk has is known by the next [`Journal::open`].
    pub fn sync(&mut self) -> Outcome<bool> {
        self.attempt(|it| {
            let had_to = std::mem::take(&mut it.is_dirty) && it.syncs;
            if had_to {
                it.file.as_ref().map_or(Ok(()), File::sync_data)?;
                it.synced = it.bytes;
            }
            Ok(had_to)
        })
    }

    /// How long the file is, in bytes.
    pub fn bytes(&self) -> u64 {
        self.bytes
    }

    /// How many entries the record in it has.
    pub fn entries(&self) -> u64 {
        self.entries
    }

    /// Does nothing once something failed: a disk that refused may have dropped what was written before.
    fn attempt<T>(&mut self, act: impl FnOnce(&mut Journal) -> Result<T, Cause>) -> Outcome<T> {
        if self.has_failed {
            return Err(JournalError::new(&self.path(), Cause::Failed));
        }
        act(self).map_err(|cause| {
            self.has_failed = true;
            JournalError::new(&self.path(), cause)
        })
    }
}

/// Takes a folder for this process alone. What is in a file of that name stays.
fn lock(folder: &Path) -> Outcome<File> {
    let path = folder.join(LOCK);
    let options = OpenOptions::new().create(true).write(true).truncate(false).open(&path);
    let file = options.map_err(JournalError::disk(&path))?;
    match file.try_lock() {
        Ok(()) => Ok(file),
        Err(TryLockError::WouldBlock) => Err(JournalError::new(folder, Cause::InUse)),
        Err(TryLockError::Error(error)) => Err(JournalError::new(&path, Cause::Disk(error))),
    }
}

/// Makes a folder where it does not exist, and those above it. Their names are on the disk then: a journal in a folder that a power cut
/// takes away is lost. Until the folder has a lock, an earlier process may have ended before it synced the names of those that are there.
fn make_folder(folder: &Path) -> io::Result<()> {
    let named = |it: &&Path| !it.as_os_str().is_empty();
    let all: Vec<&Path> = folder.ancestors().filter(named).collect();
    let missing = all.iter().take_while(|it| !it.exists()).count();
    let unsure = if folder.join(LOCK).exists() { missing } else { all.len() };
    fs::create_dir_all(folder)?;
    for (index, above) in all[..unsure].iter().filter_map(|it| it.parent()).enumerate() {
        let synced = sync_folder(Some(above).filter(named).unwrap_or(Path::new(".")));
        if index < missing {
            synced?; // (a folder of others may refuse to be read, or to be synced)
        }
    }
    Ok(())
}

fn sync_folder(folder: &Path) -> io::Result<()> {
    File::open(folder)?.sync_all()
}

fn replace(folder: &Path, bytes: &[u8]) -> Result<(), Cause> {
    let fresh = folder.join("journal.new");
    if !path(folder).try_exists()? && !is_begun(&fresh, bytes)? {
        return Err(Cause::ReplacementAlone);
    }
    let mut file = File::create(&fresh)?;
    file.write_all(bytes)?;
    file.sync_all()?;
    fs::rename(&fresh, path(folder))?;
    Ok(sync_folder(folder)?)
}

/// Returns whether a file is not there, or holds only what a crash leaves of these bytes: a beginning, and zeros where they were not
/// written.
fn is_begun(path: &Path, bytes: &[u8]) -> io::Result<bool> {
    match fs::read(path) {
        Ok(left) => Ok(left.len() <= bytes.len() && left.iter().zip(bytes).all(|(left, byte)| *left == *byte || *left == 0)),
        Err(error) if error.kind() == io::ErrorKind::NotFound => Ok(true),
        Err(error) => Err(error),
    }
}

#[cfg(test)]
mod tests {
    use super::*;
    use crate::scratch::scratch;
    use simplex_identity::members_digest;
    use simplex_view_state::Stored;

    /// A disk that refuses: the file is opened to be read alone.
    #[test]
    fn after_an_error_nothing_more_is_done() {
        let folder = scratch("failed");
        let network = "test".to_owned().try_into().expect("a name");
        let members = members_digest(&[[8; 32]]);
        let identity = Identity {
            network,
            key: [8; 32],
            epoch: 1,
            term_length: 1,
            members,
        };
        let stored = Stored::from_bytes(&[0; Stored::SIZE]).expect("numbers");
        let entries = Entries { bytes: vec![1; 9], stored };
        let (mut journal, _) = Journal::open(&folder, &identity, true).expect("a disk");
        journal.replace(&entries).expect("a disk");
        journal.file = Some(File::open(journal.path()).expect("a file"));
        let refused = journal.append(&entries).expect_err("it can't be written");
        assert!(
            matches!(refused.cause, Cause::Disk(_)) && refused.path == journal.path(),
            "{refused}"
        );
        let after = [
            journal.append(&entries).err(),
            journal.sync().err(),
            journal.replace(&entries).err(),
        ];
        assert!(after.iter().flatten().all(|it| matches!(it.cause, Cause::Failed)), "{after:?}");
        assert_eq!(after.iter().flatten().count(), 3);
    }
}
