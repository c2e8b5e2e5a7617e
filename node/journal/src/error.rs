//! Why a journal is refused.

use crate::format::VERSION;
use simplex_identity::Difference;
use std::path::{Path, PathBuf};
use std::{fmt, io};

/// The advice where votes may be lost.
pub const NEW_KEY: &str = "If there is none, this key must never vote again: the member needs a new one, with the next epoch";

/// The advice where the disk refuses a write.
pub const BEGIN_AGAIN: &str = "Make room or mend the disk, then start again: no vote was sent that is not stored";

/// An error of a journal, with the file that it is about.
#[derive(Debug)]
pub struct JournalError {
    /// The file.
    pub path: PathBuf,
    /// The cause.
    pub cause: Cause,
}

/// Why a journal is refused.
#[derive(Debug)]
pub enum Cause {
    /// The disk refuses.
    Disk(io::Error),
    /// Another process uses the folder: two that vote with one key could contradict each other.
    InUse,
    /// The file is no journal.
    NoJournal,
    /// Another release wrote it, with this version.
    OtherVersion(u8),
    /// Its votes, of this version, are signed without the namespace of a network.
    OfNoNamespace(u8),
    /// It is another member's, or of another network, epoch, list of members or term length.
    Other(Difference),
    /// Bytes are changed after this many whole ones. Votes may be among them, so this key must not vote again.
    Damaged(usize),
    /// A `journal.new` that is not a beginning of what is written is here, and the journal that it was to replace is not.
    ReplacementAlone,
    /// An append, where nothing was replaced yet: an engine's first output replaces all.
    NotBegun,
    /// An earlier call failed, so it is not known what is on the disk.
    Failed,
}

impl JournalError {
    pub(crate) fn new(path: &Path, cause: Cause) -> JournalError {
        JournalError {
            path: path.to_owned(),
            cause,
        }
    }

    /// The same of the disk's errors.
    pub(crate) fn disk(path: &Path) -> impl Fn(io::Error) -> JournalError + '_ {
        |error| JournalError::new(path, Cause::Disk(error))
    }
}

impl From<io::Error> for Cause {
    fn from(error: io::Error) -> Cause {
        Cause::Disk(error)
    }
}

impl fmt::Display for JournalError {
    fn fmt(&self, f: &mut fmt::Formatter<'_>) -> fmt::Result {
        write!(f, "{}: {}", self.path.display(), self.cause)
    }
}

impl std::error::Error for JournalError {
    fn source(&self) -> Option<&(dyn std::error::Error + 'static)> {
        match &self.cause {
            Cause::Disk(error) => Some(error),
            _ => None,
        }
    }
}

impl fmt::Display for Cause {
    fn fmt(&self, f: &mut fmt::Formatter<'_>) -> fmt::Result {
        match self {
            Cause::Disk(error) => write!(f, "the journal can't be read or written: {error}. {BEGIN_AGAIN}"),
            Cause::InUse => f.write_str("another process has this folder: end it first, or name another folder"),
            Cause::NoJournal => f.write_str("this is no journal: move it away, and put the member's journal back"),
            Cause::OtherVersion(it) => write!(
                f,
                "the journal has version {it}, and this release reads {VERSION}: run the release that wrote it"
            ),
            Cause::OfNoNamespace(it) => write!(
                f,
                "the journal has version {it}, whose votes are signed without a network's namespace, and count in none of this release: end \
                 the epoch with the release that wrote it, and begin the next epoch with this one, in a folder of its own"
            ),
            Cause::Other(difference) => write!(f, "this journal is not this member's: {difference}"),
            Cause::Damaged(at) => write!(
                f,
                "the journal is damaged after {at} bytes, and votes may be lost: put back a whole copy of these very bytes. {NEW_KEY}"
            ),
            Cause::ReplacementAlone => write!(
                f,
                "the journal is not here, and `journal.new`, which was to replace it, may hold votes: for a key that has never voted name another \
                 folder, else put the journal back. {NEW_KEY}"
            ),
            Cause::NotBegun => f.write_str("entries are appended to a journal that has none: replace it first"),
            Cause::Failed => f.write_str("the journal failed before: open it again"),
        }
    }
}
