//! How the folder of a member's data is made: once, by a call of its own. So no node that lost its journal begins another one.

use crate::floor;
use crate::named::named;
use crate::settings::{Outcome, Settings};
use crate::start::begin_journal;
use simplex_journal::Journal;
use simplex_view_state::{Moment, Options};
use std::fs::{self, DirEntry};
use std::io::{self, ErrorKind};
use std::path::Path;

/// Makes the folder of a member that has never voted: a journal without a vote, which says whose it is by its key, network, epoch, members
/// and term length. [`run`](crate::run) begins with such a folder alone. A call that a crash ended early may be made again.
///
/// # Errors
///
/// Where the folder holds something else than such a call left, another process has it, or the settings or the disk refuse. What the folder
/// holds stays as it is.
pub fn init(settings: &Settings) -> Outcome {
    let folder = &settings.data;
    test_free(folder)?;
    let (identity, floor) = (settings.identity()?, floor::read(settings)?);
    let mut engine = simplex_journal::engine(None, &settings.config(floor)?, &Options::default())?;
    let (mut journal, recovered) = Journal::open(folder, &identity, true)?;
    if recovered.is_some() {
        return Err(holds(folder, "journal").into());
    }
    begin_journal(&mut engine, &mut journal, Moment::from_millis(0))
}

/// Refuses a folder that holds something else than an `init` left that ended early.
fn test_free(folder: &Path) -> Outcome {
    let entries = match fs::read_dir(folder) {
        Ok(entries) => entries,
        Err(error) if error.kind() == ErrorKind::NotFound => return Ok(()),
        Err(error) => return Err(named(folder)(error).into()),
    };
    for entry in entries {
        let entry = entry.map_err(named(folder))?;
        if !is_of_init(&entry).map_err(named(&entry.path()))? {
            return Err(holds(folder, &entry.file_name().to_string_lossy()).into());
        }
    }
    Ok(())
}

/// Returns whether an `init` makes such a file before the journal. What is in `journal.new` is compared where it is written.
fn is_of_init(entry: &DirEntry) -> io::Result<bool> {
    let (name, metadata) = (entry.file_name(), entry.metadata()?);
    Ok(metadata.is_file() && (name == "journal.new" || name == "lock" && metadata.len() == 0))
}

fn holds(folder: &Path, name: &str) -> String {
    format!(
        "{} holds {name}, and stays as it is: a member whose journal is there runs without init, and a new one needs a folder that is empty \
         or not there yet: name another one as `data`",
        folder.display()
    )
}
