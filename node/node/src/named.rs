//! Errors of files, with the file's name: "No space left on device" alone says nobody where.

use std::io;
use std::path::Path;

/// Puts the file's name before an error.
pub fn named(path: &Path) -> impl Fn(io::Error) -> io::Error + '_ {
    |error| io::Error::new(error.kind(), format!("{}: {error}", path.display()))
}

/// Puts the file's name before an error of a write, and what to do after it.
pub fn not_stored(path: &Path) -> impl Fn(io::Error) -> io::Error + '_ {
    |error| {
        io::Error::new(
            error.kind(),
            format!("{}: {error}. {}", path.display(), simplex_journal::BEGIN_AGAIN),
        )
    }
}
