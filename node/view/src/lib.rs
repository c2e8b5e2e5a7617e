//! Makes a page of traces, on which a run of a Simplex network can be looked at: one file of HTML that needs no network.
//!
//! [`write`] reads traces of one network and writes the page. It never writes over a file that is no earlier page.

#![deny(missing_docs)]

mod chain;
mod events;
mod facts;
mod merge;
mod pack;
mod page;
mod reasons;
mod summary;

use merge::Run;
pub use page::PageError;
use std::fs;
use std::path::{Path, PathBuf};
pub use summary::Summary;

/// Reads traces of one network, and writes a page of them. Returns what the page shows.
///
/// Returns an error where a trace is refused, where traces are of different networks, and where the file is there and is no earlier page.
pub fn write(traces: &[PathBuf], out: &Path) -> Result<Summary, PageError> {
    test_output(out)?;
    let run = Run::read(traces)?;
    let (html, summary) = page::of(&run)?;
    fs::write(out, html).map_err(|error| PageError::Io(out.to_owned(), error))?;
    Ok(summary)
}

/// Refuses a file that is there and is no earlier page.
pub fn test_output(out: &Path) -> Result<(), PageError> {
    page::test_output(out)
}
