//! The repository's scripts (`tests/scripts`), served through the package: each line has the reply that its page says.

#[allow(dead_code, reason = "an example has a `main`")]
#[path = "../examples/first_script.rs"]
mod first_script;

use first_script::{Voter, config};
use std::error::Error;
use std::fs;
use std::path::Path;

/// As many scripts of a voter as there are at least.
const LEAST: usize = 80;

const PAGES: &str = concat!(env!("CARGO_MANIFEST_DIR"), "/../../tests/scripts");

/// The mark between a line and its reply.
const REPLIED: &str = " => ";

/// Stands for a reply that a script doesn't look at.
const ANY: &str = "*";

#[test]
fn each_line_has_its_reply() -> Result<(), Box<dyn Error>> {
    let mut served = 0;
    for page in fs::read_dir(PAGES)? {
        served += page_served(&page?.path())?;
    }
    assert!(served >= LEAST, "{served} scripts were served");
    Ok(())
}

/// How many scripts of a page were served.
fn page_served(page: &Path) -> Result<usize, Box<dyn Error>> {
    if page.file_stem().is_some_and(|name| name == "misuses") {
        return Ok(0);
    }
    let text = fs::read_to_string(page)?;
    let mut served = 0;
    for script in text.split("\n## ").skip(1) {
        served += usize::from(is_served(script)?);
    }
    Ok(served)
}

/// Serves a script of a voter, a page's part: its name, and below it the command and the lines.
fn is_served(script: &str) -> Result<bool, Box<dyn Error>> {
    let mut rows = script.lines().filter_map(|row| row.strip_prefix("    "));
    let command = rows.next().ok_or("a script without a command")?;
    let ["$", "viewstate", "voter", members, me, terms, optimistic] = command.split(' ').collect::<Vec<_>>()[..] else {
        return Ok(false);
    };
    let mut voter = Voter::start(config(members, me, terms, optimistic)?, None)?;
    for row in rows {
        // a line without a reply is no call: it ends the program, and the package has no such call
        let Some((line, wanted)) = row.split_once(REPLIED) else { break };
        let wanted = wanted.trim_end_matches("\\c");
        let reply = voter.answer(line)?;
        assert!(wanted == ANY || reply == wanted, "{line}: {reply}, and not {wanted}, in: {script}");
    }
    Ok(true)
}
