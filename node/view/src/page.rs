//! The page: one file that holds all that it needs.

use crate::events::REASONS;
use crate::facts::{self, Facts};
use crate::merge::Run;
use crate::pack::{base64, pack};
use crate::reasons::reason;
use crate::summary::Summary;
use serde_json::{Value, json};
use simplex_trace::{ReadError, Withheld};
use std::fmt;
use std::fs::File;
use std::io::{self, Read};
use std::path::{Path, PathBuf};

/// How a page begins: so an earlier page is known.
const BEGINNING: &str = "<!doctype html>\n<meta name=\"generator\" content=\"simplex-view\">\n";
const BODY: &str = include_str!("../page/page.html");
const STYLE: &str = include_str!("../page/style.css");
/// The modules of the page, by the names that they import each other by.
const MODULES: [(&str, &str); 8] = [
    ("simplex/data", include_str!("../page/data.js")),
    ("simplex/words", include_str!("../page/words.js")),
    ("simplex/theme", include_str!("../page/theme.js")),
    ("simplex/grid", include_str!("../page/grid.js")),
    ("simplex/chain", include_str!("../page/chain.js")),
    ("simplex/timeline", include_str!("../page/timeline.js")),
    ("simplex/detail", include_str!("../page/detail.js")),
    ("simplex/main", include_str!("../page/main.js")),
];

/// Why no page is written.
#[derive(Debug)]
pub enum PageError {
    /// A file can't be read or written.
    Io(PathBuf, io::Error),
    /// A trace is refused.
    Trace(PathBuf, ReadError),
    /// A trace is of another network than the first.
    OtherNetwork(PathBuf),
    /// No trace is named.
    NoTrace,
    /// The page's file holds something else.
    NoPage(PathBuf),
    /// The page can't be put into JSON.
    Json(serde_json::Error),
}

impl fmt::Display for PageError {
    fn fmt(&self, f: &mut fmt::Formatter<'_>) -> fmt::Result {
        match self {
            PageError::Io(path, error) => write!(f, "{}: {error}", path.display()),
            PageError::Trace(path, error) => write!(f, "{}: {error}", path.display()),
            PageError::OtherNetwork(path) => write!(
                f,
                "{} is of another network than the first trace: make a page of each network",
                path.display()
            ),
            PageError::NoTrace => write!(f, "no trace is named"),
            PageError::NoPage(path) => write!(
                f,
                "{} is there and is no page of simplex-view, so it stays as it is: name another file with -o, or move it away",
                path.display()
            ),
            PageError::Json(error) => write!(f, "the page can't be written: {error}"),
        }
    }
}

impl std::error::Error for PageError {}

/// Refuses a file that is there and is no earlier page.
pub fn test_output(out: &Path) -> Result<(), PageError> {
    let named = |error| PageError::Io(out.to_owned(), error);
    let mut start = Vec::new();
    match File::open(out) {
        Err(error) if error.kind() == io::ErrorKind::NotFound => return Ok(()),
        Err(error) => return Err(named(error)),
        Ok(file) => file.take(BEGINNING.len() as u64).read_to_end(&mut start).map_err(named)?,
    };
    match start == BEGINNING.as_bytes() {
        true => Ok(()),
        false => Err(PageError::NoPage(out.to_owned())),
    }
}

/// The page of a run, and what it shows.
pub fn of(run: &Run) -> Result<(String, Summary), PageError> {
    let facts = facts::of(run);
    let summary = Summary::of(run, &facts);
    let data = data(run, &facts, &summary).map_err(PageError::Json)?;
    let modules: serde_json::Map<String, Value> = MODULES.iter().map(|(name, text)| ((*name).to_owned(), module(text))).collect();
    let imports = json!({ "imports": modules });
    let parts = [
        BEGINNING,
        "<html lang=\"en\"><head><meta charset=\"utf-8\"><title>Simplex run</title>\n<style>",
        STYLE,
        "</style>\n<script type=\"importmap\">",
        &imports.to_string(),
        "</script></head>\n",
        BODY,
        "<script type=\"application/json\" id=\"data\">",
        &in_script(&data),
        "</script>\n<script type=\"text/plain\" id=\"events\">",
        &base64(&pack(&run.events, run.begun)),
        "</script>\n<script type=\"module\">import \"simplex/main\";</script>\n</html>\n",
    ];
    Ok((parts.concat(), summary))
}

/// A module as an address that needs no network.
fn module(text: &str) -> Value {
    Value::String(format!("data:text/javascript;base64,{}", base64(text.as_bytes())))
}

/// JSON that ends no script.
fn in_script(json: &str) -> String {
    json.replace('<', "\\u003c")
}

/// Returns what the page knows besides its events.
fn data(run: &Run, facts: &[Facts], summary: &Summary) -> Result<String, serde_json::Error> {
    let (header, tables) = (&run.header, &run.tables);
    let views = 1..facts.len();
    let proposals = views.clone().map(|view| {
        let all = tables.proposals.get(&(view as u64));
        let all = all.into_iter().flatten().map(|it| json!([it.parent, it.payload]));
        Value::Array(all.collect())
    });
    let lost = views.clone().filter_map(|view| Some(json!([view, reason(run, facts, view)?])));
    let bits = |it: &Facts| u8::from(it.notarized > 0) | u8::from(it.is_nullified) << 1 | u8::from(it.is_finalized) << 2;
    serde_json::to_string(&json!({
        "header": header,
        "quorum": header.quorum(),
        "begun": run.begun,
        "summary": summary,
        "fates": facts[1..].iter().map(|it| it.fate as u8).collect::<Vec<_>>(),
        "certificates": facts[1..].iter().map(bits).collect::<Vec<_>>(),
        "chosen": facts[1..].iter().map(|it| it.final_choice).collect::<Vec<_>>(),
        "notarized": facts[1..].iter().map(|it| it.notarized).collect::<Vec<_>>(),
        "proposals": proposals.collect::<Vec<_>>(),
        "lost": lost.collect::<Vec<_>>(),
        "sets": tables.sets,
        "texts": tables.texts,
        "reasons": REASONS.map(|it| it.to_string()),
        "withheld": Withheld::ALL.map(|it| it.to_string()),
    }))
}
