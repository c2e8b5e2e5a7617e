//! Reads traces of one network into one.

use crate::events::{Code, NOBODY, Seen, Tables};
use crate::page::PageError;
use simplex_trace::{Header, Reader};
use std::collections::HashMap;
use std::fs::File;
use std::io::BufReader;
use std::path::PathBuf;

/// All that the traces of a network say.
#[derive(Debug)]
pub struct Run {
    /// The network.
    pub header: Header,
    /// The events, in the order of time.
    pub events: Vec<Seen>,
    /// The tables that events point into.
    pub tables: Tables,
    /// The first moment, in microseconds.
    pub begun: u64,
    /// How many events the traces have.
    pub count: usize,
}

impl Run {
    /// Reads traces of one network. Returns an error where one is refused, or is of another network than the first.
    pub fn read(paths: &[PathBuf]) -> Result<Run, PageError> {
        let mut run: Option<Run> = None;
        for path in paths {
            let file = File::open(path).map_err(|error| PageError::Io(path.clone(), error))?;
            let mut reader = Reader::new(BufReader::with_capacity(1 << 20, file)).map_err(|error| PageError::Trace(path.clone(), error))?;
            let run = run.get_or_insert_with(|| Run::of(reader.header.clone()));
            if !reader.header.is_of_the_network_of(&run.header) {
                return Err(PageError::OtherNetwork(path.clone()));
            }
            for line in reader.by_ref() {
                let line = line.map_err(|error| PageError::Trace(path.clone(), error))?;
                let seen = run.tables.seen(line.at, line.member, line.view, line.event);
                run.events.push(seen);
            }
            run.add_faulty(&reader.header);
        }
        let mut run = run.ok_or(PageError::NoTrace)?;
        run.events.sort_by_key(|it| it.at);
        run.count = run.events.len();
        run.add_crashes();
        run.begun = run.events.first().map_or(0, |it| it.at);
        Ok(run)
    }

    fn of(header: Header) -> Run {
        Run {
            header,
            events: Vec::new(),
            tables: Tables::default(),
            begun: 0,
            count: 0,
        }
    }

    /// Adds the crashes that no trace has: a process that is killed writes none. It ended with its last event before it came back.
    fn add_crashes(&mut self) {
        let mut last: HashMap<u32, Seen> = HashMap::new();
        let mut crashes = Vec::new();
        for it in &self.events {
            let before = last.insert(it.member, *it).filter(|before| before.code != Code::Crash);
            if let (Code::Resume, Some(before)) = (it.code, before) {
                let (code, view, choice, other, value) = (Code::Crash, 0, 0, NOBODY, 0);
                crashes.push(Seen {
                    code,
                    view,
                    choice,
                    other,
                    value,
                    ..before
                });
            }
        }
        if !crashes.is_empty() {
            self.events.extend(crashes);
            self.events.sort_by_key(|it| it.at);
        }
    }

    fn add_faulty(&mut self, header: &Header) {
        self.header.faulty.extend(&header.faulty);
        self.header.faulty.sort_unstable();
        self.header.faulty.dedup();
    }

    /// The highest view in which an engine did something. A faulty member may send votes of any view, and ask for any.
    pub fn highest(&self) -> u64 {
        let is_of_engine = |it: &&Seen| {
            let is_vote = matches!(
                it.code,
                Code::Notarize | Code::Nullify | Code::Finalize | Code::Build | Code::Handoff
            );
            is_vote || (Code::NotarizationMade..=Code::FinalizationAccepted).contains(&it.code) || it.code == Code::Finalized
        };
        self.events.iter().filter(is_of_engine).map(|it| it.view).max().unwrap_or(0)
    }
}
