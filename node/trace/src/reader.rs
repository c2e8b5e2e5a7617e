//! Reads traces.

use crate::event::Line;
use crate::header::{Header, VERSION};
use std::fmt;
use std::io::{self, BufRead};

/// How the first line of a trace begins.
const BEGINNING: &str = "{\"simplex_trace\":";

/// Why a trace is refused.
#[derive(Debug)]
pub enum ReadError {
    /// It can't be read.
    Io(io::Error),
    /// Its first line is no header.
    NoTrace,
    /// Another version of the format.
    OtherVersion(u32),
    /// A line is none of a trace: its number from 1, and why.
    Line(u64, String),
    /// A header in the midst is of another network: the number of its line.
    OtherNetwork(u64),
}

impl fmt::Display for ReadError {
    fn fmt(&self, f: &mut fmt::Formatter<'_>) -> fmt::Result {
        match self {
            ReadError::Io(error) => error.fmt(f),
            ReadError::NoTrace => write!(
                f,
                "the first line is no header of a trace: name a file that simplex-sim, simplex-node or simplex-local wrote with --trace"
            ),
            ReadError::OtherVersion(version) => write!(
                f,
                "the trace has version {version}, and this program reads version {VERSION}: use the release that wrote it"
            ),
            ReadError::Line(number, why) => write!(f, "line {number}: {why}: remove that line, or write the trace again"),
            ReadError::OtherNetwork(number) => write!(
                f,
                "line {number}: a header of another network: traces of one network belong together"
            ),
        }
    }
}

impl std::error::Error for ReadError {}

impl From<io::Error> for ReadError {
    fn from(error: io::Error) -> ReadError {
        ReadError::Io(error)
    }
}

/// A whole trace in memory.
#[derive(Clone, PartialEq, Eq, Debug)]
pub struct Trace {
    /// The network.
    pub header: Header,
    /// The lines, in the order of the file.
    pub lines: Vec<Line>,
}

impl Trace {
    /// Reads a whole trace. See [`Reader`] for what is refused.
    pub fn read(from: impl BufRead) -> Result<Trace, ReadError> {
        let mut reader = Reader::new(from)?;
        let lines = reader.by_ref().collect::<Result<_, _>>()?;
        Ok(Trace {
            header: reader.header,
            lines,
        })
    }
}

/// Reads a trace line by line.
///
/// A last line without an end is left out: a process that ends in the midst of writing leaves one. Any other line that is none of a trace
/// is an error. Fields that this version does not know are ignored.
#[derive(Debug)]
pub struct Reader<R> {
    /// The network.
    pub header: Header,
    from: R,
    text: String,
    number: u64,
}

impl<R: BufRead> Reader<R> {
    /// Reads the header. Returns an error where the first line is none, or one of another version.
    pub fn new(mut from: R) -> Result<Reader<R>, ReadError> {
        let mut text = String::new();
        from.read_line(&mut text)?;
        let header = header_of(&text).ok_or(ReadError::NoTrace)??;
        Ok(Reader {
            header,
            from,
            text,
            number: 1,
        })
    }

    /// The next line of an event; `None` at the end.
    fn next_line(&mut self) -> Result<Option<Line>, ReadError> {
        loop {
            self.text.clear();
            self.from.read_line(&mut self.text)?;
            if !self.text.ends_with('\n') {
                return Ok(None);
            }
            self.number += 1;
            match header_of(&self.text) {
                Some(header) => self.take_header(header?)?,
                None => {
                    let line = serde_json::from_str(&self.text);
                    return line.map(Some).map_err(|error| ReadError::Line(self.number, error.to_string()));
                }
            }
        }
    }

    fn take_header(&mut self, header: Header) -> Result<(), ReadError> {
        if !header.is_of_the_network_of(&self.header) {
            return Err(ReadError::OtherNetwork(self.number));
        }
        let fresh = header.faulty.into_iter().filter(|it| !self.header.faulty.contains(it));
        let fresh: Vec<u32> = fresh.collect();
        self.header.faulty.extend(fresh);
        Ok(())
    }
}

/// The header of a line; `None` where it is no header.
pub(crate) fn header_of(line: &str) -> Option<Result<Header, ReadError>> {
    if !line.starts_with(BEGINNING) {
        return None;
    }
    let version = line[BEGINNING.len()..]
        .split(|it: char| !it.is_ascii_digit())
        .next()?
        .parse()
        .ok()?;
    if version != VERSION {
        return Some(Err(ReadError::OtherVersion(version)));
    }
    Some(serde_json::from_str(line).map_err(|error| ReadError::Line(1, error.to_string())))
}

impl<R: BufRead> Iterator for Reader<R> {
    type Item = Result<Line, ReadError>;

    fn next(&mut self) -> Option<Result<Line, ReadError>> {
        self.next_line().transpose()
    }
}

#[cfg(test)]
mod tests {
    use super::*;
    use crate::event::{Event, Proposal, VoteKind};

    const HEADER: &str = r#"{"simplex_trace":1,"source":"x","members":4,"faulty":[],"term_length":1,"optimistic_views":0,"epoch":1}"#;

    fn read(text: &str) -> Result<Trace, ReadError> {
        Trace::read(text.as_bytes())
    }

    #[test]
    fn a_vote_is_one_object_a_line() {
        let line = Line {
            at: 1500,
            member: Some(3),
            view: 7,
            event: Event::Vote {
                kind: VoteKind::Notarize,
                proposal: Some(Proposal {
                    parent: 6,
                    payload: "00ff".into(),
                }),
            },
        };
        let text = serde_json::to_string(&line).expect("json");
        assert_eq!(
            text,
            r#"{"at":1500,"member":3,"view":7,"event":"vote","kind":"notarize","proposal":{"parent":6,"payload":"00ff"}}"#
        );
        assert_eq!(read(&format!("{HEADER}\n{text}\n")).expect("a trace").lines, [line]);
    }

    #[test]
    fn a_last_line_that_was_cut_off_is_left_out_and_no_other() {
        let crash = r#"{"at":1,"member":0,"view":0,"event":"crash"}"#;
        let cut = read(&format!("{HEADER}\n{crash}\n{}", &crash[..20])).expect("a trace");
        assert_eq!(cut.lines.len(), 1);
        let broken = read(&format!("{HEADER}\n{}\n{crash}\n", &crash[..20])).expect_err("a broken line");
        assert!(broken.to_string().starts_with("line 2: "), "{broken}");
    }

    #[test]
    fn another_version_and_no_trace_are_refused_by_name() {
        let other = read(&HEADER.replace("trace\":1", "trace\":2")).expect_err("version 2");
        assert!(other.to_string().contains("version 2"), "{other}");
        assert!(matches!(read("years of work\n"), Err(ReadError::NoTrace)));
        assert!(matches!(read(""), Err(ReadError::NoTrace)));
    }

    #[test]
    fn a_lifetime_begins_with_a_header_of_the_same_network() {
        let again = format!("{HEADER}\n{HEADER}\n");
        assert!(read(&again).expect("a trace").lines.is_empty());
        let other = format!("{HEADER}\n{}\n", HEADER.replace("members\":4", "members\":5"));
        assert!(matches!(read(&other), Err(ReadError::OtherNetwork(2))));
    }
}
