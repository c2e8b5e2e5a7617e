//! A file that a trace is written to.

use crate::event::Line;
use crate::header::Header;
use crate::reader::header_of;
use std::fmt;
use std::fs::{self, File, OpenOptions};
use std::io::{self, BufRead, BufReader, BufWriter, Read, Write};
use std::path::{Path, PathBuf};

/// How many bytes a header has at most.
const LONGEST_HEADER: u64 = 1 << 20;

/// Why a file is not written.
#[derive(Debug)]
pub enum FileError {
    /// It can't be opened or written.
    Io(PathBuf, io::Error),
    /// It holds something else than a trace of this version.
    NoTrace(PathBuf),
    /// It holds a trace that another program wrote.
    OfAnother(PathBuf, String),
    /// It holds a trace of another network.
    OtherNetwork(PathBuf),
}

impl fmt::Display for FileError {
    fn fmt(&self, f: &mut fmt::Formatter<'_>) -> fmt::Result {
        match self {
            FileError::Io(path, error) => write!(f, "{}: {error}", path.display()),
            FileError::NoTrace(path) => write!(
                f,
                "{} is there and is no trace of this version, so it stays as it is: name another file, or move it away",
                path.display()
            ),
            FileError::OfAnother(path, source) => write!(
                f,
                "{} is a trace that {source} wrote, so it stays as it is: name another file, or move it away",
                path.display()
            ),
            FileError::OtherNetwork(path) => write!(
                f,
                "{} is a trace of another network, so nothing is appended to it: name another file, or move it away",
                path.display()
            ),
        }
    }
}

impl std::error::Error for FileError {}

/// A file of lines.
#[derive(Debug)]
pub struct TraceFile {
    file: BufWriter<File>,
}

impl TraceFile {
    /// Writes a new trace, in place of an earlier one of the same program. Any other file that is there is refused, and stays as it is.
    pub fn create(path: &Path, header: &Header) -> Result<TraceFile, FileError> {
        let earlier = header_at(path)?.filter(|it| program(&it.source) != program(&header.source));
        if let Some(earlier) = earlier {
            return Err(FileError::OfAnother(path.to_owned(), earlier.source));
        }
        let named = |error| FileError::Io(path.to_owned(), error);
        let file = File::create(path).map_err(named)?;
        TraceFile::of(file, header).map_err(named)
    }

    /// Appends a process lifetime to a trace of the same network, or begins one. A last line that was cut off goes. Any other file that is
    /// there is refused, and stays as it is.
    pub fn append(path: &Path, header: &Header) -> Result<TraceFile, FileError> {
        if header_at(path)?.is_some_and(|it| !it.is_of_the_network_of(header)) {
            return Err(FileError::OtherNetwork(path.to_owned()));
        }
        let named = |error| FileError::Io(path.to_owned(), error);
        let file = OpenOptions::new().create(true).append(true).open(path).map_err(named)?;
        cut_last_line(path, &file).map_err(named)?;
        TraceFile::of(file, header).map_err(named)
    }

    fn of(file: File, header: &Header) -> io::Result<TraceFile> {
        let mut file = BufWriter::new(file);
        serde_json::to_writer(&mut file, header)?;
        file.write_all(b"\n")?;
        Ok(TraceFile { file })
    }

    /// Writes a line.
    pub fn write(&mut self, line: &Line) -> io::Result<()> {
        serde_json::to_writer(&mut self.file, line)?;
        self.file.write_all(b"\n")
    }

    /// Passes what was written to the operating system.
    pub fn flush(&mut self) -> io::Result<()> {
        self.file.flush()
    }
}

/// The header of a trace that is there; `None` where there is no file, or an empty one. A file that is no trace is refused.
fn header_at(path: &Path) -> Result<Option<Header>, FileError> {
    let named = |error| FileError::Io(path.to_owned(), error);
    let mut line = Vec::new();
    match File::open(path) {
        Err(error) if error.kind() == io::ErrorKind::NotFound => return Ok(None),
        Err(error) => return Err(named(error)),
        Ok(file) => BufReader::new(file.take(LONGEST_HEADER))
            .read_until(b'\n', &mut line)
            .map_err(named)?,
    };
    if line.is_empty() {
        return Ok(None);
    }
    let line = String::from_utf8(line).unwrap_or_default();
    match header_of(&line) {
        Some(Ok(header)) => Ok(Some(header)),
        Some(Err(_)) | None => Err(FileError::NoTrace(path.to_owned())),
    }
}

/// The program's name in a header's source, without its version.
fn program(source: &str) -> &str {
    source.split(' ').next().unwrap_or_default()
}

fn cut_last_line(path: &Path, file: &File) -> io::Result<()> {
    let end = fs::read(path)?.iter().rposition(|it| *it == b'\n');
    file.set_len(end.map_or(0, |it| it as u64 + 1))
}

#[cfg(test)]
mod tests {
    use super::*;
    use crate::event::Event;
    use crate::header::VERSION;
    use crate::reader::Trace;

    fn header() -> Header {
        Header {
            simplex_trace: VERSION,
            source: "test".into(),
            members: 4,
            faulty: Vec::new(),
            term_length: 1,
            optimistic_views: 0,
            epoch: 1,
        }
    }

    fn scratch(name: &str) -> PathBuf {
        let path = std::env::temp_dir().join(format!("simplex-trace-{}-{name}", std::process::id()));
        let _ = fs::remove_file(&path);
        path
    }

    #[test]
    fn a_file_that_is_no_trace_stays_as_it_is() {
        let path = scratch("thesis");
        fs::write(&path, "years of work").expect("a disk");
        for refused in [TraceFile::create(&path, &header()), TraceFile::append(&path, &header())] {
            let said = refused.expect_err("it is refused").to_string();
            assert!(said.contains("name another file, or move it away"), "{said}");
        }
        assert_eq!(fs::read_to_string(&path).expect("it is there"), "years of work");
        fs::remove_file(path).expect("a disk");
    }

    #[test]
    fn a_trace_of_another_program_or_network_stays_as_it_is() {
        let path = scratch("others");
        drop(TraceFile::create(&path, &header()).expect("a disk"));
        let text = fs::read_to_string(&path).expect("a disk");
        let (source, members) = ("simplex-node 1".to_owned(), 5);
        let of_another = TraceFile::create(&path, &Header { source, ..header() });
        let of_others = TraceFile::append(&path, &Header { members, ..header() });
        for refused in [of_another, of_others] {
            let said = refused.expect_err("it is refused").to_string();
            assert!(said.contains("name another file, or move it away"), "{said}");
        }
        assert_eq!(fs::read_to_string(&path).expect("a disk"), text);
        let later = "test 2".to_owned();
        assert!(TraceFile::create(&path, &Header { source: later, ..header() }).is_ok());
        fs::remove_file(path).expect("a disk");
    }

    #[test]
    fn a_lifetime_is_appended_after_the_last_whole_line() {
        let path = scratch("lives");
        for at in 0..2 {
            let mut file = TraceFile::append(&path, &header()).expect("a disk");
            let (member, event) = (Some(1), Event::Start);
            let line = Line {
                at,
                member,
                view: 0,
                event,
            };
            file.write(&line).expect("a disk");
            file.flush().expect("a disk");
            OpenOptions::new()
                .append(true)
                .open(&path)
                .and_then(|mut it| it.write_all(b"{\"at\":7"))
                .expect("a disk");
        }
        let trace = Trace::read(fs::read(&path).expect("a disk").as_slice()).expect("a trace");
        assert_eq!(trace.lines.iter().map(|it| it.at).collect::<Vec<_>>(), [0, 1]);
        fs::remove_file(path).expect("a disk");
    }
}
