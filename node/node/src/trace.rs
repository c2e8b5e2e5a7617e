//! All votes that a node sent or was sent, as lines of a file, for audits.

use crate::named::named;
use simplex_view_state::{Participant, Subject, Vote};
use simplex_wire::now_us;
use std::fs::{self, File, OpenOptions};
use std::io::{self, BufWriter, Write};
use std::path::{Path, PathBuf};

/// A file of votes.
pub struct Trace {
    path: PathBuf,
    file: BufWriter<File>,
}

/// A vote of a trace.
#[derive(Clone, PartialEq, Eq, PartialOrd, Ord, Debug)]
pub struct Line {
    /// The member that signed it.
    pub signer: u32,
    /// `n`: to notarize, `x`: to nullify, `f`: to finalize.
    pub kind: char,
    /// Its view.
    pub view: u64,
    /// The proposal that it is for: its parent's view and its digest; nothing for a vote to nullify.
    pub proposal: String,
    /// When it was seen, in microseconds since 1970.
    pub seen_us: u64,
}

impl Trace {
    /// Continues with a file. A last line that a crash cut off goes: the next one would run into it.
    pub fn open(path: &Path) -> io::Result<Trace> {
        let file = OpenOptions::new().create(true).append(true).open(path).map_err(named(path))?;
        let end = fs::read(path).map_err(named(path))?.iter().rposition(|it| *it == b'\n');
        file.set_len(end.map_or(0, |it| it as u64 + 1)).map_err(named(path))?;
        Ok(Trace {
            path: path.to_owned(),
            file: BufWriter::new(file),
        })
    }

    /// Writes a vote down.
    pub fn write(&mut self, vote: &Vote) -> io::Result<()> {
        let view = vote.subject.round().view;
        let (kind, proposal) = match &vote.subject {
            Subject::Notarize(it) => ('n', format!("{} {}", it.parent, it.payload)),
            Subject::Nullify(_) => ('x', "-".to_owned()),
            Subject::Finalize(it) => ('f', format!("{} {}", it.parent, it.payload)),
        };
        writeln!(self.file, "{} {} {kind} {view} {proposal}", now_us(), vote.signer).map_err(named(&self.path))
    }

    /// Hands what was written to the operating system.
    pub fn flush(&mut self) -> io::Result<()> {
        self.file.flush().map_err(named(&self.path))
    }
}

/// The votes of a trace. A last line that was cut off is left out.
pub fn read(path: &Path) -> io::Result<Vec<Line>> {
    match fs::read_to_string(path) {
        Ok(text) => Ok(text.split_inclusive('\n').filter_map(read_line).collect()),
        Err(error) if error.kind() == io::ErrorKind::NotFound => Ok(Vec::new()),
        Err(error) => Err(named(path)(error)),
    }
}

fn read_line(line: &str) -> Option<Line> {
    let mut words = line.strip_suffix('\n')?.splitn(5, ' ');
    Some(Line {
        seen_us: words.next()?.parse().ok()?,
        signer: words.next()?.parse::<u32>().map(Participant::new).ok()?.get(),
        kind: words.next()?.chars().next()?,
        view: words.next()?.parse().ok()?,
        proposal: words.next()?.to_owned(),
    })
}

/// An empty folder for a test.
#[cfg(test)]
pub fn scratch(name: &str) -> std::path::PathBuf {
    let folder = std::env::temp_dir().join(format!("simplex-node-{}-{name}", std::process::id()));
    let _ = fs::remove_dir_all(&folder);
    fs::create_dir_all(&folder).expect("a folder for a test");
    folder
}

#[cfg(test)]
mod tests {
    use super::*;
    use simplex_view_state::Round;

    #[test]
    fn a_line_that_was_cut_off_runs_into_no_other() {
        let path = scratch("trace").join("votes");
        let round = Round::default();
        let vote = Vote {
            subject: Subject::Nullify(round),
            signer: Participant::new(2),
            signature: vec![0; 64],
        };
        fs::write(&path, "7 1 x 5 -\n8 1 n 6 5 a4").expect("a disk");
        let mut trace = Trace::open(&path).expect("a disk");
        trace.write(&vote).expect("a disk");
        trace.flush().expect("a disk");
        let signers: Vec<(u32, char)> = read(&path).expect("a disk").iter().map(|it| (it.signer, it.kind)).collect();
        assert_eq!(signers, [(1, 'x'), (2, 'x')]);
    }
}
