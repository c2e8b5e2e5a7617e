//! The guard of a signer: a file of all that it signed. It never signs two votes that contradict each other, whoever asks and whatever was
//! restarted.
//!
//! A vote is in the file, and the file synced, before its signature is returned. Below the lowest view of the file nothing is signed, so
//! old votes can be dropped: the lowest view rises, and the votes of some thousand views above it stay. Where the disk refuses a vote,
//! nothing more is signed: the next process reads what the disk has.

use crate::crypto::hex;
use crate::settings::Outcome;
use simplex_view_state::{Namespace, Subject};
use std::collections::BTreeMap;
use std::fs::{self, File, OpenOptions, TryLockError};
use std::io::{self, ErrorKind, Write};
use std::os::unix::fs::MetadataExt;
use std::path::{Path, PathBuf};
use tracing::{info, warn};

/// How many votes are in the file before old ones are dropped.
const MOST_VOTES: usize = 16_384;
/// The number of views below the highest one whose votes stay then.
const KEPT_VIEWS: u64 = 4096;
/// The beginning of a file.
const BEGIN: &str = "simplex-signer 2";
/// The advice where the disk refuses a write.
const BEGIN_AGAIN: &str = "make room or mend the disk, and begin the signer again";

/// Whose votes a guard is of: its file is no other signer's.
#[derive(Clone, Debug, PartialEq, Eq)]
pub struct Owner {
    /// The namespace of the network.
    pub namespace: Namespace,
    /// The epoch.
    pub epoch: u64,
    /// The public key.
    pub key: [u8; 32],
}

/// The votes that were signed.
#[derive(Debug)]
pub struct Guard {
    path: PathBuf,
    file: File,
    owner: Owner,
    /// Below this view nothing is signed.
    lowest: u64,
    /// The texts of votes, by view and kind.
    votes: Votes,
    /// The disk refused something, so it is not known what it has.
    has_failed: bool,
}

fn kind_of(subject: &Subject) -> char {
    match subject {
        Subject::Notarize(_) => 'n',
        Subject::Nullify(_) => 'x',
        Subject::Finalize(_) => 'f',
    }
}

/// An error at a file, with what to do.
fn at(path: &Path, error: impl std::fmt::Display) -> String {
    format!("{}: {error}", path.display())
}

impl Guard {
    /// A new file, for a key that has signed nothing from this view on.
    ///
    /// # Errors
    ///
    /// Where the file is here already, or can't be written.
    pub fn create(path: &Path, owner: Owner, lowest: u64) -> Outcome<Guard> {
        let created = OpenOptions::new().create_new(true).append(true).read(true).open(path);
        let file = created.map_err(|error| {
            at(
                path,
                format!("{error}: a signer that has signed continues from its file: leave --begin-at away"),
            )
        })?;
        lock(path, &file)?;
        let guard = Guard {
            path: path.to_owned(),
            file,
            owner,
            lowest,
            votes: BTreeMap::new(),
            has_failed: false,
        };
        let written = (&guard.file).write_all(guard.head().as_bytes());
        written.and_then(|()| guard.file.sync_all()).map_err(|error| at(path, error))?;
        sync_folder(path)?;
        Ok(guard)
    }

    /// The file of a signer that continues. A line that a crash cut off is dropped: its signature was not returned. All else is written
    /// anew, so that the disk has it.
    ///
    /// # Errors
    ///
    /// Where the file is not here, is damaged or of another signer, or another process has it: says what to do.
    pub fn open(path: &Path, owner: Owner) -> Outcome<Guard> {
        let opened = OpenOptions::new().append(true).read(true).open(path);
        let file = opened.map_err(|error| {
            at(
                path,
                format!(
                    "{error}: what this key has signed is lost, and it could contradict its votes. Put the file back. A key that has signed \
                     nothing begins by --begin-at 1, a key whose file is lost never signs again: make a new one for the next epoch"
                ),
            )
        })?;
        lock(path, &file)?;
        let bytes = fs::read(path).map_err(|error| at(path, error))?;
        let damaged = || {
            at(
                path,
                "the file is damaged: put back a whole copy that is not older, or make a new key",
            )
        };
        let text = std::str::from_utf8(whole_lines(&bytes)).map_err(|_| damaged())?;
        let (lowest, votes) = read(text, &owner).ok_or_else(damaged)?;
        let lowest = lowest.ok_or_else(|| {
            at(
                path,
                format!(
                    "the file is of another network, epoch or key than {}: name this signer's own",
                    head_of(&owner, 0).trim_end()
                ),
            )
        })?;
        let mut guard = Guard {
            path: path.to_owned(),
            file,
            owner,
            lowest,
            votes,
            has_failed: false,
        };
        guard.remove_left_files();
        guard.write_anew()?;
        Ok(guard)
    }

    /// Stores that a vote is signed. Once it returns, the vote may be signed: it is on the disk, and no other one that contradicts it was
    /// or will be.
    ///
    /// # Errors
    ///
    /// Where the vote is of another epoch, below the lowest view, or contradicts one that was signed; or where the disk refuses, or did.
    pub fn admit(&mut self, subject: &Subject) -> Outcome {
        if self.has_failed {
            return Err(at(&self.path, format!("the disk refused it before: {BEGIN_AGAIN}")).into());
        }
        let (round, kind, text) = (subject.round(), kind_of(subject), hex(&subject.encode()));
        let (view, epoch) = (round.view.get(), round.epoch.get());
        if epoch != self.owner.epoch {
            return Err(format!("a vote of epoch {epoch}, and this signer is of epoch {}", self.owner.epoch).into());
        }
        if view < self.lowest {
            return Err(format!("a vote of view {view}, and nothing below view {} is signed", self.lowest).into());
        }
        match self.votes.get(&(view, kind)) {
            Some(signed) if *signed == text => return Ok(()),
            Some(_) => return Err(format!("another vote of this kind ({kind}) was signed in view {view}").into()),
            None => {}
        }
        let against = match kind {
            'x' => 'f',
            'f' => 'x',
            _ => kind,
        };
        if self.votes.contains_key(&(view, against)) {
            return Err(format!("view {view} was voted to be nullified, or finalized: never both").into());
        }
        self.store(view, kind, text)
    }

    /// Where this fails, the vote is not among those that were signed: a repeat must not be taken for one that is on the disk.
    fn store(&mut self, view: u64, kind: char, text: String) -> Outcome {
        let line = format!("{view} {kind} {text}\n");
        let written = self.file.write_all(line.as_bytes()).and_then(|()| self.file.sync_data());
        written.map_err(|error| self.failed(error))?;
        self.votes.insert((view, kind), text);
        if self.votes.len() > MOST_VOTES {
            self.drop_old()?;
        }
        Ok(())
    }

    fn failed(&mut self, error: impl std::fmt::Display) -> String {
        self.has_failed = true;
        at(&self.path, format!("{error}: nothing more is signed. So {BEGIN_AGAIN}"))
    }

    /// Drops the votes of old views, which are signed no more from now on.
    fn drop_old(&mut self) -> Outcome {
        let highest = self.votes.last_key_value().map_or(0, |((view, _), _)| *view);
        self.lowest = self.lowest.max(highest.saturating_sub(KEPT_VIEWS));
        self.votes = self.votes.split_off(&(self.lowest, '\0'));
        self.write_anew()
    }

    /// Writes all votes to a new file, which takes the place of the file in one step.
    fn write_anew(&mut self) -> Outcome {
        let (new, mut file) = new_file(&self.path)?;
        lock(&new, &file)?;
        let lines = self.votes.iter().map(|((view, kind), text)| format!("{view} {kind} {text}\n"));
        let all: String = std::iter::once(self.head()).chain(lines).collect();
        let written = file.write_all(all.as_bytes()).and_then(|()| file.sync_all());
        if let Err(error) = written.and_then(|()| fs::rename(&new, &self.path)) {
            let _ = fs::remove_file(&new); // (this process made it, and the votes are in the file that stays)
            return Err(self.failed(error).into());
        }
        self.file = file;
        sync_folder(&self.path).map_err(|error| self.failed(error))?;
        Ok(())
    }

    /// Removes new files that a crash left beside the file, which has all that they have. Those of others stay.
    fn remove_left_files(&self) {
        for path in new_names(&self.path).take_while(|it| fs::symlink_metadata(it).is_ok()) {
            match fs::read(&path).map(|bytes| self.is_left(&bytes)) {
                Ok(true) => match fs::remove_file(&path) {
                    Ok(()) => info!(path = %path.display(), "a crash left this new file: it is removed"),
                    Err(error) => warn!(path = %path.display(), %error, "a crash left this new file"),
                },
                Ok(false) | Err(_) => warn!(path = %path.display(), "this file is of others, and stays"),
            }
        }
    }

    /// Returns whether a new file that a crash cut off anywhere may hold this: a beginning of one of this signer's, with no vote that the
    /// file has not.
    fn is_left(&self, bytes: &[u8]) -> bool {
        let written = bytes.iter().rposition(|it| *it != 0).map_or(0, |it| it + 1);
        let Ok(text) = std::str::from_utf8(&bytes[..written]) else {
            return false;
        };
        let of_owner = head_of(&self.owner, 0);
        let of_owner = of_owner.trim_end_matches("0\n");
        if text.len() <= of_owner.len() {
            return of_owner.starts_with(text);
        }
        let is_stored = |line: &str| vote_of(line).is_some_and(|(key, text)| self.votes.get(&key) == Some(&text));
        let end = text.rfind('\n').unwrap_or(0);
        text.starts_with(of_owner) && text[..end].lines().skip(1).all(is_stored)
    }

    fn head(&self) -> String {
        head_of(&self.owner, self.lowest)
    }
}

fn head_of(owner: &Owner, lowest: u64) -> String {
    format!("{BEGIN} {} {} {} {lowest}\n", owner.namespace, owner.epoch, hex(&owner.key))
}

/// Locks a file. Where another one has its name by now, a signer has replaced it, and has that one.
fn lock(path: &Path, file: &File) -> Outcome {
    let is_named = || -> io::Result<bool> {
        let (here, there) = (file.metadata()?, fs::metadata(path)?);
        Ok((here.dev(), here.ino()) == (there.dev(), there.ino()))
    };
    match file.try_lock() {
        Ok(()) if is_named().map_err(|error| at(path, error))? => Ok(()),
        Ok(()) | Err(TryLockError::WouldBlock) => Err(at(path, "another signer has this file: end that one first").into()),
        Err(TryLockError::Error(error)) => Err(at(path, error).into()),
    }
}

/// The names of new files beside this one: its name with `.new` behind it, and a number.
fn new_names(path: &Path) -> impl Iterator<Item = PathBuf> + '_ {
    (0..1000).map(|number| {
        let mut name = path.as_os_str().to_owned();
        name.push(if number == 0 { ".new".to_owned() } else { format!(".new{number}") });
        PathBuf::from(name)
    })
}

/// A file beside this one that was not there. One that is there may be anybody's, and stays as it is.
fn new_file(path: &Path) -> Outcome<(PathBuf, File)> {
    for new in new_names(path) {
        match OpenOptions::new().create_new(true).append(true).read(true).open(&new) {
            Ok(file) => return Ok((new, file)),
            Err(error) if error.kind() == ErrorKind::AlreadyExists => {}
            Err(error) => return Err(at(&new, error).into()),
        }
    }
    Err(at(
        path,
        "files of all names for a new one are in the way, `.new` to `.new999`: move them away",
    )
    .into())
}

fn sync_folder(path: &Path) -> Outcome {
    let folder = path.parent().filter(|it| !it.as_os_str().is_empty()).unwrap_or(Path::new("."));
    Ok(File::open(folder).and_then(|it| it.sync_all()).map_err(|error| at(folder, error))?)
}

/// The bytes up to the end of the last line that is whole. A power cut leaves zeros where a line was.
fn whole_lines(bytes: &[u8]) -> &[u8] {
    let end = |bytes: &[u8]| bytes.iter().rposition(|it| *it == b'\n').map_or(0, |it| it + 1);
    let whole = &bytes[..end(bytes)];
    let before = end(&whole[..whole.len().saturating_sub(1)]);
    if whole[before..].contains(&0) { &whole[..before] } else { whole }
}

type Votes = BTreeMap<(u64, char), String>;

/// The lowest view, `None` where the file is another signer's, and the votes. `None` where the text is damaged.
fn read(text: &str, owner: &Owner) -> Option<(Option<u64>, Votes)> {
    let mut lines = text.lines();
    let head = lines.next()?.strip_prefix(BEGIN)?;
    let lowest: u64 = head.rsplit(' ').next()?.parse().ok()?;
    let is_own = head_of(owner, lowest).trim_end().strip_prefix(BEGIN) == Some(head);
    Some((is_own.then_some(lowest), lines.map(vote_of).collect::<Option<Votes>>()?))
}

fn vote_of(line: &str) -> Option<((u64, char), String)> {
    let mut words = line.split(' ');
    let view: u64 = words.next()?.parse().ok()?;
    let kind = words.next()?.parse().ok()?;
    let text = words.next()?.to_owned();
    (words.next().is_none() && text.len().is_multiple_of(2) && text.len() >= 34).then_some(((view, kind), text))
}

#[cfg(test)]
mod tests {
    use super::*;
    use simplex_view_state::{Digest, Epoch, Proposal, Round, View};

    fn owner() -> Owner {
        Owner {
            namespace: Namespace::new([9; 32]),
            epoch: 1,
            key: [7; 32],
        }
    }

    fn round(view: u64) -> Round {
        let (epoch, view) = (Epoch::new(1), View::new(view));
        Round { epoch, view }
    }

    fn proposal(view: u64, payload: u8) -> Proposal {
        Proposal {
            round: round(view),
            parent: View::GENESIS,
            payload: Digest::new([payload; 32]),
        }
    }

    fn notarize(view: u64, payload: u8) -> Subject {
        Subject::Notarize(proposal(view, payload))
    }

    fn finalize(view: u64) -> Subject {
        Subject::Finalize(proposal(view, 7))
    }

    fn nullify(view: u64) -> Subject {
        Subject::Nullify(round(view))
    }

    fn refused(guard: &mut Guard, subject: Subject) -> String {
        guard.admit(&subject).expect_err("it is refused").to_string()
    }

    fn path(name: &str) -> PathBuf {
        crate::trace::scratch(name).join("guard")
    }

    #[test]
    fn two_votes_of_one_kind_and_view_are_not_signed_whatever_is_restarted() {
        let path = path("guard-two");
        let mut guard = Guard::create(&path, owner(), 1).expect("a disk");
        for _ in 0..2 {
            guard.admit(&notarize(1, 7)).expect("once more is the same vote");
            assert!(refused(&mut guard, notarize(1, 8)).contains("another vote of this kind (n) was signed in view 1"));
            guard.admit(&notarize(2, 8)).expect("another view");
            guard.admit(&finalize(1)).expect("another kind");
            assert!(refused(&mut guard, nullify(1)).contains("never both"));
            guard.admit(&nullify(2)).expect("it was not finalized");
            assert!(refused(&mut guard, finalize(2)).contains("never both"));
            drop(guard);
            guard = Guard::open(&path, owner()).expect("its own");
        }
    }

    #[test]
    fn below_the_lowest_view_nothing_is_signed() {
        let path = path("guard-lowest");
        let mut guard = Guard::create(&path, owner(), 10).expect("a disk");
        assert!(refused(&mut guard, nullify(9)).contains("nothing below view 10 is signed"));
        guard.admit(&nullify(10)).expect("it is not below");
        drop(guard);
        let mut guard = Guard::open(&path, owner()).expect("its own");
        assert!(refused(&mut guard, nullify(9)).contains("nothing below view 10"));
        let other = Subject::Nullify(Round {
            epoch: Epoch::new(2),
            ..round(11)
        });
        assert!(refused(&mut guard, other).contains("epoch 2"));
    }

    #[test]
    fn old_votes_are_dropped_and_the_lowest_view_rises() {
        let path = path("guard-old");
        let mut guard = Guard::create(&path, owner(), 1).expect("a disk");
        for view in 1..=20_000 {
            guard.votes.insert((view, 'x'), hex(&nullify(view).encode()));
        }
        guard.admit(&nullify(20_001)).expect("a disk");
        let lowest = 20_001 - KEPT_VIEWS;
        for _ in 0..2 {
            assert_eq!((guard.lowest, guard.votes.len() as u64), (lowest, KEPT_VIEWS + 1));
            assert!(refused(&mut guard, nullify(lowest - 1)).contains("nothing below"));
            assert!(refused(&mut guard, finalize(lowest)).contains("never both"));
            drop(guard);
            guard = Guard::open(&path, owner()).expect("its own");
        }
        guard.admit(&nullify(20_002)).expect("the new file grows");
        drop(guard);
        let mut guard = Guard::open(&path, owner()).expect("its own");
        assert!(refused(&mut guard, finalize(20_002)).contains("never both"));
    }

    #[test]
    fn old_votes_are_dropped_beside_files_of_others_which_stay_as_they_are() {
        let path = path("guard-beside").with_file_name("guard.txt");
        let beside = ["guard.new", "guard.txt.new", "guard.txt.new1"].map(|name| path.with_file_name(name));
        beside.iter().for_each(|it| fs::write(it, "mine").expect("a disk"));
        let mut guard = Guard::create(&path, owner(), 1).expect("a disk");
        for view in 1..=20_000 {
            guard.votes.insert((view, 'x'), hex(&nullify(view).encode()));
        }
        guard.admit(&nullify(20_001)).expect("a disk");
        drop(guard);
        let guard = Guard::open(&path, owner()).expect("its own");
        assert_eq!(guard.lowest, 20_001 - KEPT_VIEWS);
        assert!(beside.iter().all(|it| fs::read_to_string(it).expect("a file") == "mine"));
        assert!(!path.with_file_name("guard.txt.new2").exists());
    }

    #[test]
    fn a_new_file_that_a_crash_left_is_removed_and_those_of_others_stay() {
        let path = path("guard-left");
        let mut guard = Guard::create(&path, owner(), 1).expect("a disk");
        (1..=3).for_each(|view| guard.admit(&notarize(view, 7)).expect("a disk"));
        let whole = fs::read(&path).expect("a file");
        let new = path.with_file_name("guard.new");
        drop(guard);
        for end in (0..whole.len()).step_by(7).chain([whole.len()]) {
            fs::write(&new, [&whole[..end], &vec![0; end % 3][..]].concat()).expect("a disk");
            let mut guard = Guard::open(&path, owner()).expect("it does not block a start");
            assert!(!new.exists(), "cut after {end} bytes");
            assert!(refused(&mut guard, notarize(3, 8)).contains("another vote"));
        }
        let of_another = head_of(&Owner { epoch: 2, ..owner() }, 1);
        let with_more = [&whole[..], format!("9 n {}\n", hex(&notarize(9, 7).encode())).as_bytes()].concat();
        for other in [b"mine".to_vec(), of_another.into_bytes(), with_more, vec![0xff; 9]] {
            fs::write(&new, &other).expect("a disk");
            drop(Guard::open(&path, owner()).expect("it does not block a start"));
            assert_eq!(fs::read(&new).expect("it stays"), other);
            assert!(!path.with_file_name("guard.new1").exists());
        }
        assert_eq!(fs::read(&path).expect("a file"), whole);
    }

    /// A disk that refuses: the file is opened to be read alone.
    #[test]
    fn a_vote_that_is_not_stored_is_not_signed_when_it_is_asked_for_again() {
        let path = path("guard-refused");
        let mut guard = Guard::create(&path, owner(), 1).expect("a disk");
        guard.admit(&notarize(1, 7)).expect("a disk");
        guard.file = File::open(&path).expect("a file");
        let first = refused(&mut guard, notarize(2, 7));
        assert!(
            first.contains("guard: ") && first.contains("make room or mend the disk, and begin the signer again"),
            "{first}"
        );
        for vote in [notarize(2, 7), notarize(1, 7)] {
            assert!(refused(&mut guard, vote).contains("begin the signer again"));
        }
        drop(guard);
        let mut guard = Guard::open(&path, owner()).expect("its own");
        assert!(refused(&mut guard, notarize(1, 8)).contains("another vote"));
        guard.admit(&notarize(2, 8)).expect("that signature was not returned");
    }

    /// A signer that opens the file just as another one replaces it has a file without a name: its votes would be lost.
    #[test]
    fn a_file_that_was_replaced_is_another_signers() {
        let path = path("guard-replaced");
        drop(Guard::create(&path, owner(), 1).expect("a disk"));
        let file = File::open(&path).expect("a file");
        drop(Guard::open(&path, owner()).expect("it writes its file anew"));
        let said = lock(&path, &file).expect_err("it is refused").to_string();
        assert!(said.contains("another signer has this file"), "{said}");
    }

    #[test]
    fn a_line_that_a_crash_cut_off_is_dropped_and_no_other() {
        let path = path("guard-torn");
        let mut guard = Guard::create(&path, owner(), 1).expect("a disk");
        guard.admit(&notarize(1, 7)).expect("a disk");
        let before = fs::metadata(&path).expect("a file").len() as usize;
        guard.admit(&notarize(2, 7)).expect("a disk");
        drop(guard);
        let bytes = fs::read(&path).expect("a file");
        for cut in before..bytes.len() {
            for zeros in [0, 1, bytes.len() - cut] {
                fs::write(&path, [&bytes[..cut], &vec![0; zeros]].concat()).expect("a disk");
                let mut guard = Guard::open(&path, owner()).expect("a torn end is cut off");
                assert!(refused(&mut guard, notarize(1, 8)).contains("view 1"));
                guard.admit(&notarize(2, 8)).expect("that signature was not returned");
                drop(guard);
                let mut guard = Guard::open(&path, owner()).expect("the file is whole again");
                assert!(refused(&mut guard, notarize(2, 7)).contains("view 2"));
            }
        }
    }

    #[test]
    fn a_file_that_is_lost_damaged_or_of_another_signer_is_refused_by_name() {
        let path = path("guard-lost");
        let said = |owner: Owner| Guard::open(&path, owner).expect_err("it is refused").to_string();
        let named = path.display().to_string();
        assert!(said(owner()).contains(&named) && said(owner()).contains("--begin-at 1"));
        let mut guard = Guard::create(&path, owner(), 1).expect("a disk");
        assert!(said(owner()).contains("another signer has this file"));
        guard.admit(&notarize(1, 7)).expect("a disk");
        guard.admit(&notarize(2, 7)).expect("a disk");
        drop(guard);
        let again = Guard::create(&path, owner(), 1).expect_err("it is here").to_string();
        assert!(again.contains(&named) && again.contains("--begin-at"), "{again}");
        let (epoch, key) = (2, [8; 32]);
        for other in [Owner { epoch, ..owner() }, Owner { key, ..owner() }] {
            assert!(said(other).contains("another network, epoch or key"));
        }
        let text = fs::read_to_string(&path).expect("a file").replacen("1 n ", "1 n x ", 1);
        fs::write(&path, text).expect("a disk");
        assert!(said(owner()).contains("damaged"));
    }
}
