//! Evidence against members: two votes of one, with their signatures, of which no honest member signs both.
//!
//! A node writes what it finds to the file `evidence` of its data, a line each. Whoever has the members' public keys can verify it, without
//! the node and its network.

use crate::crypto::{hex, is_signed_by};
use crate::named::{named, not_stored};
use crate::settings::{Outcome, Settings};
use crate::vote::is_sound;
use simplex_view_state::{Epoch, Participant, Proposal, Subject, Vote};
use std::fs::{self, File, OpenOptions};
use std::io::{self, Write};
use std::path::{Path, PathBuf};

/// How long the file gets: a faulty member gives a pair in each view that it leads.
const MOST_BYTES: u64 = 4 << 20;

/// The file of a node's evidence.
pub fn path(folder: &Path) -> PathBuf {
    folder.join("evidence")
}

/// Two votes of one member.
#[derive(Clone, Debug, PartialEq, Eq)]
pub struct Evidence {
    /// The first one.
    pub first: Vote,
    /// The other one.
    pub second: Vote,
}

impl Evidence {
    fn line(&self) -> String {
        let vote = |it: &Vote| format!("{} {}", hex(&it.subject.encode()), hex(&it.signature));
        format!("{} {} {}\n", self.first.signer, vote(&self.first), vote(&self.second))
    }

    fn parse(line: &str) -> Option<Evidence> {
        let words: Vec<&str> = line.split(' ').collect();
        let [signer, first, first_signature, second, second_signature] = words[..] else {
            return None;
        };
        let vote = |text: &str, signature: &str| {
            let text = bytes_of(text)?;
            let (subject, rest) = Subject::decode(&text)?;
            rest.is_empty().then_some(Vote {
                subject,
                signer: Participant::new(signer.parse().ok()?),
                signature: bytes_of(signature)?,
            })
        };
        Some(Evidence {
            first: vote(first, first_signature)?,
            second: vote(second, second_signature)?,
        })
    }

    /// Verifies both signatures, and that the votes contradict each other. Returns what they show.
    ///
    /// # Errors
    ///
    /// Says which of that is not so.
    pub fn verify(&self, settings: &Settings) -> Result<String, String> {
        let (signer, epoch) = (self.first.signer, Epoch::new(settings.protocol.epoch));
        let member = settings.members.get(signer.get() as usize).ok_or("its signer is no member")?;
        let namespace = settings.identity().map_err(|error| error.to_string())?.namespace();
        for vote in [&self.first, &self.second] {
            if !is_sound(&vote.subject, epoch) {
                return Err(format!("a vote is not of epoch {epoch}"));
            }
            if vote.signer != signer || !is_signed_by(namespace, &member.key, &vote.subject, &vote.signature) {
                return Err(format!("member {signer} did not sign both votes"));
            }
        }
        let view = self.first.subject.round().view;
        let what = contradiction(&self.first.subject, &self.second.subject).ok_or("the votes do not contradict each other")?;
        Ok(format!("member {signer} signed {what} in view {view}"))
    }
}

/// Returns what two votes of one member are, where no honest member signs both.
fn contradiction(first: &Subject, second: &Subject) -> Option<&'static str> {
    let are_rivals = |one: &Proposal, other: &Proposal| one.round == other.round && one != other;
    match (first, second) {
        (Subject::Notarize(one), Subject::Notarize(other)) if are_rivals(one, other) => Some("two votes to notarize"),
        (Subject::Finalize(one), Subject::Finalize(other)) if are_rivals(one, other) => Some("two votes to finalize"),
        (Subject::Finalize(it), Subject::Nullify(round)) | (Subject::Nullify(round), Subject::Finalize(it)) => {
            (it.round == *round).then_some("votes to finalize and to nullify")
        }
        _ => None,
    }
}

fn bytes_of(hex: &str) -> Option<Vec<u8>> {
    let byte = |at: usize| u8::from_str_radix(hex.get(at..at + 2)?, 16).ok();
    (0..hex.len()).step_by(2).map(byte).collect()
}

/// The file that evidence is written to.
pub struct Collected {
    path: PathBuf,
    file: Option<File>,
    bytes: u64,
}

impl Collected {
    /// The file of a folder, which is made with the first evidence.
    pub fn of(folder: &Path) -> Collected {
        Collected {
            path: path(folder),
            file: None,
            bytes: 0,
        }
    }

    /// Writes evidence, and waits for the disk. A file that is long enough gets no more.
    pub fn write(&mut self, evidence: &Evidence) -> io::Result<()> {
        let line = evidence.line();
        let file = match &mut self.file {
            Some(file) => file,
            None => {
                let (file, bytes) = open(&self.path).map_err(not_stored(&self.path))?;
                self.bytes = bytes;
                self.file.insert(file)
            }
        };
        if self.bytes + line.len() as u64 > MOST_BYTES {
            return Ok(());
        }
        self.bytes += line.len() as u64;
        file.write_all(line.as_bytes())
            .and_then(|()| file.sync_data())
            .map_err(not_stored(&self.path))
    }
}

/// The file, whose name is on the disk, and its length: a last line that a crash cut off is dropped.
fn open(path: &Path) -> io::Result<(File, u64)> {
    let is_new = !path.exists();
    let file = OpenOptions::new().create(true).append(true).read(true).open(path)?;
    if is_new && let Some(folder) = path.parent() {
        File::open(folder)?.sync_all()?;
    }
    let bytes = fs::read(path)?;
    let whole = bytes.iter().rposition(|it| *it == b'\n').map_or(0, |it| it + 1) as u64;
    file.set_len(whole)?;
    Ok((file, whole))
}

/// Verifies each line of a file, for the members of these settings. Returns what each one shows; an error where it shows nothing.
///
/// # Errors
///
/// Where the file can't be read.
pub fn verify(settings: &Settings, path: &Path) -> Outcome<Vec<Result<String, String>>> {
    let text = fs::read_to_string(path).map_err(named(path))?;
    let verified = (1..).zip(text.lines()).map(|(number, line)| {
        let evidence = Evidence::parse(line).ok_or("these are no two votes".to_owned());
        let found = evidence.and_then(|it| it.verify(settings));
        found.map_err(|why| format!("line {number}: {why}"))
    });
    Ok(verified.collect())
}

#[cfg(test)]
mod tests {
    use super::*;
    use crate::crypto::{Keys, make_key};
    use crate::trace::scratch;
    use simplex_view_state::{Digest, Round, View};

    /// A network of four with the keys of member 2, in a folder of a test.
    fn member(name: &str) -> (Settings, Keys) {
        let mut settings: Settings = toml::from_str(include_str!("../../node.toml")).expect("settings");
        (settings.index, settings.key) = (2, scratch(name).join("2.pem"));
        settings.members[2].key = make_key(&settings.key).expect("a key");
        let keys = Keys::read(&settings).expect("its own");
        (settings, keys)
    }

    fn round(view: u64) -> Round {
        Round {
            epoch: Epoch::new(1),
            view: View::new(view),
        }
    }

    fn proposal(view: u64, payload: u8) -> Proposal {
        Proposal {
            round: round(view),
            parent: View::GENESIS,
            payload: Digest::new([payload; 32]),
        }
    }

    fn signed(keys: &Keys, subject: Subject) -> Vote {
        Vote {
            subject,
            signer: keys.me,
            signature: keys.sign(&subject).expect("a signature").to_vec(),
        }
    }

    fn pair(keys: &Keys, first: Subject, second: Subject) -> Evidence {
        Evidence {
            first: signed(keys, first),
            second: signed(keys, second),
        }
    }

    #[test]
    fn what_is_written_is_verified_by_who_has_the_public_keys_alone() {
        let (mut settings, keys) = member("evidence-good");
        let folder = scratch("evidence-good-file");
        let pairs = [
            pair(&keys, Subject::Notarize(proposal(3, 1)), Subject::Notarize(proposal(3, 2))),
            pair(&keys, Subject::Finalize(proposal(4, 1)), Subject::Finalize(proposal(4, 2))),
            pair(&keys, Subject::Nullify(round(5)), Subject::Finalize(proposal(5, 1))),
        ];
        for it in &pairs {
            Collected::of(&folder).write(it).expect("a disk");
            let mut file = OpenOptions::new().append(true).open(path(&folder)).expect("a file");
            file.write_all(b"2 0011 a line that a crash cut o").expect("a disk");
        }
        Collected::of(&folder).write(&pairs[0]).expect("a disk");
        (settings.index, settings.key) = (0, "nobody.pem".into());
        let found: Vec<String> = verify(&settings, &path(&folder))
            .expect("a file")
            .into_iter()
            .map(|it| it.expect("it is good"))
            .collect();
        let said = [
            "member 2 signed two votes to notarize in view 3",
            "member 2 signed two votes to finalize in view 4",
            "member 2 signed votes to finalize and to nullify in view 5",
            "member 2 signed two votes to notarize in view 3",
        ];
        assert_eq!(found, said);
    }

    #[test]
    fn what_is_no_evidence_is_refused_with_why() {
        let (settings, keys) = member("evidence-bad");
        let good = pair(&keys, Subject::Notarize(proposal(3, 1)), Subject::Notarize(proposal(3, 2)));
        let why = |it: &Evidence| it.verify(&settings).expect_err("it is refused");
        for (first, second) in [
            (Subject::Notarize(proposal(3, 1)), Subject::Notarize(proposal(3, 1))),
            (Subject::Notarize(proposal(3, 1)), Subject::Notarize(proposal(4, 2))),
            (Subject::Notarize(proposal(3, 1)), Subject::Finalize(proposal(3, 2))),
            (Subject::Nullify(round(3)), Subject::Finalize(proposal(4, 1))),
        ] {
            assert!(
                why(&pair(&keys, first, second)).contains("do not contradict"),
                "{first:?} {second:?}"
            );
        }
        let mut of_another = good.clone();
        of_another.first.signer = Participant::new(1);
        of_another.second.signer = Participant::new(1);
        assert!(why(&of_another).contains("member 1 did not sign both"));
        let mut forged = good.clone();
        forged.second.signature[9] ^= 1;
        assert!(why(&forged).contains("did not sign both"));
        let mut network = settings.clone();
        network.network = "other".to_owned().try_into().expect("a name");
        assert!(good.verify(&network).is_err(), "of another network");
        let mut epoch = settings.clone();
        epoch.protocol.epoch = 2;
        assert!(good.verify(&epoch).is_err_and(|it| it.contains("epoch 2")));
    }

    #[test]
    fn a_file_that_is_long_gets_no_longer() {
        let (_, keys) = member("evidence-long");
        let folder = scratch("evidence-long-file");
        let line = pair(&keys, Subject::Nullify(round(5)), Subject::Finalize(proposal(5, 1)));
        fs::write(path(&folder), [&vec![b'x'; MOST_BYTES as usize - 100][..], b"\n"].concat()).expect("a disk");
        Collected::of(&folder).write(&line).expect("a disk");
        assert!(fs::metadata(path(&folder)).expect("a file").len() <= MOST_BYTES);
    }
}
