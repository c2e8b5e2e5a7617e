//! Serves the lines of the repository's program `viewstate` (docs/PROGRAM.md) through this package, and prints the program's replies.
//!
//!     cargo run --example first_script                                     crates/viewstate/stdin, as member 0 of 4
//!     cargo run --example first_script -- voter N ME T OPTIMISTIC          the lines of standard input
//!     cargo run --example first_script -- voter N ME T OPTIMISTIC resume   each `restart 0 NOW` by a resume from the journal's bytes
//! cargo run --example first_script -- voter N ME T OPTIMISTIC compact  with a journal, in whose place each `prune` puts what is left of
//! the
//! record, and from which the member resumes before a `restart-pruned`
//!
//! It serves some lines more than the program, about what a member knows: `known V`, `withheld KIND V`, `shown KIND V` (a certificate),
//! `entries COUNT` and `scan CUT` (the journal without its last bytes).

use simplex_view_state::{
    Added, Candidates, Certificate, CertificateKind, Config, Context, Cut, Digest, Ending, Entries, EntriesError, EntryCount, Epoch,
    Finalization, Member, MissingCertificate, Moment, Namespace, Notarization, Nullification, OpenError, Participant, Proposal,
    ProposalRequest, RecoverError, Refusal, Round, Terms, TimeoutReason, Token, Verify, View, ViewDelta, VoteKind, scan,
};
use std::error::Error;
use std::io::{BufRead, BufReader, Write};
use std::{env, fs, io};

/// The reply to a line, or why the member refused the call.
type Replied = Result<String, Refusal>;

const EPOCH: Epoch = Epoch::new(1);
const NAMESPACE: Namespace = {
    let mut bytes = [0; 32];
    bytes[0] = 1;
    Namespace::new(bytes)
};

/// A certificate of this example: one byte that no one reads.
const CERTIFICATE: [u8; 1] = [1];

const FIRST_SCRIPT: &str = concat!(env!("CARGO_MANIFEST_DIR"), "/../../crates/viewstate/stdin");

fn main() -> Result<(), Box<dyn Error>> {
    let words: Vec<String> = env::args().skip(1).collect();
    let words: Vec<&str> = words.iter().map(String::as_str).collect();
    let (config, lines, way): (_, Box<dyn BufRead>, _) = match words[..] {
        [] => (
            config("4", "0", "1", "0")?,
            Box::new(BufReader::new(fs::File::open(FIRST_SCRIPT)?)),
            None,
        ),
        ["voter", members, me, terms, optimistic] => (config(members, me, terms, optimistic)?, Box::new(io::stdin().lock()), None),
        ["voter", members, me, terms, optimistic, way] => {
            (config(members, me, terms, optimistic)?, Box::new(io::stdin().lock()), Some(way))
        }
        _ => return Err("usage: first_script [voter N ME T OPTIMISTIC [resume|compact]]".into()),
    };
    let mut voter = Voter::start(config, way)?;
    let mut out = io::BufWriter::new(io::stdout().lock());
    for line in lines.lines() {
        let reply = voter.answer(&line?)?;
        writeln!(out, "{reply}")?;
    }
    out.flush()?;
    if let Some(journal) = voter.journal {
        eprintln!("{} entries taken away", journal.taken);
    }
    Ok(())
}

/// The program's settings.
pub fn config(members: &str, me: &str, terms: &str, optimistic: &str) -> Result<Config, Box<dyn Error>> {
    let signer = match me {
        "-" => None,
        index => Some(Participant::new(index.parse()?)),
    };
    let mut config = Config::new(NAMESPACE, members.parse()?, signer, EPOCH, payload(0));
    config.terms = Terms {
        length: terms.parse()?,
        optimistic_views: ViewDelta::new(optimistic.parse()?),
        stall_timeout: None,
    };
    Ok(config)
}

/// A member that lines are asked of.
pub struct Voter {
    config: Config,
    member: Member,
    resumes: bool,
    journal: Option<Journal>,
}

/// The stored journal of the engine, and how many entries were removed from it.
struct Journal {
    kept: Entries,
    taken: u64,
}

impl Journal {
    /// Appends what the record has grown by.
    fn grow(&mut self, member: &mut Member) -> Result<(), EntriesError> {
        let grown = member.entries_since(self.kept.stored.entries)?;
        self.kept.bytes.extend(grown.bytes);
        self.kept.stored = grown.stored;
        Ok(())
    }

    /// Prunes the record, and puts what is left of it in place of the journal.
    fn compact(&mut self, member: &mut Member) -> Result<(), EntriesError> {
        let before = self.kept.stored.entries;
        self.kept = member.prune_record()?;
        self.taken += before.get() - self.kept.stored.entries.get();
        Ok(())
    }
}

impl Voter {
    /// A member in its first lifetime, with a way to restart it, if one is named.
    pub fn start(config: Config, way: Option<&str>) -> Result<Voter, Box<dyn Error>> {
        let mut member = Member::start(&config, Moment::from_millis(0))?;
        let journal = match way {
            Some("compact") => Some(Journal {
                kept: member.entries_since(EntryCount::ZERO)?,
                taken: 0,
            }),
            _ => None,
        };
        Ok(Voter {
            config,
            member,
            resumes: way == Some("resume"),
            journal,
        })
    }

    /// The reply to a line, behind which the journal is kept.
    pub fn answer(&mut self, line: &str) -> Result<String, Box<dyn Error>> {
        let reply = self.reply(line)?;
        if let Some(journal) = &mut self.journal {
            journal.grow(&mut self.member)?;
            if line == "prune" {
                journal.compact(&mut self.member)?;
            }
        }
        Ok(reply)
    }

    fn reply(&mut self, line: &str) -> Result<String, Box<dyn Error>> {
        let words: Vec<&str> = line.split(' ').collect();
        match words[..] {
            ["restart", drop, now] => self.restart(number(drop)?, false, moment(now)?),
            ["restart-pruned", drop, now] => self.restart(number(drop)?, true, moment(now)?),
            ["record"] => Ok(format!("record {}", self.member.stored().entries.get())),
            ["view"] => Ok(self.views()),
            ["entries", count] => Ok(format!(
                "entries {}",
                entries(&self.member.entries_since(EntryCount::new(number(count)?))?)
            )),
            ["scan", cut] => self.scanned(number(cut)?),
            ["known" | "withheld" | "shown", ..] => Ok(self.known(&words)?.unwrap_or_else(refused)),
            _ => match self.call(&words)? {
                Ok(reply) => Ok(reply),
                Err(refusal) => Ok(refused(refusal)),
            },
        }
    }

    /// Makes the call of a line.
    fn call(&mut self, words: &[&str]) -> Result<Replied, Box<dyn Error>> {
        for kind in [Self::pass, Self::propose, Self::judge, Self::vote] {
            if let Some(replied) = kind(self, words)? {
                return Ok(replied);
            }
        }
        Err(format!("not a call: {}", words.join(" ")).into())
    }

    /// Passes a certificate, a timeout or a view that is left.
    fn pass(&mut self, words: &[&str]) -> Result<Option<Replied>, Box<dyn Error>> {
        let member = &mut self.member;
        Ok(Some(match *words {
            ["notarization", v, p, d] => member
                .add_notarization(&Notarization {
                    proposal: proposal(v, p, d)?,
                    certificate: CERTIFICATE.to_vec(),
                })
                .map(added),
            ["finalization", v, p, d, now] => member
                .add_finalization(
                    &Finalization {
                        proposal: proposal(v, p, d)?,
                        certificate: CERTIFICATE.to_vec(),
                    },
                    moment(now)?,
                )
                .map(added),
            ["nullification", v, now] => member
                .add_nullification(
                    &Nullification {
                        round: round(v)?,
                        certificate: CERTIFICATE.to_vec(),
                    },
                    moment(now)?,
                )
                .map(|is_new| format!("added {is_new}")),
            ["trigger", v, why, now] => member.trigger_timeout(view(v)?, reason(why)?, moment(now)?).map(|_| "ok".into()),
            ["timeout", now] => member
                .next_timeout(moment(now)?)
                .map(|timeout| format!("timeout {} {}", timeout.moment.as_millis(), timeout.reason)),
            ["prune"] => member
                .prune()
                .map(|views| views.iter().fold("pruned".to_string(), |text, view| format!("{text} {view}"))),
            _ => return Ok(None),
        }))
    }

    /// Proposes, and takes what others propose.
    fn propose(&mut self, words: &[&str]) -> Result<Option<Replied>, Box<dyn Error>> {
        let member = &mut self.member;
        Ok(Some(match *words {
            ["proposal", v, p, d] => member.set_proposal(&proposal(v, p, d)?).map(|taken| taken.to_string()),
            ["propose"] => member.try_propose().map(request),
            ["proposed", v, d, now] => member
                .proposed(view(v)?, payload(number(d)?), moment(now)?)
                .map(|taken| taken.to_string()),
            ["supersede", v] => member.supersede_proposal_request(view(v)?).map(|answer| answer.to_string()),
            ["abandon", v] => member
                .pending_handoff_abandonment(view(v)?)
                .map(|reason| reason.map_or("none".into(), |reason| reason.to_string())),
            ["release", v] => member.release_proposal_request(view(v)?).map(|_| "ok".into()),
            _ => return Ok(None),
        }))
    }

    /// Verifies and certifies.
    fn judge(&mut self, words: &[&str]) -> Result<Option<Replied>, Box<dyn Error>> {
        let member = &mut self.member;
        Ok(Some(match *words {
            ["verify"] => member.try_verify().map(work),
            ["verified", v] => member.verified(view(v)?).map(|taken| taken.to_string()),
            ["rejected", v, now] => member
                .verification_failed(view(v)?, TimeoutReason::InvalidProposal, moment(now)?)
                .map(|()| "ok".into()),
            ["candidates"] => member.certify_candidates().map(candidates),
            ["token", v, k] => member.set_certify_handle(view(v)?, Token::new(number(k)?)).map(|()| "ok".into()),
            ["verdict", v, success, now] => member
                .certified(view(v)?, success.parse()?, moment(now)?)
                .map(|it| it.map_or("none".into(), |it| format!("certified {}", it.proposal.view()))),
            _ => return Ok(None),
        }))
    }

    /// Votes, and takes the certificates that all are sent.
    fn vote(&mut self, words: &[&str]) -> Result<Option<Replied>, Box<dyn Error>> {
        let member = &mut self.member;
        Ok(Some(match *words {
            ["notarize", v] => member
                .construct_notarize(view(v)?)
                .map(|vote| vote.map_or("none".into(), |vote| proposed("notarize", &vote.proposal))),
            ["nullify", v] => member
                .construct_nullify(view(v)?, TimeoutReason::LeaderTimeout)
                .map(|vote| vote.map_or("none".into(), |vote| format!("nullify {} {}", vote.round.view, vote.is_repeat))),
            ["finalize", v] => member
                .construct_finalize(view(v)?)
                .map(|vote| vote.map_or("none".into(), |vote| proposed("finalize", &vote.proposal))),
            ["broadcast", "notarization", v] => member.broadcast_notarization(view(v)?).map(certificate),
            ["broadcast", "nullification", v] => member.broadcast_nullification(view(v)?).map(certificate),
            ["broadcast", "finalization", v] => member.broadcast_finalization(view(v)?).map(certificate),
            ["best"] => member.get_best_certificate().map(certificate),
            _ => return Ok(None),
        }))
    }

    /// Begins another lifetime from the record: in place, or as another process would, from the bytes that were stored.
    fn restart(&mut self, drop: u64, prune: bool, now: Moment) -> Result<String, Box<dyn Error>> {
        if self.resumes && drop == 0 && !prune {
            let journal = self.member.entries_since(EntryCount::ZERO)?;
            if let Ok(member) = Member::resume(&self.config, now, &journal.stored, &journal.bytes) {
                self.member = member;
                return Ok("ok".into());
            }
        }
        let resumed = self
            .journal
            .as_ref()
            .map(|it| Member::resume(&self.config, now, &it.kept.stored, &it.kept.bytes));
        let refused = match resumed {
            Some(Ok(member)) => {
                self.member = member;
                None
            }
            Some(Err(error)) => Some(error),
            None => None,
        };
        // Where a resume is refused, a restart in place is refused alike, and leaves the member failed.
        let last = EntryCount::new(drop);
        let restarted = self.member.restart(&self.config, now, Cut { last, prune });
        if refused.is_some() && refused != restarted.err() {
            return Err("a resume is refused where a restart is not".into());
        }
        if let Some(journal) = &mut self.journal {
            journal.kept = self.member.entries_since(EntryCount::ZERO)?;
        }
        Ok(match restarted {
            Ok(()) => "ok".into(),
            Err(OpenError::Recover(error)) => format!("refused {} {error:?}", place_of(error)),
            Err(error) => return Err(error.into()),
        })
    }

    /// Says what the member knows of a view.
    fn known(&self, words: &[&str]) -> Result<Result<String, Refusal>, Box<dyn Error>> {
        let member = &self.member;
        Ok(match *words {
            ["known", _] if member.is_failed() => Err(Refusal::Failed),
            ["known", v] => {
                let v = view(v)?;
                let leader = member.leader(v).map_or("-".into(), |leader| leader.to_string());
                let flags = [
                    member.is_tracked(v),
                    member.admits_vote(v),
                    member.admits_certificate(v),
                    member.voted_nullify(v),
                ];
                let flags = flags.iter().map(|flag| format!(" {flag}")).collect::<String>();
                let forwardable = member.forwardable_proposal(v);
                let forwardable = forwardable.map_or("-".into(), |it| number_of(it.payload).to_string());
                Ok(format!("known {leader}{flags} {forwardable}"))
            }
            ["withheld", kind, v] => {
                let kinds = [VoteKind::Notarize, VoteKind::Nullify, VoteKind::Finalize];
                let withheld = member.withheld(kinds[number(kind)? as usize - 1], view(v)?);
                withheld.map(|it| format!("withheld {}", it.map_or(0, |it| it as u32 + 1)))
            }
            ["shown", kind, v] => {
                let kinds = [
                    CertificateKind::Notarization,
                    CertificateKind::Nullification,
                    CertificateKind::Finalization,
                ];
                let found = member.certificate(kinds[number(kind)? as usize - 1], view(v)?);
                found.map(|it| it.map_or("none".into(), |it| format!("shown {}", sum_of(it.bytes()))))
            }
            _ => return Err(format!("not a question: {}", words.join(" ")).into()),
        })
    }

    /// Says where the journal of all entries ends, once its last bytes are cut off.
    fn scanned(&mut self, cut: u64) -> Result<String, Box<dyn Error>> {
        let journal = self.member.entries_since(EntryCount::ZERO)?.bytes;
        let found = scan(&journal[..journal.len().saturating_sub(cut as usize)]);
        let ending = match found.ending {
            Ending::Whole => "whole",
            Ending::Cut => "cut",
            Ending::Damaged => "broken",
        };
        Ok(format!("scan {} {} {ending}", found.entries.get(), found.bytes))
    }

    fn views(&self) -> String {
        match self.member.views() {
            Some(views) => format!("view {} {} {}", views.current, views.last_finalized, views.min_active),
            None => refused(Refusal::Failed),
        }
    }
}

/// The place of an error in the program's table, in which out of memory is the 13th.
fn place_of(error: RecoverError) -> u32 {
    match error as u32 {
        place @ 0..=11 => place + 1,
        place => place + 2,
    }
}

fn refused(refusal: Refusal) -> String {
    match refusal {
        Refusal::Failed => "fault 2 Failed".into(),
        Refusal::ViewTooLarge => "fault 3 ViewTooLarge".into(),
        Refusal::TimeOverflow => "fault 4 TimeOverflow".into(),
        Refusal::NotAllowed => "not-allowed".into(),
        other => format!("{other}"),
    }
}

/// Says which bytes there are to store, and the numbers of what is stored beside them.
fn entries(it: &Entries) -> String {
    let beside = it.stored.to_bytes();
    let numbers = beside.chunks_exact(8).map(|it| u64::from_be_bytes(it.try_into().expect("8 bytes")));
    let numbers = numbers.map(|number| format!(" {number}")).collect::<String>();
    format!("{}{numbers} {}", sum_of(&it.bytes), beside[32] == 1)
}

/// Says how many bytes there are, and their FNV-1a hash.
fn sum_of(bytes: &[u8]) -> String {
    let hash = bytes.iter().fold(0xcbf2_9ce4_8422_2325_u64, |hash, byte| {
        (hash ^ u64::from(*byte)).wrapping_mul(0x0100_0000_01b3)
    });
    format!("{}:{hash}", bytes.len())
}

fn added(it: Added) -> String {
    match it.equivocator {
        Some(member) => format!("added {} {member}", it.is_new),
        None => format!("added {} -", it.is_new),
    }
}

fn request(it: Option<ProposalRequest>) -> String {
    match it {
        Some(ProposalRequest::Propose(context)) => in_context("propose", &context),
        Some(ProposalRequest::Prepare(context)) => in_context("prepare", &context),
        None => "none".into(),
    }
}

fn in_context(word: &str, it: &Context) -> String {
    format!(
        "{word} {} {} {} {}",
        it.round.view,
        it.leader,
        it.parent,
        number_of(it.parent_payload)
    )
}

fn work(it: Verify) -> String {
    match it {
        Verify::Ready(context, proposal) => format!("{} {}", in_context("ready", &context), number_of(proposal.payload)),
        Verify::Resolve {
            proposal,
            view,
            kind,
            target,
        } => {
            let kind = match kind {
                MissingCertificate::Nullification => "nullification",
                MissingCertificate::Notarization => "notarization",
            };
            format!("resolve {proposal} {view} {kind} {target}")
        }
        Verify::Wait => "wait".into(),
    }
}

fn candidates(it: Candidates) -> String {
    let offered = it.proposals.iter().map(|proposal| format!(" {}", proposal.view()));
    let fetched = it.fetches.iter().map(|fetch| format!(" {}:{}", fetch.proposal, fetch.view));
    format!("candidates{} fetch{}", offered.collect::<String>(), fetched.collect::<String>())
}

fn certificate(it: Option<Certificate>) -> String {
    let Some(it) = it else {
        return "none".into();
    };
    let kind = match it {
        Certificate::Notarization(_) => "notarization",
        Certificate::Nullification(_) => "nullification",
        Certificate::Finalization(_) => "finalization",
    };
    format!("{kind} {}", it.round().view)
}

fn proposed(word: &str, it: &Proposal) -> String {
    format!("{word} {} {} {}", it.view(), it.parent, number_of(it.payload))
}

fn number(word: &str) -> Result<u64, Box<dyn Error>> {
    Ok(word.parse()?)
}

fn moment(word: &str) -> Result<Moment, Box<dyn Error>> {
    Ok(Moment::from_millis(number(word)?))
}

fn view(word: &str) -> Result<View, Box<dyn Error>> {
    Ok(View::new(number(word)?))
}

fn round(word: &str) -> Result<Round, Box<dyn Error>> {
    Ok(Round {
        epoch: EPOCH,
        view: view(word)?,
    })
}

fn proposal(v: &str, p: &str, d: &str) -> Result<Proposal, Box<dyn Error>> {
    Ok(Proposal {
        round: round(v)?,
        parent: view(p)?,
        payload: payload(number(d)?),
    })
}

/// The payload of a number of the program: its bytes at the end.
fn payload(number: u64) -> Digest {
    let mut bytes = [0; 32];
    bytes[24..].copy_from_slice(&number.to_be_bytes());
    Digest::new(bytes)
}

fn number_of(payload: Digest) -> u64 {
    u64::from_be_bytes(payload.bytes()[24..].try_into().expect("8 bytes"))
}

fn reason(word: &str) -> Result<TimeoutReason, Box<dyn Error>> {
    Ok(match word {
        "Retry" => TimeoutReason::Retry,
        "Inactivity" => TimeoutReason::Inactivity,
        "LeaderNullify" => TimeoutReason::LeaderNullify,
        "LeaderTimeout" => TimeoutReason::LeaderTimeout,
        "CertificationTimeout" => TimeoutReason::CertificationTimeout,
        "StallTimeout" => TimeoutReason::StallTimeout,
        "MissingProposal" => TimeoutReason::MissingProposal,
        "IgnoredProposal" => TimeoutReason::IgnoredProposal,
        "InvalidProposal" => TimeoutReason::InvalidProposal,
        "FailedCertification" => TimeoutReason::FailedCertification,
        _ => return Err(format!("no reason: {word}").into()),
    })
}
