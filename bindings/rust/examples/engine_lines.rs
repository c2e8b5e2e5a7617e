//! Serves lines as the repository's `tests/programs/engine_lines` does in Rattle, whose replies these have to be: see there for the lines.
//!
//!     cargo run --example engine_lines -- N ME T OPTIMISTIC

use simplex_view_state::{
    Certificate, CertificateKind, Config, Context, Digest, Engine, Entries, EntryCount, Epoch, FetchKind, Input, Moment, Namespace,
    Options, Output, Participant, Proposal, Round, Skip, Subject, Terms, TimeoutReason, View, ViewDelta, Vote, VoteKind,
};
use std::error::Error;
use std::fmt::Write as _;
use std::io::{BufRead, Write as _};
use std::time::Duration;
use std::{env, io};

type Outcome<T = ()> = Result<T, Box<dyn Error>>;

const EPOCH: Epoch = Epoch::new(1);
const NAMESPACE: Namespace = {
    let mut bytes = [0; 32];
    bytes[0] = 1;
    Namespace::new(bytes)
};

const REASONS: [TimeoutReason; 10] = [
    TimeoutReason::Retry,
    TimeoutReason::Inactivity,
    TimeoutReason::LeaderNullify,
    TimeoutReason::LeaderTimeout,
    TimeoutReason::CertificationTimeout,
    TimeoutReason::StallTimeout,
    TimeoutReason::MissingProposal,
    TimeoutReason::IgnoredProposal,
    TimeoutReason::InvalidProposal,
    TimeoutReason::FailedCertification,
];

fn main() -> Outcome {
    let numbers: Vec<u64> = env::args().skip(1).map(|word| word.parse()).collect::<Result<_, _>>()?;
    let [members, me, terms, optimistic] = numbers[..] else {
        return Err("usage: engine_lines N ME T OPTIMISTIC".into());
    };
    let mut life = Life::start(config(members as u32, me as u32, terms as u32, optimistic)?)?;
    let mut out = io::BufWriter::new(io::stdout().lock());
    for line in io::stdin().lock().lines() {
        writeln!(out, "{}", life.answer(&line?)?)?;
    }
    Ok(out.flush()?)
}

fn config(members: u32, me: u32, terms: u32, optimistic: u64) -> Outcome<Config> {
    let signer = (me < members).then(|| Participant::new(me));
    let mut config = Config::new(NAMESPACE, members.try_into()?, signer, EPOCH, Digest::default());
    config.terms = Terms {
        length: terms.try_into()?,
        optimistic_views: ViewDelta::new(optimistic),
        stall_timeout: None,
    };
    config.skip = Some(Skip {
        timeout: Duration::from_millis(3000),
        budget: None,
    });
    Ok(config)
}

/// An engine, and what it stored.
struct Life {
    config: Config,
    options: Options,
    engine: Engine,
    kept: Option<Entries>,
}

impl Life {
    fn start(config: Config) -> Outcome<Life> {
        let mut options = Options::default();
        options.long_record = EntryCount::new(40);
        Ok(Life {
            engine: Engine::start(&config, &options, Moment::from_millis(0))?,
            config,
            options,
            kept: None,
        })
    }

    fn answer(&mut self, line: &str) -> Outcome<String> {
        let (word, rest) = line.split_once(' ').unwrap_or((line, ""));
        let numbers: Vec<u64> = rest.split_whitespace().map(str::parse).collect::<Result<_, _>>()?;
        match (word, &numbers[..]) {
            ("poll", [now]) => self.poll(Moment::from_millis(*now)),
            ("resume", [now]) => Ok(self.resume(Moment::from_millis(*now))),
            ("status", []) => Ok(self.status()),
            ("open", [index]) => Ok(self.open(*index as usize)),
            ("view", [view]) => self.view(View::new(*view)),
            ("withheld", [kind, view]) => self.withheld(*kind, View::new(*view)),
            ("shown", [kind, view]) => self.shown(*kind, View::new(*view)),
            ("served", [view]) => self.served(View::new(*view)),
            _ => {
                let (input, now) = input(word, &numbers)?;
                let told = self.engine.handle(input, Moment::from_millis(now));
                Ok(told.map_or("failed".into(), |is_of_use| is_of_use.to_string()))
            }
        }
    }

    fn poll(&mut self, now: Moment) -> Outcome<String> {
        Ok(match self.engine.poll(now) {
            Ok(None) => "nothing".into(),
            Ok(Some(Output::Store(entries))) => {
                let text = stored("store", &entries)?;
                let kept = self.kept.as_mut().ok_or("nothing was stored")?;
                kept.bytes.extend(entries.bytes);
                kept.stored = entries.stored;
                text
            }
            Ok(Some(Output::Replace(entries))) => {
                let text = stored("replace", &entries)?;
                self.kept = Some(entries);
                text
            }
            Ok(Some(output)) => text_of(&output)?,
            Err(_) => "failed".into(),
        })
    }

    fn resume(&mut self, now: Moment) -> String {
        let Some(kept) = &self.kept else {
            return "nothing is stored".into();
        };
        match Engine::resume(&self.config, &self.options, now, &kept.stored, &kept.bytes) {
            Ok(engine) => {
                self.engine = engine;
                "resumed".into()
            }
            Err(_) => "refused".into(),
        }
    }

    fn status(&self) -> String {
        let it = &self.engine;
        format!(
            "status {} {} {} {}",
            it.is_failed(),
            it.wake().as_millis(),
            it.ignored(),
            it.fetches().len()
        )
    }

    fn open(&self, index: usize) -> String {
        self.engine.fetches().get(index).map_or("none".into(), |it| {
            format!("open {} {} {} {}", kind_word(it.kind), it.view, it.count, it.moment.as_millis())
        })
    }

    fn view(&self, view: View) -> Outcome<String> {
        let it = &self.engine;
        let views = it.views().ok_or("it has failed")?;
        let leader = it.leader(view).map_or("-".into(), |leader| leader.to_string());
        Ok(format!(
            "view {} {} {leader} {} {}",
            views.current,
            views.last_finalized,
            it.admits_vote(view),
            it.admits_certificate(view)
        ))
    }

    fn withheld(&self, kind: u64, view: View) -> Outcome<String> {
        let kind = match kind {
            1 => VoteKind::Notarize,
            2 => VoteKind::Nullify,
            _ => VoteKind::Finalize,
        };
        let number = self.engine.withheld(kind, view)?.map_or(0, |it| it as u32 + 1);
        Ok(format!("withheld {number}"))
    }

    fn shown(&self, kind: u64, view: View) -> Outcome<String> {
        let kind = match kind {
            1 => CertificateKind::Notarization,
            2 => CertificateKind::Nullification,
            _ => CertificateKind::Finalization,
        };
        let found = self.engine.certificate(kind, view)?;
        Ok(found.map_or("none".into(), |it| format!("shown {}", sum_of(it.bytes()))))
    }

    fn served(&self, view: View) -> Outcome<String> {
        let served = self.engine.serve(view)?;
        Ok(served.map_or("none".into(), |it| {
            format!("served {}", sum_of(&[&it.subject().encode(), it.bytes()].concat()))
        }))
    }
}

/// The input of a line, and the moment.
fn input(word: &str, numbers: &[u64]) -> Outcome<(Input, u64)> {
    let (now, numbers) = numbers.split_last().ok_or("a line of no moment")?;
    let input = match (word, numbers) {
        ("proposal", &[from, v, p, d]) => Input::Proposal {
            from: Participant::new(from as u32),
            proposal: proposal(v, p, d),
        },
        ("vote", &[kind, signer, v, p, d, b]) => Input::Vote(Vote {
            subject: subject(kind, proposal(v, p, d)),
            signer: Participant::new(signer as u32),
            signature: bytes(b),
        }),
        ("certificate", &[kind, v, p, d, b]) => Input::Certificate(Certificate::of(subject(kind, proposal(v, p, d)), bytes(b))),
        ("built", &[v, p, pd, leader, d]) => Input::Built {
            context: context(v, p, pd, leader),
            payload: payload(d),
        },
        _ => verdict(word, numbers)?,
    };
    Ok((input, *now))
}

/// The input of a view and a number.
fn verdict(word: &str, numbers: &[u64]) -> Outcome<Input> {
    let &[view, number] = numbers else {
        return Err(format!("not a line: {word} {numbers:?}").into());
    };
    let (view, is_so) = (View::new(view), number == 1);
    Ok(match word {
        "verified" => Input::Verified { view, is_valid: is_so },
        "certified" => Input::Certified { view, is_success: is_so },
        "given-up" => Input::GivenUp {
            view,
            reason: REASONS[number as usize],
        },
        _ => return Err(format!("not a line: {word} {numbers:?}").into()),
    })
}

fn context(view: u64, parent: u64, parent_payload: u64, leader: u64) -> Context {
    Context {
        round: round(view),
        leader: Participant::new(leader as u32),
        parent: View::new(parent),
        parent_payload: payload(parent_payload),
    }
}

fn round(view: u64) -> Round {
    Round {
        epoch: EPOCH,
        view: View::new(view),
    }
}

fn proposal(view: u64, parent: u64, number: u64) -> Proposal {
    Proposal {
        round: round(view),
        parent: View::new(parent),
        payload: payload(number),
    }
}

/// The payload of a number: its bytes at the end.
fn payload(number: u64) -> Digest {
    let mut bytes = [0; 32];
    bytes[24..].copy_from_slice(&number.to_be_bytes());
    Digest::new(bytes)
}

/// As many bytes of a number as it says, eight times.
fn bytes(number: u64) -> Vec<u8> {
    vec![number as u8; number as usize * 8]
}

fn subject(kind: u64, proposal: Proposal) -> Subject {
    match kind {
        1 => Subject::Notarize(proposal),
        2 => Subject::Nullify(proposal.round),
        _ => Subject::Finalize(proposal),
    }
}

/// The entries that are to be stored, and the numbers and the flag that are stored beside them.
fn stored(word: &str, entries: &Entries) -> Outcome<String> {
    let mut text = format!("{word} {}", sum_of(&entries.bytes));
    let beside = entries.stored.to_bytes();
    for number in beside[..32].chunks_exact(8) {
        write!(text, " {}", u64::from_be_bytes(number.try_into()?))?;
    }
    write!(text, " {}", beside[32] == 1)?;
    Ok(text)
}

fn text_of(output: &Output) -> Outcome<String> {
    let mut text = word_of(output).to_string();
    match output {
        Output::Vote(order) => write_vote(&mut text, &order.signed(order.text.clone()))?,
        Output::Broadcast(it) => {
            write_subject(&mut text, "notarization nullification finalization", &it.subject())?;
            write!(text, " {}", sum_of(it.bytes()))?;
        }
        Output::Verify(context, proposal) => {
            write_context(&mut text, context)?;
            write_proposal(&mut text, proposal)?;
        }
        Output::Build(context) => write_context(&mut text, context)?,
        Output::Certify(proposal) | Output::Finalized(proposal) => write_proposal(&mut text, proposal)?,
        Output::StopBuilding(view) | Output::Forget(view) => write!(text, " {view}")?,
        Output::Fetch(it) => {
            let of = it.of.map_or("-".into(), |of| of.to_string());
            write!(text, " {} {} {of}", kind_word(it.kind), it.view)?;
        }
        Output::Equivocated(one, other) => {
            write_vote(&mut text, one)?;
            write_vote(&mut text, other)?;
        }
        Output::ProposedTwice(view, leader) => write!(text, " {view} {leader}")?,
        Output::Store(_) | Output::Replace(_) => {}
    }
    Ok(text)
}

fn word_of(output: &Output) -> &'static str {
    match output {
        Output::Store(_) | Output::Replace(_) => "stored",
        Output::Vote(_) => "vote",
        Output::Broadcast(_) => "broadcast",
        Output::Verify(..) => "verify",
        Output::Build(_) => "build",
        Output::StopBuilding(_) => "stop",
        Output::Certify(_) => "certify",
        Output::Fetch(_) => "fetch",
        Output::Finalized(_) => "finalized",
        Output::Equivocated(..) => "equivocated",
        Output::ProposedTwice(..) => "twice",
        Output::Forget(_) => "forget",
    }
}

fn kind_word(kind: FetchKind) -> &'static str {
    match kind {
        FetchKind::Notarization => "notarization",
        FetchKind::Nullification => "nullification",
        FetchKind::Decision => "decision",
    }
}

fn write_vote(text: &mut String, vote: &Vote) -> Outcome {
    write_subject(text, "notarize nullify finalize", &vote.subject)?;
    Ok(write!(text, " {} {}", vote.signer, sum_of(&vote.signature))?)
}

/// Returns what a vote or a certificate is on, behind the word of its kind of three.
fn write_subject(text: &mut String, words: &str, subject: &Subject) -> Outcome {
    let word = |place| words.split(' ').nth(place).unwrap_or_default();
    match subject {
        Subject::Notarize(proposal) => {
            write!(text, " {}", word(0))?;
            write_proposal(text, proposal)
        }
        Subject::Nullify(round) => Ok(write!(text, " {} {}.{}", word(1), round.epoch, round.view)?),
        Subject::Finalize(proposal) => {
            write!(text, " {}", word(2))?;
            write_proposal(text, proposal)
        }
    }
}

fn write_proposal(text: &mut String, it: &Proposal) -> Outcome {
    let sum = sum_of(it.payload.bytes());
    Ok(write!(text, " {}.{} {} {sum}", it.round.epoch, it.round.view, it.parent)?)
}

fn write_context(text: &mut String, it: &Context) -> Outcome {
    let sum = sum_of(it.parent_payload.bytes());
    Ok(write!(
        text,
        " {}.{} {} {} {sum}",
        it.round.epoch, it.round.view, it.leader, it.parent
    )?)
}

/// How many bytes there are, and their FNV-1a hash.
fn sum_of(bytes: &[u8]) -> String {
    let hash = bytes.iter().fold(0xcbf2_9ce4_8422_2325, |hash: u64, byte| {
        (hash ^ u64::from(*byte)).wrapping_mul(0x0100_0000_01b3)
    });
    format!("{}:{hash}", bytes.len())
}
