//! Serves the resolver's lines of the repository's program `viewstate` (docs/PROGRAM.md) through this package, and prints the program's
//! replies. The first line is `replayed`, since a resolver starts here with its replay ended; `produce` prints only whether there is
//! something to serve, since the program's payloads are shorter. It serves two lines more than the program: `served V`, the bytes that are
//! served, and `fetches`, how many are outstanding.
//!
//!     cargo run --example resolver -- resolver T

use simplex_view_state::{
    Certificate, Digest, Effect, Epoch, FetchReason, Finalization, MissingCertificate, Notarization, Nullification, Proposal, Refusal,
    Resolver, Round, View,
};
use std::error::Error;
use std::io::{BufRead, Write};
use std::{env, io};

/// A certificate of this example: one byte that no one reads.
const CERTIFICATE: [u8; 1] = [1];

fn main() -> Result<(), Box<dyn Error>> {
    let words: Vec<String> = env::args().skip(1).collect();
    let [_, length] = &words[..] else {
        return Err("usage: resolver resolver T".into());
    };
    let mut resolver = Resolver::start(length.parse()?, &[])?;
    let mut out = io::BufWriter::new(io::stdout().lock());
    for line in io::stdin().lock().lines() {
        writeln!(out, "{}", reply_to(&mut resolver, &line?)?)?;
    }
    out.flush()?;
    Ok(())
}

fn reply_to(resolver: &mut Resolver, line: &str) -> Result<String, Box<dyn Error>> {
    let words: Vec<&str> = line.split(' ').collect();
    let updated = match words[..] {
        ["replayed"] => Ok(Vec::new()),
        ["notarization", v] => resolver.updated(&Certificate::Notarization(notarization(v)?)),
        ["nullification", v] => resolver.updated(&Certificate::Nullification(nullification(v)?)),
        ["finalization", v] => resolver.updated(&Certificate::Finalization(finalization(v)?)),
        ["certified", v, success] => resolver.certified(&notarization(v)?, success.parse()?),
        ["settled", v, "notarization"] => return Ok(resolver.is_settled(view(v)?, MissingCertificate::Notarization).to_string()),
        ["settled", v, _] => return Ok(resolver.is_settled(view(v)?, MissingCertificate::Nullification).to_string()),
        ["key-settled", v] => {
            let is_settled = |kind| Ok::<bool, Box<dyn Error>>(resolver.is_settled(view(v)?, kind));
            return Ok((is_settled(MissingCertificate::Nullification)? && is_settled(MissingCertificate::Notarization)?).to_string());
        }
        ["uncertifiable", v] => return Ok(resolver.is_uncertifiable(view(v)?).to_string()),
        ["open", v] => return Ok(resolver.is_open(view(v)?).to_string()),
        ["outstanding"] => {
            let views = resolver.outstanding()?;
            return Ok(views.iter().fold("outstanding".to_string(), |text, view| format!("{text} {view}")));
        }
        ["fetches"] => return Ok(resolver.outstanding()?.len().to_string()),
        ["served", v] => {
            return Ok(resolver
                .produce(view(v)?)?
                .map_or("none".into(), |it| format!("served {}", sum_of(&it))));
        }
        ["produce", v] => return Ok(if resolver.produce(view(v)?)?.is_some() { "some" } else { "none" }.into()),
        _ => return Err(format!("not a call: {line}").into()),
    };
    Ok(match updated {
        Ok(effects) if effects.is_empty() => "-".into(),
        Ok(effects) => effects.iter().map(text).collect::<Vec<_>>().join("; "),
        Err(Refusal::ViewTooLarge) => "fault 3 ViewTooLarge".into(),
        Err(Refusal::NotAllowed) => "not-allowed".into(),
        Err(refusal) => return Err(refusal.into()),
    })
}

/// Says how many bytes there are, and their FNV-1a hash.
fn sum_of(bytes: &[u8]) -> String {
    let hash = bytes.iter().fold(0xcbf2_9ce4_8422_2325_u64, |hash, byte| {
        (hash ^ u64::from(*byte)).wrapping_mul(0x0100_0000_01b3)
    });
    format!("{}:{hash}", bytes.len())
}

fn text(effect: &Effect) -> String {
    match effect {
        Effect::Fetch { view, cause, reason } => {
            let reason = match reason {
                FetchReason::MissingNullification => "missing_nullification",
                FetchReason::CertificationFailed => "certification_failed",
            };
            format!("fetch {view} {cause} {reason}")
        }
        Effect::Settled { kind, start, end } => {
            let kind = match kind {
                MissingCertificate::Nullification => "nullification",
                MissingCertificate::Notarization => "notarization",
            };
            format!("settled {kind} {start} {end}")
        }
        Effect::Finalized(view) => format!("finalized {view}"),
        Effect::Raised(view) => format!("raised {view}"),
    }
}

fn view(word: &str) -> Result<View, Box<dyn Error>> {
    Ok(View::new(word.parse()?))
}

fn round(word: &str) -> Result<Round, Box<dyn Error>> {
    Ok(Round {
        epoch: Epoch::new(1),
        view: view(word)?,
    })
}

fn notarization(word: &str) -> Result<Notarization, Box<dyn Error>> {
    let round = round(word)?;
    let proposal = Proposal {
        round,
        parent: View::new(round.view.get().saturating_sub(1)),
        payload: Digest::default(),
    };
    Ok(Notarization {
        proposal,
        certificate: CERTIFICATE.to_vec(),
    })
}
fn nullification(word: &str) -> Result<Nullification, Box<dyn Error>> {
    Ok(Nullification {
        round: round(word)?,
        certificate: CERTIFICATE.to_vec(),
    })
}

fn finalization(word: &str) -> Result<Finalization, Box<dyn Error>> {
    Ok(Finalization {
        proposal: notarization(word)?.proposal,
        certificate: CERTIFICATE.to_vec(),
    })
}
