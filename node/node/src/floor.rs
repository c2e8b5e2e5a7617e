//! A file with a finalized proposal and its certificate: where a node begins that has no journal.
//!
//! It begins with eight letters and a version. Then come the bytes of the certificate's subject and its own.

use crate::crypto::raw_key;
use crate::settings::{Outcome, Settings};
use simplex_keys::PublicKeys;
use simplex_view_state::{Certificate, CertificateKind, Config, Engine, Finalization, Floor, Moment, Options, Subject};
use std::fs;

const NAME: &[u8; 8] = b"simplexf";
/// From 4 on the votes of the certificate are signed in the network's namespace.
const VERSION: u8 = 4;

/// Where a node begins: genesis, or the finalized proposal whose certificate the settings name.
pub fn read(settings: &Settings) -> Outcome<Floor> {
    let Some(path) = &settings.floor else {
        return Ok(Floor::Genesis(settings.identity()?.genesis()));
    };
    let members = settings.members.iter().map(|it| raw_key(&it.key)).collect::<Outcome<Vec<_>>>()?;
    let keys = PublicKeys::new(settings.identity()?.namespace(), &members)?;
    let bytes = fs::read(path).map_err(|error| format!("{}: {error}", path.display()))?;
    match parse(&bytes).map_err(|error| format!("{}: {error}", path.display()))? {
        it if keys.is_certificate(&Certificate::Finalization(it.clone())) => Ok(Floor::Finalized(it)),
        _ => Err(format!("{}: its certificate is not signed by these members", path.display()).into()),
    }
}

fn parse(bytes: &[u8]) -> Result<Finalization, String> {
    let rest = bytes
        .strip_prefix(NAME)
        .ok_or("it is no floor of this engine, or one of version 1")?;
    let (version, rest) = rest.split_first().ok_or("the floor is cut off")?;
    if *version != VERSION {
        return Err(format!(
            "the floor has version {version}, and this engine writes and reads {VERSION}"
        ));
    }
    match Subject::decode(rest) {
        Some((Subject::Finalize(proposal), certificate)) => Ok(Finalization {
            proposal,
            certificate: certificate.to_vec(),
        }),
        _ => Err("it is no certificate of a finalized proposal".to_owned()),
    }
}

fn written(it: &Certificate) -> Vec<u8> {
    [&NAME[..], &[VERSION], &it.subject().encode(), it.bytes()].concat()
}

/// The last finalized proposal that a folder's journal has, as the bytes of a floor.
pub fn of(settings: &Settings) -> Outcome<Vec<u8>> {
    let folder = &settings.data;
    let none = || format!("{}: there is no journal", simplex_journal::path(folder).display());
    let recovered = simplex_journal::read(folder, &settings.identity()?)?.ok_or_else(none)?;
    let config: Config = settings.config(read(settings)?)?;
    let engine = Engine::resume(
        &config,
        &Options::default(),
        Moment::from_millis(0),
        &recovered.stored,
        &recovered.frames,
    )?;
    let last = engine.views().ok_or("the engine has failed")?.last_finalized;
    let it = engine
        .certificate(CertificateKind::Finalization, last)?
        .ok_or("nothing is finalized yet")?;
    Ok(written(&it))
}

#[cfg(test)]
mod tests {
    use super::*;
    use simplex_view_state::Proposal;

    #[test]
    fn a_floor_of_another_version_is_refused_by_name() {
        let it = Finalization {
            proposal: Proposal::default(),
            certificate: vec![7; 99],
        };
        let mut bytes = written(&Certificate::Finalization(it.clone()));
        assert_eq!(parse(&bytes), Ok(it));
        assert!(parse(&bytes[9..]).is_err_and(|error| error.contains("version 1")));
        bytes[8] = 2;
        assert!(parse(&bytes).is_err_and(|error| error.contains("has version 2")));
    }
}
