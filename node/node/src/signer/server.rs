//! The process that holds a member's key, and signs its votes for whoever connects to its socket.

use super::guard::{Guard, Owner};
use super::remote::{DONE, REFUSED, SIGN, WHO, read_piece, who, write_piece};
use super::{Local, Signer};
use crate::crypto::read_secret;
use crate::settings::Outcome;
use crate::vote::is_sound;
use simplex_view_state::{Epoch, Namespace, Subject};
use std::fs::{self, Permissions};
use std::io;
use std::os::unix::fs::{FileTypeExt, PermissionsExt};
use std::os::unix::net::{UnixListener, UnixStream};
use std::path::{Path, PathBuf};
use std::sync::{Arc, Mutex, PoisonError};
use std::thread;
use tracing::{info, warn};

/// How many connections a signer has at once.
const MOST_CONNECTIONS: usize = 8;

/// The settings of a signer.
#[derive(Clone, Debug)]
pub struct Settings {
    /// The namespace of the network, as `simplex-node namespace` prints it.
    pub namespace: Namespace,
    /// The epoch.
    pub epoch: u64,
    /// The file of the secret key.
    pub key: PathBuf,
    /// The file of what was signed.
    pub guard: PathBuf,
    /// Where it listens.
    pub socket: PathBuf,
    /// The first view that it signs, of a key that has signed nothing; `None` of one that continues.
    pub begin_at: Option<u64>,
}

struct Shared {
    owner: Owner,
    guard: Mutex<Guard>,
    key: Local,
}

/// Runs a signer until the process is ended.
///
/// # Errors
///
/// Where the key, the guard or the socket can't be used: names the file, and what to do.
pub fn run(settings: &Settings) -> Outcome {
    serve(settings, listen(&settings.socket)?)
}

/// Runs a signer at a socket that is bound already.
///
/// # Errors
///
/// As of [`run`], and where the socket fails.
pub fn serve(settings: &Settings, listener: UnixListener) -> Outcome {
    let secret = read_secret(&settings.key)?;
    let key: [u8; 32] = secret.raw_public_key()?.try_into().map_err(|_| "an ed25519 key has 32 bytes")?;
    let owner = Owner {
        namespace: settings.namespace,
        epoch: settings.epoch,
        key,
    };
    let guard = match settings.begin_at {
        Some(first) => Guard::create(&settings.guard, owner.clone(), first)?,
        None => Guard::open(&settings.guard, owner.clone())?,
    };
    let shared = Arc::new(Shared {
        owner,
        guard: Mutex::new(guard),
        key: Local::new(secret),
    });
    info!(socket = %settings.socket.display(), "the signer listens");
    for stream in listener.incoming() {
        let stream = stream?;
        if Arc::strong_count(&shared) > MOST_CONNECTIONS {
            continue;
        }
        let its_own = shared.clone();
        thread::Builder::new()
            .name("signer of one".into())
            .spawn(move || its_own.reply_all(stream))?;
    }
    Ok(())
}

/// Listens at a socket that this user alone may use. The socket of a signer that has ended is replaced; any other file is left alone.
fn listen(path: &Path) -> Outcome<UnixListener> {
    let named = |error: io::Error| format!("{}: {error}", path.display());
    if let Ok(there) = fs::symlink_metadata(path) {
        if !there.file_type().is_socket() {
            return Err(format!("{}: this is no socket, and stays as it is: name another path", path.display()).into());
        }
        if UnixStream::connect(path).is_ok() {
            return Err(format!(
                "{}: another signer listens there: end it first, or name another socket",
                path.display()
            )
            .into());
        }
        fs::remove_file(path).map_err(named)?;
    }
    let listener = UnixListener::bind(path).map_err(named)?;
    fs::set_permissions(path, Permissions::from_mode(0o600)).map_err(named)?;
    Ok(listener)
}

impl Shared {
    fn reply_all(&self, mut stream: UnixStream) {
        while let Ok((what, text)) = read_piece(&mut stream) {
            let (status, reply) = match self.reply(what, &text) {
                Ok(reply) => (DONE, reply),
                Err(error) => {
                    warn!(%error, "a vote is not signed");
                    (REFUSED, error.to_string().into_bytes())
                }
            };
            if write_piece(&mut stream, status, &reply).is_err() {
                return;
            }
        }
    }

    fn reply(&self, what: u8, text: &[u8]) -> Outcome<Vec<u8>> {
        match what {
            WHO => Ok(who(&self.owner)),
            SIGN => self.sign(text),
            _ => Err("a request of another version".into()),
        }
    }

    /// Signs the text of a vote of its network, and nothing else, once the guard has it.
    fn sign(&self, text: &[u8]) -> Outcome<Vec<u8>> {
        let namespace = &self.owner.namespace;
        let subject = text.strip_prefix(namespace.bytes()).and_then(Subject::decode);
        let (subject, rest) = subject.ok_or("what is to be signed is no vote of this network")?;
        if !rest.is_empty() || subject.text(namespace) != text || !is_sound(&subject, Epoch::new(self.owner.epoch)) {
            return Err(format!("no honest member votes so: {subject:?}").into());
        }
        self.guard.lock().unwrap_or_else(PoisonError::into_inner).admit(&subject)?;
        Ok(self.key.sign(&subject, text)?.to_vec())
    }
}

#[cfg(test)]
mod tests {
    use super::listen;
    use std::fs;

    #[test]
    fn a_file_that_is_no_socket_stays_as_it_is() {
        let path = std::env::temp_dir().join(format!("simplex-signer-{}-key", std::process::id()));
        fs::write(&path, "a key").expect("a disk");
        let refusal = listen(&path).expect_err("it is no socket").to_string();
        assert!(
            refusal.contains("is no socket") && refusal.contains("name another path"),
            "{refusal}"
        );
        assert_eq!(fs::read_to_string(&path).expect("it is there"), "a key");
        fs::remove_file(&path).expect("the test's own file");
    }
}
