//! A signer that is a process of its own, over a Unix socket.
//!
//! A request is its length in two bytes, a byte that says what is asked, and the vote's text. A reply is its length in two bytes, a byte
//! that says whether it is refused, and the signature or the reason.

use super::Signer;
use super::guard::Owner;
use crate::crypto::{Signature, hex};
use crate::settings::Outcome;
use simplex_view_state::Subject;
use std::io::{self, Read, Write};
use std::os::unix::net::UnixStream;
use std::path::{Path, PathBuf};
use std::sync::{Mutex, PoisonError};
use std::thread::sleep;
use std::time::{Duration, Instant};

/// The kinds of requests: who the signer is, or a signature.
pub(super) const WHO: u8 = 0;
pub(super) const SIGN: u8 = 1;
/// The kinds of replies.
pub(super) const DONE: u8 = 0;
pub(super) const REFUSED: u8 = 1;
/// How long a request or reply is at most.
pub(super) const LONGEST: usize = 1024;
/// How long a signer has to reply: it waits for its disk.
const REPLIES_WITHIN: Duration = Duration::from_secs(10);
/// How long a signer is waited for that is begun again.
const BACK_WITHIN: Duration = Duration::from_secs(5);

/// A connection to a signer, which is made anew where it ends.
pub struct Remote {
    path: PathBuf,
    owner: Owner,
    stream: Mutex<Option<UnixStream>>,
}

impl Remote {
    /// The signer at a socket, which has to be this owner's.
    ///
    /// # Errors
    ///
    /// Where nobody listens there, or a signer of another network, epoch or key does: names the socket, and what to do.
    pub fn connect(path: &Path, owner: Owner) -> Outcome<Remote> {
        let remote = Remote {
            path: path.to_owned(),
            owner,
            stream: Mutex::new(None),
        };
        let stream = remote.open()?;
        *remote.stream.lock().unwrap_or_else(PoisonError::into_inner) = Some(stream);
        Ok(remote)
    }

    fn named(&self, error: impl std::fmt::Display) -> String {
        format!("the signer at {}: {error}", self.path.display())
    }

    /// A connection to the signer, and who that says to be.
    fn connected(&self) -> io::Result<(UnixStream, (u8, Vec<u8>))> {
        let mut stream = UnixStream::connect(&self.path)?;
        stream.set_read_timeout(Some(REPLIES_WITHIN))?;
        stream.set_write_timeout(Some(REPLIES_WITHIN))?;
        let reply = ask(&mut stream, WHO, &[])?;
        Ok((stream, reply))
    }

    /// A connection to the signer, whose owner is compared. One that is just ending may still take a connection, and not reply.
    fn open(&self) -> Outcome<UnixStream> {
        let begun = Instant::now();
        let (stream, (status, there)) = loop {
            match self.connected() {
                Ok(it) => break it,
                Err(_) if begun.elapsed() < BACK_WITHIN => sleep(Duration::from_millis(50)),
                Err(error) => return Err(self.named(format!("{error}: begin it by `simplex-node signer`")).into()),
            }
        };
        if status != DONE || there != who(&self.owner) {
            let here = format!(
                "--namespace {} --epoch {}, key {}",
                self.owner.namespace,
                self.owner.epoch,
                hex(&self.owner.key)
            );
            return Err(self
                .named(format!("it is of another network, epoch or key than this member's: {here}"))
                .into());
        }
        Ok(stream)
    }
}

impl Signer for Remote {
    fn sign(&self, _: &Subject, text: &[u8]) -> Outcome<Signature> {
        let mut open = self.stream.lock().unwrap_or_else(PoisonError::into_inner);
        let asked = open.as_mut().map(|stream| ask(stream, SIGN, text));
        let (status, reply) = match asked {
            Some(Ok(reply)) => reply,
            // (it may have been begun again: the same vote is signed again)
            Some(Err(_)) | None => {
                *open = None;
                let stream = open.insert(self.open()?);
                ask(stream, SIGN, text).map_err(|error| self.named(error))?
            }
        };
        if status != DONE {
            return Err(self.named(format!("it refuses a vote: {}", String::from_utf8_lossy(&reply))).into());
        }
        Ok(reply.try_into().map_err(|_| self.named("its signature has not 64 bytes"))?)
    }
}

/// Who a signer is, as it replies.
pub(super) fn who(owner: &Owner) -> Vec<u8> {
    [&owner.namespace.bytes()[..], &owner.epoch.to_be_bytes(), &owner.key].concat()
}

fn ask(stream: &mut UnixStream, what: u8, text: &[u8]) -> io::Result<(u8, Vec<u8>)> {
    write_piece(stream, what, text)?;
    read_piece(stream)
}

pub(super) fn write_piece(stream: &mut UnixStream, what: u8, bytes: &[u8]) -> io::Result<()> {
    let bytes = &bytes[..bytes.len().min(LONGEST)];
    let length = bytes.len() as u16 + 1;
    stream.write_all(&[&length.to_be_bytes()[..], &[what], bytes].concat())
}

pub(super) fn read_piece(stream: &mut UnixStream) -> io::Result<(u8, Vec<u8>)> {
    let mut length = [0; 2];
    stream.read_exact(&mut length)?;
    let length = usize::from(u16::from_be_bytes(length));
    if !(1..=LONGEST + 1).contains(&length) {
        return Err(io::ErrorKind::InvalidData.into());
    }
    let mut bytes = vec![0; length];
    stream.read_exact(&mut bytes)?;
    Ok((bytes[0], bytes.split_off(1)))
}
