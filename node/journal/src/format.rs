//! The bytes of a journal. The crate's page describes them.

use crate::error::Cause;
use sha2::{Digest as _, Sha256};
use simplex_identity::{self as identity, Identity};
use simplex_view_state::{Config, Engine, Entries, Moment, OpenError, Options, Stored};
use std::io;

const NAME: &[u8; 8] = b"simplexj";
/// The version that is written and read. From 3 on a journal says whose it is, from 4 on of which network; from 5 on pieces say what was
/// synced before them; from 6 on the texts of votes begin with the network's namespace.
pub const VERSION: u8 = 6;
/// The last version whose votes are signed without the network's namespace.
const OF_NO_NAMESPACE: u8 = 5;
/// How many bytes the letters and the version have.
pub(crate) const BEGIN: usize = 9;
/// How many bytes the file has before its first piece.
pub const HEAD: usize = BEGIN + identity::SIZE + 32;
/// The first and the last byte of a piece: neither is zero, which distinguishes a piece's first and last sector from unwritten ones.
const MARKS: (u8, u8) = (0xa5, 0x5a);
/// How many bytes a piece has before its body: the mark, the length and its complement, and what was synced.
const BEFORE: usize = 1 + 8 + 8;
/// .. and behind it: a digest, and the mark.
const BEHIND: usize = 32 + 1;
/// The bytes that a disk writes as a whole, at least.
const SECTOR: usize = 512;

/// The contents of a journal, as they were read back.
#[derive(Clone, PartialEq, Eq, Debug)]
pub struct Recovered {
    /// The last `Stored` that was written beside the record.
    pub stored: Stored,
    /// The record's entries.
    pub frames: Vec<u8>,
    /// How many bytes of a torn tail are left out.
    pub cut: usize,
}

/// Starts the engine of a member whose journal is new, or resumes it from what its journal held, at moment 0 of this process's clock.
///
/// # Errors
///
/// Where the settings or the entries are refused.
pub fn engine(recovered: Option<&Recovered>, config: &Config, options: &Options) -> Result<Engine, OpenError> {
    let now = Moment::from_millis(0);
    match recovered {
        Some(it) => Engine::resume(config, options, now, &it.stored, &it.frames),
        None => Engine::start(config, options, now),
    }
}

/// A whole piece.
struct Piece<'a> {
    body: &'a [u8],
    synced: u64,
    end: usize,
}

fn digest(bytes: &[u8]) -> [u8; 32] {
    Sha256::digest(bytes).into()
}

/// Returns what the bytes of a journal hold, and whose it is.
///
/// # Errors
///
/// A cause, where they are no journal of this version, or are damaged.
pub fn parse(bytes: &[u8]) -> Result<(Identity, Recovered), Cause> {
    match version_of(bytes)? {
        VERSION => {}
        earlier @ ..=OF_NO_NAMESPACE => return Err(Cause::OfNoNamespace(earlier)),
        other => return Err(Cause::OtherVersion(other)),
    }
    Ok((identity_of(bytes)?, recovered(bytes)?))
}

fn version_of(bytes: &[u8]) -> Result<u8, Cause> {
    let rest = bytes.strip_prefix(NAME).ok_or(Cause::NoJournal)?;
    rest.first().copied().ok_or(Cause::NoJournal)
}

/// Whose journal the bytes are. They were synced once, so a digest that is not theirs is damage.
fn identity_of(bytes: &[u8]) -> Result<Identity, Cause> {
    let (head, _) = bytes.split_at_checked(HEAD).ok_or(Cause::Damaged(BEGIN))?;
    let (named, sum) = head.split_at(HEAD - 32);
    if digest(named) != sum {
        return Err(Cause::Damaged(BEGIN));
    }
    let (_, identity) = named.split_last_chunk().ok_or(Cause::NoJournal)?;
    Identity::from_bytes(identity).ok_or(Cause::NoJournal)
}

/// The bytes before a journal's first piece.
pub(crate) fn head(identity: &Identity) -> Vec<u8> {
    let mut head = [&NAME[..], &[VERSION], &identity.to_bytes()].concat();
    let sum = digest(&head);
    head.extend_from_slice(&sum);
    head
}

/// Returns what the pieces hold, up to a torn tail. The first piece was synced before the file got its name.
fn recovered(bytes: &[u8]) -> Result<Recovered, Cause> {
    let (mut at, mut stored, mut frames) = (HEAD, None, Vec::new());
    while at < bytes.len() {
        let Some(piece) = piece_at(bytes, at) else {
            if at == HEAD || was_synced(bytes, at) || !is_torn(bytes, at) {
                return Err(Cause::Damaged(at));
            }
            break;
        };
        let (beside, more) = piece.body.split_first_chunk::<{ Stored::SIZE }>().ok_or(Cause::Damaged(at))?;
        stored = Some(Stored::from_bytes(beside).ok_or(Cause::Damaged(at))?);
        frames.extend_from_slice(more);
        at = piece.end;
    }
    Ok(Recovered {
        stored: stored.ok_or(Cause::Damaged(HEAD))?,
        frames,
        cut: bytes.len() - at,
    })
}

/// The length of the body of the piece that begins there, where its complement is beside it.
fn length_at(bytes: &[u8], at: usize) -> Option<usize> {
    let lengths = bytes.get(at + 1..)?.first_chunk::<8>()?;
    let both = u64::from_be_bytes(*lengths);
    let length = (both >> 32) as u32;
    (bytes[at] == MARKS.0 && both as u32 == !length).then_some(length as usize)
}

/// The piece that begins there, where it is whole.
fn piece_at(bytes: &[u8], at: usize) -> Option<Piece<'_>> {
    let body = at + BEFORE;
    let sum = body + length_at(bytes, at)?;
    let (found, mark) = (bytes.get(sum..sum + 32)?, *bytes.get(sum + 32)?);
    let synced = u64::from_be_bytes(*bytes.get(body - 8..)?.first_chunk()?);
    let is_whole = mark == MARKS.1 && synced <= at as u64 && digest(&bytes[at + 1..sum]) == found;
    is_whole.then(|| Piece {
        body: &bytes[body..sum],
        synced,
        end: sum + BEHIND,
    })
}

/// Returns whether a later piece says that the bytes from here on had been synced before it was written.
fn was_synced(bytes: &[u8], at: usize) -> bool {
    (at + 1..bytes.len()).any(|later| piece_at(bytes, later).is_some_and(|it| it.synced > at as u64))
}

/// Returns whether the piece there, which is not whole, may be one that a power cut left so: it ends early, or a sector of it was never
/// written.
fn is_torn(bytes: &[u8], at: usize) -> bool {
    let (least, end) = match length_at(bytes, at) {
        Some(length) => (BEFORE + length + BEHIND, at + BEFORE + length + BEHIND),
        None => (BEFORE, bytes.len()),
    };
    if bytes.len() - at < least {
        return true;
    }
    let first = at / SECTOR * SECTOR;
    (first..at + least).step_by(SECTOR).any(|sector| {
        let written = &bytes[sector.max(at)..(sector + SECTOR).min(end)];
        written.iter().all(|byte| *byte == 0)
    })
}

/// A piece of these entries, written where so many bytes of the file are synced.
pub(crate) fn piece(entries: &Entries, synced: u64) -> io::Result<Vec<u8>> {
    let length = Stored::SIZE + entries.bytes.len();
    let length = u32::try_from(length).map_err(|_| io::Error::other("a turn recorded 4 GiB"))?;
    let mut piece = Vec::with_capacity(BEFORE + length as usize + BEHIND);
    piece.push(MARKS.0);
    piece.extend_from_slice(&length.to_be_bytes());
    piece.extend_from_slice(&(!length).to_be_bytes());
    piece.extend_from_slice(&synced.to_be_bytes());
    piece.extend_from_slice(&entries.stored.to_bytes());
    piece.extend_from_slice(&entries.bytes);
    let sum = digest(&piece[1..]);
    piece.extend_from_slice(&sum);
    piece.push(MARKS.1);
    Ok(piece)
}
