//! The ledger's snapshots. Its state after a block is a record of 40 bytes for each block so far: the view and the digest. So a snapshot is
//! a beginning of each later one, and all are in one file that grows, which is made anew from the chain at each start.

use super::Link;
use crate::named::named;
use simplex_view_state::{Digest, View};
use simplex_wire::{Manifest, PIECE, digest};
use std::collections::VecDeque;
use std::fs::{File, OpenOptions};
use std::io::{self, BufWriter, Write};
use std::os::unix::fs::FileExt;
use std::path::{Path, PathBuf};

/// How many bytes a block has in a snapshot.
pub const RECORD: usize = 8 + 32;
/// How many bytes a block holds more that binds a snapshot: its height, and the digest of its manifest.
pub const BOND: usize = 8 + 32;
/// How many snapshots peers are served.
const KEPT: usize = 3;
/// How many blocks after a snapshot leaders bind it: from then on all members have it; until a final block has bound it, or that is over,
/// so that a snapshot which is disputed costs some views and no more.
const BOUND_WITHIN: std::ops::Range<u64> = 8..40;

/// A block's record.
pub fn record(view: View, payload: &Digest) -> [u8; RECORD] {
    let mut record = [0; RECORD];
    record[..8].copy_from_slice(&view.get().to_be_bytes());
    record[8..].copy_from_slice(payload.bytes());
    record
}

/// The part of a block that binds a snapshot: its height, and its manifest's digest.
#[derive(Clone, Copy, PartialEq, Eq, Debug)]
pub struct Bond {
    /// The height.
    pub height: u64,
    /// The digest.
    pub digest: Digest,
}

impl Bond {
    /// The bond of its bytes; `None` where they are none.
    pub fn parse(bytes: &[u8]) -> Option<Bond> {
        let (height, rest) = bytes.split_first_chunk::<8>()?;
        Some(Bond {
            height: u64::from_be_bytes(*height),
            digest: Digest::new(rest.try_into().ok()?),
        })
    }

    /// Its bytes.
    pub fn bytes(&self) -> [u8; BOND] {
        let mut bytes = [0; BOND];
        bytes[..8].copy_from_slice(&self.height.to_be_bytes());
        bytes[8..].copy_from_slice(self.digest.bytes());
        bytes
    }
}

/// The snapshots of a ledger that has all blocks from the first one on.
pub struct Snapshots {
    path: PathBuf,
    file: File,
    /// After how many blocks there is another one; never where this is 0.
    every: u64,
    count: u64,
    last: (View, Digest),
    /// The digests of the pieces that are whole, and the bytes after them.
    whole: Vec<Digest>,
    rest: Vec<u8>,
    latest: VecDeque<(Digest, Manifest)>,
    /// The height of the last one that a final block has bound.
    bound: u64,
}

impl Snapshots {
    /// The snapshots of a chain, each after so many blocks.
    pub fn open(folder: &Path, every: u64, chain: impl Iterator<Item = io::Result<Link>>) -> io::Result<Snapshots> {
        let path = folder.join("chain.records");
        let file = OpenOptions::new().create(true).truncate(true).write(true).read(true).open(&path);
        let mut snapshots = Snapshots {
            file: file.map_err(named(&path))?,
            path,
            every,
            count: 0,
            last: (View::GENESIS, Digest::default()),
            whole: Vec::new(),
            rest: Vec::new(),
            latest: VecDeque::new(),
            bound: 0,
        };
        let mut file = BufWriter::new(snapshots.file.try_clone()?);
        for link in chain {
            let (view, payload) = link?.block()?;
            snapshots.note(view, payload, &mut file)?;
        }
        file.flush().map_err(named(&snapshots.path))?;
        drop(file);
        Ok(snapshots)
    }

    /// A block is final.
    pub fn push(&mut self, view: View, payload: Digest) -> io::Result<()> {
        let mut file = self.file.try_clone()?;
        self.note(view, payload, &mut file)
    }

    fn note(&mut self, view: View, payload: Digest, file: &mut impl Write) -> io::Result<()> {
        if self.every == 0 {
            return Ok(());
        }
        let record = record(view, &payload);
        file.write_all(&record).map_err(named(&self.path))?;
        self.rest.extend_from_slice(&record);
        if self.rest.len() >= PIECE {
            let rest = self.rest.split_off(PIECE);
            self.whole.push(digest(&self.rest));
            self.rest = rest;
        }
        (self.count, self.last) = (self.count + 1, (view, payload));
        if self.count.is_multiple_of(self.every) {
            let manifest = self.manifest();
            self.latest.push_back((manifest.digest(), manifest));
            self.latest.drain(..self.latest.len().saturating_sub(KEPT));
        }
        Ok(())
    }

    fn manifest(&self) -> Manifest {
        let mut pieces = self.whole.clone();
        pieces.extend((!self.rest.is_empty()).then(|| digest(&self.rest)));
        Manifest {
            height: self.count,
            view: self.last.0,
            payload: self.last.1,
            length: self.count * RECORD as u64,
            pieces,
        }
    }

    /// Returns what a block that is built now binds; `None` where it binds none.
    pub fn bond(&self) -> Option<Bond> {
        let (digest, manifest) = self.latest.back()?;
        let is_due = BOUND_WITHIN.contains(&(self.count - manifest.height)) && self.bound < manifest.height;
        is_due.then_some(Bond {
            height: manifest.height,
            digest: *digest,
        })
    }

    /// Returns whether a bond is of this ledger's own snapshot; `None` where this ledger is not there yet.
    pub fn is_own(&self, bond: &Bond) -> Option<bool> {
        let own = self.latest.iter().find(|(_, it)| it.height == bond.height);
        match own {
            Some((digest, _)) => Some(*digest == bond.digest),
            None => (self.count >= bond.height).then_some(false),
        }
    }

    /// A final block binds a snapshot.
    pub fn bind(&mut self, bond: &Bond) {
        self.bound = self.bound.max(bond.height);
    }

    /// The manifest of this digest; `None` where it is not here any more.
    pub fn find(&self, bound: &Digest) -> Option<&Manifest> {
        self.latest.iter().find(|(digest, _)| digest == bound).map(|(_, it)| it)
    }

    /// A piece of a snapshot; `None` where it is not here any more.
    pub fn piece(&self, bound: &Digest, index: u32) -> io::Result<Option<Vec<u8>>> {
        let Some(length) = self.find(bound).map(|it| it.length_of(index)).filter(|it| *it > 0) else {
            return Ok(None);
        };
        let mut bytes = vec![0; length];
        let begin = u64::from(index) * PIECE as u64;
        self.file.read_exact_at(&mut bytes, begin).map_err(named(&self.path))?;
        Ok(Some(bytes))
    }
}
