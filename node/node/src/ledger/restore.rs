//! How a ledger takes a snapshot: its chain is written anew with the snapshot's blocks, beside the old one, and takes its name at once.

use super::snapshots::{RECORD, Snapshots, record};
use super::synced::Synced;
use super::{Ledger, Lines, Link, floor_path, written};
use crate::named::named;
use crate::set_aside::set_aside;
use simplex_view_state::{Digest, View};
use simplex_wire::{Manifest, now_us};
use std::fs::{self, File, OpenOptions};
use std::io::{self, BufWriter, Read, Write};
use std::path::Path;

fn wrong(what: &str) -> io::Error {
    io::Error::new(io::ErrorKind::InvalidData, format!("a snapshot of the ledger {what}"))
}

/// The pieces of a snapshot are not all that its manifest says, or the disk does not return them.
fn not_read(error: io::Error) -> io::Error {
    io::Error::new(error.kind(), format!("the pieces of a snapshot of the ledger: {error}"))
}

impl Ledger {
    /// Takes a snapshot's blocks. Those that the chain has stay with their lines; a chain that is no beginning of the snapshot is set aside.
    pub(super) fn take_snapshot(&mut self, manifest: &Manifest, bytes: &mut dyn Read) -> io::Result<()> {
        if manifest.length != manifest.height * RECORD as u64 {
            return Err(wrong("has another length than its height says"));
        }
        let new = self.folder.join("chain.new");
        if !write_chain(&new, manifest, Lines::of(&self.folder)?, bytes)? {
            set_aside(&self.path, &format!("until-view-{}", self.last.0))?;
        }
        fs::rename(&new, &self.path).map_err(named(&self.path))?;
        File::open(&self.folder).and_then(|it| it.sync_all()).map_err(named(&self.folder))?;
        if floor_path(&self.folder).exists() {
            fs::remove_file(floor_path(&self.folder)).map_err(named(&self.folder))?;
        }
        self.file = OpenOptions::new().append(true).open(&self.path).map_err(named(&self.path))?;
        (self.last, self.height) = ((manifest.view, manifest.payload), manifest.height);
        self.synced = Synced::at(manifest.height);
        let chain = Lines::of(&self.folder)?;
        self.snapshots = Some(Snapshots::open(&self.folder, self.options.snapshot_blocks, chain)?);
        Ok(())
    }
}

/// Writes the lines of a snapshot's blocks to a file, and syncs it. Returns whether the old chain is a beginning of them.
fn write_chain(path: &Path, manifest: &Manifest, mut old: Lines, bytes: &mut dyn Read) -> io::Result<bool> {
    let mut file = BufWriter::new(File::create(path).map_err(named(path))?);
    let (mut is_beginning, taken_us) = (true, now_us());
    let mut last = [0; RECORD];
    // (each of both may be longer than the memory)
    for _ in 0..manifest.height {
        bytes.read_exact(&mut last).map_err(not_read)?;
        let own = if is_beginning { old.next().transpose()? } else { None };
        if let Some((view, payload)) = own.as_ref().map(Link::block).transpose()? {
            is_beginning = record(view, &payload) == last;
        }
        let line = match own.filter(|_| is_beginning) {
            Some(link) => written(&link),
            None => written(&link_of(&last, taken_us)),
        };
        file.write_all(line.as_bytes()).map_err(named(path))?;
    }
    if last != record(manifest.view, &manifest.payload) {
        return Err(wrong("ends with another block than it says"));
    }
    file.flush().map_err(named(path))?;
    file.get_ref().sync_all().map_err(named(path))?;
    Ok(is_beginning && old.next().transpose()?.is_none())
}

/// The line of a block that was taken by a snapshot: how long it took is not known.
fn link_of(record: &[u8; RECORD], taken_us: u64) -> Link {
    let (view, payload) = record.split_at(8);
    let view = View::new(u64::from_be_bytes(view.try_into().unwrap_or_default()));
    let payload = Digest::new(payload.try_into().unwrap_or_default());
    Link {
        view: view.get(),
        payload: payload.to_string(),
        taken_us,
        latency_us: 0,
    }
}

#[cfg(test)]
mod tests {
    use super::*;
    use crate::application::{Ancestors, Application, Cancelled};
    use crate::ledger::{Options, read_chain};
    use crate::start::Start;
    use crate::trace::scratch;
    use simplex_view_state::{Context, Epoch, Participant, Round};
    use simplex_wire::Block;

    const EVERY: u64 = 20;

    fn open_at(folder: &Path, block: (View, Digest)) -> Ledger {
        let start = Start {
            folder: folder.to_owned(),
            block,
            me: Participant::new(1),
        };
        let options = Options {
            snapshot_blocks: EVERY,
            ..Options::default()
        };
        Ledger::open(&start, options).expect("a disk")
    }

    fn open(folder: &Path) -> Ledger {
        open_at(folder, (View::GENESIS, Digest::default()))
    }

    fn context(parent: (View, Digest)) -> Context {
        Context {
            round: Round {
                epoch: Epoch::new(1),
                view: View::new(parent.0.get() + 2),
            },
            leader: Participant::new(0),
            parent: parent.0,
            parent_payload: parent.1,
        }
    }

    /// Builds so many blocks on the ledger's last one, which it takes.
    fn grow(ledger: &mut Ledger, count: u64) -> Vec<Block> {
        let grown = (0..count).map(|_| {
            let context = context(ledger.last());
            let content = ledger
                .build(&context, &Ancestors::default(), &Cancelled::default())
                .expect("nothing is cancelled");
            let block = Block::new(&context, &content);
            assert_eq!(ledger.verify(&block, &Ancestors::default(), &Cancelled::default()), Some(true));
            ledger.finalized(&block).expect("a disk");
            block
        });
        grown.collect()
    }

    fn bound_in(ledger: &Ledger, blocks: &[Block]) -> Vec<Digest> {
        blocks.iter().filter_map(|it| ledger.bound(it)).collect()
    }

    fn bytes_of(ledger: &mut Ledger, bound: &Digest) -> (Manifest, Vec<u8>) {
        let manifest = ledger.manifest(bound).expect("a disk").expect("it is here");
        let pieces = (0..manifest.pieces.len() as u32).map(|it| ledger.piece(bound, it).expect("a disk").expect("it is here"));
        let pieces: Vec<Vec<u8>> = pieces.collect();
        assert!((0..).zip(&pieces).all(|(index, it)| manifest.is_piece(index, it)));
        (manifest, pieces.concat())
    }

    fn blocks_of(folder: &Path) -> Vec<(u64, String)> {
        let chain = read_chain(folder).expect("a chain");
        chain.into_iter().map(|it| (it.view, it.payload)).collect()
    }

    #[test]
    fn each_snapshot_is_bound_once_and_has_the_same_bytes_after_a_restart() {
        let folder = scratch("snapshot-bound");
        let mut ledger = open(&folder);
        let blocks = grow(&mut ledger, 7003);
        let bound = bound_in(&ledger, &blocks);
        assert_eq!(bound.len() as u64, 7003 / EVERY - 1, "the last one is not old enough");
        let last = bound[bound.len() - 1];
        let (manifest, bytes) = bytes_of(&mut ledger, &last);
        assert_eq!((manifest.height, manifest.pieces.len(), manifest.digest()), (6980, 2, last));
        let mut again = open(&folder);
        assert_eq!(bytes_of(&mut again, &last), (manifest, bytes));
        assert!(again.manifest(&bound[0]).expect("a disk").is_none(), "an old one is not here");
        assert!(again.piece(&bound[0], 0).expect("a disk").is_none());
    }

    #[test]
    fn a_block_that_binds_another_snapshot_is_refused_and_one_of_a_later_height_is_not_judged() {
        let (folder, behind) = (scratch("snapshot-other"), scratch("snapshot-behind"));
        let mut ledger = open(&folder);
        let blocks = grow(&mut ledger, EVERY + 10);
        let bind = blocks.iter().find(|it| ledger.bound(it).is_some()).expect("one binds");
        let mut content = bind.content().to_vec();
        let at = content.len() - 1;
        content[at] ^= 1;
        let other = Block::new(&context(ledger.last()), &content);
        let judge = |it: &mut Ledger, block: &Block| it.verify(block, &Ancestors::default(), &Cancelled::default());
        assert_eq!(judge(&mut ledger, &other), Some(false));
        assert_eq!(
            ledger.certify(&other, &Ancestors::default(), &Cancelled::default()),
            Some(true),
            "all certify what is notarized"
        );
        let mut behind = open(&behind);
        assert_eq!(judge(&mut behind, bind), None);
        content.push(0);
        let longer = Block::new(&context(ledger.last()), &content);
        assert_eq!(judge(&mut ledger, &longer), Some(false));
    }

    #[test]
    fn a_snapshot_takes_the_place_of_a_shorter_chain_whose_lines_stay() {
        let (folder, behind) = (scratch("snapshot-from"), scratch("snapshot-to"));
        let (mut ledger, mut other) = (open(&folder), open(&behind));
        let blocks = grow(&mut ledger, 2 * EVERY + 10);
        blocks[..7].iter().for_each(|it| other.finalized(it).expect("a disk"));
        let old = read_chain(&behind).expect("a chain");
        let bound = bound_in(&ledger, &blocks);
        let (manifest, bytes) = bytes_of(&mut ledger, &bound[bound.len() - 1]);
        other.restore(&manifest, &mut &bytes[..]).expect("a disk");
        for mut it in [other, open(&behind)] {
            assert_eq!((it.height(), it.last()), (manifest.height, (manifest.view, manifest.payload)));
            assert_eq!(bytes_of(&mut it, &bound[bound.len() - 1]).1, bytes, "it serves what it took");
        }
        assert_eq!(blocks_of(&behind), blocks_of(&folder)[..2 * EVERY as usize]);
        assert_eq!(read_chain(&behind).expect("a chain")[..7], old, "with the times of their own");
    }

    #[test]
    fn a_chain_that_is_longer_than_a_snapshot_is_set_aside() {
        let (folder, ahead) = (scratch("snapshot-short"), scratch("snapshot-ahead"));
        let (mut ledger, mut other) = (open(&folder), open(&ahead));
        let blocks = grow(&mut ledger, 2 * EVERY + 10);
        blocks.iter().for_each(|it| other.finalized(it).expect("a disk"));
        let old = fs::read(ahead.join("chain")).expect("a chain");
        let bound = bound_in(&ledger, &blocks);
        let (manifest, bytes) = bytes_of(&mut ledger, &bound[0]);
        other.restore(&manifest, &mut &bytes[..]).expect("a disk");
        let last = blocks[blocks.len() - 1].view;
        assert_eq!(fs::read(ahead.join(format!("chain.until-view-{last}"))).expect("it is there"), old);
        assert_eq!(blocks_of(&ahead), blocks_of(&folder)[..manifest.height as usize]);
    }

    #[test]
    fn a_chain_from_a_floor_binds_nothing_judges_no_bond_and_is_set_aside() {
        let (folder, late) = (scratch("snapshot-whole"), scratch("snapshot-floor"));
        let mut ledger = open(&folder);
        let blocks = grow(&mut ledger, 2 * EVERY + 10);
        let mut other = open_at(&late, (blocks[4].view, blocks[4].payload()));
        blocks[5..].iter().for_each(|it| other.finalized(it).expect("a disk"));
        let bind = blocks.iter().find(|it| ledger.bound(it).is_some()).expect("one binds");
        assert_eq!(other.verify(bind, &Ancestors::default(), &Cancelled::default()), None);
        drop(other);
        let mut other = open(&late);
        assert_eq!(
            other.verify(bind, &Ancestors::default(), &Cancelled::default()),
            None,
            "also where it is not said at a restart"
        );
        let old = fs::read(late.join("chain")).expect("a chain");
        let bound = bound_in(&ledger, &blocks);
        let (manifest, bytes) = bytes_of(&mut ledger, &bound[bound.len() - 1]);
        other.restore(&manifest, &mut &bytes[..]).expect("a disk");
        let last = blocks[blocks.len() - 1].view;
        assert_eq!(fs::read(late.join(format!("chain.until-view-{last}"))).expect("it is there"), old);
        assert_eq!(blocks_of(&late), blocks_of(&folder)[..2 * EVERY as usize]);
        assert_eq!(open(&late).verify(bind, &Ancestors::default(), &Cancelled::default()), Some(true));
    }

    #[test]
    fn bytes_that_are_no_snapshot_change_nothing() {
        let (folder, behind) = (scratch("snapshot-good"), scratch("snapshot-bad"));
        let (mut ledger, mut other) = (open(&folder), open(&behind));
        let blocks = grow(&mut ledger, EVERY + 10);
        blocks[..7].iter().for_each(|it| other.finalized(it).expect("a disk"));
        let old = fs::read(behind.join("chain")).expect("a chain");
        let bound = bound_in(&ledger, &blocks)[0];
        let (manifest, bytes) = bytes_of(&mut ledger, &bound);
        let longer = Manifest {
            length: manifest.length + 1,
            ..manifest.clone()
        };
        let ends_elsewhere = Manifest {
            view: View::new(1),
            ..manifest.clone()
        };
        assert!(other.restore(&longer, &mut &bytes[..]).is_err());
        assert!(other.restore(&ends_elsewhere, &mut &bytes[..]).is_err());
        assert!(other.restore(&manifest, &mut &bytes[..bytes.len() - 1]).is_err());
        assert_eq!((other.height(), fs::read(behind.join("chain")).expect("a chain")), (7, old));
    }
}
