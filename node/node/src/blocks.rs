//! Blocks: by their digests, in memory and on the disk, until they are in the archive of final blocks.

use crate::segments::{HEAD as HEAD_OF_SEGMENT, Segments};
use simplex_view_state::{Digest, View};
use simplex_wire::Block;
use std::collections::{BTreeMap, HashMap};
use std::io;
use std::path::{Path, PathBuf};
use std::sync::Arc;
use tracing::info;

/// How many views below the archive's last block blocks are kept: those that are not final are here alone.
const KEPT: u64 = 64;
/// How long a segment of blocks gets, in bytes.
const SEGMENT: u64 = 16 << 20;

/// The blocks of proposals that a node has: in memory, and on the disk before it votes for them.
pub struct Blocks {
    segments: Segments,
    /// The number of the next record.
    next: u64,
    /// The highest view in each segment, by the number of its first record.
    highest: BTreeMap<u64, View>,
    by_payload: HashMap<Digest, Arc<Block>>,
    by_view: BTreeMap<View, Vec<Digest>>,
    bytes: usize,
}

/// The folder of a node's blocks.
pub fn path(folder: &Path) -> PathBuf {
    folder.join("blocks")
}

impl Blocks {
    /// Reads the blocks that a folder has. A last one that was cut off is left out.
    pub fn open(folder: &Path, genesis: [u8; 32], syncs: bool) -> io::Result<Blocks> {
        let (segments, cut) = Segments::open(&path(folder), genesis, SEGMENT, syncs)?;
        if cut > 0 {
            info!(cut, "the last block was cut off");
        }
        let numbers: Vec<u64> = segments.lengths().keys().copied().collect();
        let mut blocks = Blocks {
            segments,
            next: 0,
            highest: BTreeMap::new(),
            by_payload: HashMap::new(),
            by_view: BTreeMap::new(),
            bytes: 0,
        };
        for number in numbers {
            blocks.next = blocks.next.max(number);
            for block in blocks.read(number)? {
                blocks.next += 1;
                blocks.hold(number, block);
            }
        }
        Ok(blocks)
    }

    fn read(&self, segment: u64) -> io::Result<Vec<Block>> {
        let mut found = Vec::new();
        self.segments.each_from(segment, HEAD_OF_SEGMENT, |_, body| {
            found.extend(Block::decode(body.to_vec()));
            Ok(true)
        })?;
        Ok(found)
    }

    /// Keeps a block, and writes it to the disk.
    pub fn keep(&mut self, block: Block) -> io::Result<()> {
        if self.by_payload.contains_key(&block.payload()) {
            return Ok(());
        }
        let (segment, _) = self.segments.append(self.next, block.bytes())?;
        self.next += 1;
        self.hold(segment, block);
        Ok(())
    }

    fn hold(&mut self, segment: u64, block: Block) {
        let highest = self.highest.entry(segment).or_insert(block.view);
        *highest = block.view.max(*highest);
        self.bytes += block.bytes().len();
        self.by_view.entry(block.view).or_default().push(block.payload());
        self.by_payload.insert(block.payload(), Arc::new(block));
    }

    /// The block of a digest.
    pub fn get(&self, payload: &Digest) -> Option<&Arc<Block>> {
        self.by_payload.get(payload)
    }

    /// Returns whether a block of the view is here.
    pub fn has_of(&self, view: View) -> bool {
        self.by_view.contains_key(&view)
    }

    /// How many bytes of blocks are in memory.
    pub fn bytes(&self) -> usize {
        self.bytes
    }

    /// Waits until the disk has all blocks: before a vote for one leaves, since a block that was notarized and is lost everywhere stops the
    /// chain.
    pub fn sync(&mut self) -> io::Result<()> {
        self.segments.sync()
    }

    /// Forgets the blocks that are some views below one. Segments of which no block is left are removed.
    pub fn forget(&mut self, archived: View) -> io::Result<()> {
        let lowest = View::new(archived.get().saturating_sub(KEPT));
        let kept = self.by_view.split_off(&lowest);
        for payload in std::mem::replace(&mut self.by_view, kept).into_values().flatten() {
            self.bytes -= self.by_payload.remove(&payload).map_or(0, |it| it.bytes().len());
        }
        let last = self.segments.lengths().last_key_value().map(|(number, _)| *number);
        let is_over = |(number, highest): (&u64, &View)| (*highest < lowest && Some(*number) != last).then_some(*number);
        let over: Vec<u64> = self.highest.iter().filter_map(is_over).collect();
        for number in over {
            self.highest.remove(&number);
            self.segments.remove(number)?;
        }
        Ok(())
    }
}

#[cfg(test)]
mod tests {
    use super::*;
    use crate::trace::scratch;
    use simplex_view_state::{Context, Epoch, Participant, Round};

    fn block(view: u64, bytes: usize) -> Block {
        let context = Context {
            round: Round {
                epoch: Epoch::new(1),
                view: View::new(view),
            },
            leader: Participant::new(0),
            parent: View::new(view - 1),
            parent_payload: Digest::new([0; 32]),
        };
        Block::new(&context, &vec![view as u8; bytes])
    }

    #[test]
    fn blocks_that_are_passed_take_no_room_and_none_is_written_again() {
        let folder = scratch("blocks-passed");
        let mut blocks = Blocks::open(&folder, [0; 32], false).expect("a disk");
        let mut names = std::collections::BTreeSet::new();
        for view in 1..=1000 {
            blocks.keep(block(view, 96 << 10)).expect("a disk");
            blocks.forget(View::new(view)).expect("a disk");
            names.extend(blocks.segments.lengths().keys().copied());
            let on_disk: u64 = blocks.segments.lengths().values().sum();
            assert!(on_disk < 2 * SEGMENT + ((KEPT + 2) * (97 << 10)), "view {view}: {on_disk} bytes");
        }
        // A thousand blocks of 96 kB, each written once.
        assert!((4..10).contains(&names.len()), "{names:?}");
        let again = Blocks::open(&folder, [0; 32], false).expect("a disk");
        assert!(again.has_of(View::new(1000)) && again.has_of(View::new(1000 - KEPT)) && !again.has_of(View::new(500)));
    }

    #[test]
    fn a_block_comes_once_and_is_there_after_a_restart() {
        let folder = scratch("blocks-once");
        let mut blocks = Blocks::open(&folder, [0; 32], true).expect("a disk");
        let it = block(3, 10);
        blocks.keep(it.clone()).expect("a disk");
        let length = blocks.segments.lengths().clone();
        blocks.keep(it.clone()).expect("a disk");
        assert_eq!(blocks.segments.lengths(), &length);
        blocks.sync().expect("a disk");
        let again = Blocks::open(&folder, [0; 32], true).expect("a disk");
        assert_eq!(
            (again.get(&it.payload()).map(|it| &**it), again.bytes()),
            (Some(&it), it.bytes().len())
        );
    }
}
