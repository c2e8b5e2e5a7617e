//! The archive: all final blocks by their heights, in segments on the disk ([`crate::segments`]), for peers that lag and for the
//! application.
//!
//! It is written once and in order, by a thread of its own ([`keeper`]). A record is the block's height, eight bytes, the length of its
//! finalization and that, and the block. Each batch that is appended ends with a block whose finalization is here: so a peer can verify
//! what it is sent. It is pruned by whole segments, and never beyond what the application has on the disk.

mod asks;
pub mod keeper;

use crate::chain::{Entry, Tail};
use crate::segments::{HEAD, Segments};
use simplex_view_state::{Certificate, Digest, Subject, View};
use simplex_wire::{Block, Range};
use std::collections::{BTreeMap, HashMap};
use std::io;
use std::path::{Path, PathBuf};

/// After how many records of a segment, or bytes, the place of another one is remembered: a look-up reads no more than that.
const STRIDE: (u64, u64) = (64, 1 << 20);

/// The folder of a node's archive.
pub fn path(folder: &Path) -> PathBuf {
    folder.join("archive")
}

/// How an archive is kept.
#[derive(Clone, Copy, Debug)]
pub struct Limits {
    /// How long a segment gets, in bytes.
    pub segment_bytes: u64,
    /// Above how many bytes the oldest segments are removed; never where there is none.
    pub most_bytes: Option<u64>,
}

/// The archive's blocks above a view.
#[derive(Debug)]
pub enum Behind {
    /// Blocks, up to one whose finalization comes with them.
    Blocks(Range),
    /// The blocks just behind it were pruned: the first one that is here has this view.
    Pruned(View),
    /// None yet.
    Nothing,
}

/// The views of some records of a segment, with where they begin, rising.
type Places = Vec<(View, u64)>;

/// The archive of a folder.
#[derive(Debug)]
pub struct Archive {
    segments: Segments,
    limits: Limits,
    tail: Tail,
    /// The first block's view and its parent's, by segment.
    firsts: BTreeMap<u64, (View, View)>,
    places: HashMap<u64, Places>,
}

fn record(entry: &Entry) -> Vec<u8> {
    let certificate = entry
        .certificate
        .as_ref()
        .map_or(Vec::new(), |it| [&it.subject().encode()[..], it.bytes()].concat());
    let mut body = entry.height.to_be_bytes().to_vec();
    body.extend_from_slice(&(certificate.len() as u32).to_be_bytes());
    body.extend_from_slice(&certificate);
    body.extend_from_slice(entry.block.bytes());
    body
}

/// The entry that a record is. Its checksum was good, so another text was written by something else.
fn parse(body: &[u8]) -> io::Result<Entry> {
    let parsed = || {
        let (height, rest) = body.split_first_chunk::<8>()?;
        let (length, rest) = rest.split_first_chunk::<4>()?;
        let (certificate, block) = rest.split_at_checked(u32::from_be_bytes(*length) as usize)?;
        let subject = Subject::decode(certificate);
        Some(Entry {
            height: u64::from_be_bytes(*height),
            certificate: subject.map(|(subject, bytes)| Certificate::of(subject, bytes.to_vec())),
            block: Block::decode(block.to_vec()).ok()?,
        })
    };
    parsed().ok_or_else(|| io::Error::other("a record of the archive is none of this release"))
}

impl Archive {
    /// Opens the archive of a folder. One that has no block continues from this one. The second result is how many bytes of a cut last
    /// record are left out.
    pub fn open(folder: &Path, genesis: [u8; 32], limits: Limits, syncs: bool, start: Tail) -> io::Result<(Archive, u64)> {
        let (segments, cut) = Segments::open(&path(folder), genesis, limits.segment_bytes, syncs)?;
        let mut archive = Archive {
            segments,
            limits,
            tail: start,
            firsts: BTreeMap::new(),
            places: HashMap::new(),
        };
        for number in archive.numbers() {
            archive.segments.each_from(number, HEAD, |_, body| {
                let first = parse(body)?;
                archive.firsts.insert(number, (first.block.view, first.block.parent.0));
                Ok(false)
            })?;
        }
        if let Some(entry) = archive.last()? {
            archive.tail = tail_of(&entry);
        }
        archive.segments.remove_empty(archive.tail.height + 1)?;
        Ok((archive, cut))
    }

    /// Its last block. A process that ended as it began a segment left that one without a block: then it is in the segment before.
    fn last(&self) -> io::Result<Option<Entry>> {
        for number in self.numbers().into_iter().rev() {
            let mut found = None;
            self.segments.each_from(number, HEAD, |_, body| {
                found = Some(body.to_vec());
                Ok(true)
            })?;
            if let Some(body) = found {
                return parse(&body).map(Some);
            }
        }
        Ok(None)
    }

    fn numbers(&self) -> Vec<u64> {
        self.segments.lengths().keys().copied().collect()
    }

    /// Its last block.
    pub fn tail(&self) -> Tail {
        self.tail
    }

    /// The height of its first block; none where it has no block.
    pub fn first(&self) -> Option<u64> {
        self.firsts.first_key_value().map(|(height, _)| *height)
    }

    /// Its length on the disk, in bytes.
    pub fn bytes(&self) -> u64 {
        self.segments.lengths().values().sum()
    }

    /// Appends blocks behind its last one.
    pub fn append(&mut self, entries: &[Entry]) -> io::Result<()> {
        for entry in entries {
            if entry.block.parent.1 != self.tail.payload || entry.height != self.tail.height + 1 {
                return Err(io::Error::other(format!(
                    "block {} is not behind block {}",
                    entry.height, self.tail.height
                )));
            }
            let (segment, at) = self.segments.append(entry.height, &record(entry))?;
            let view = entry.block.view;
            self.firsts.entry(segment).or_insert((view, entry.block.parent.0));
            if let Some(places) = self.places.get_mut(&segment) {
                remember(places, entry.height - segment, view, at);
            } else if entry.height == segment {
                self.places.insert(segment, vec![(view, at)]);
            }
            self.tail = tail_of(entry);
        }
        Ok(())
    }

    /// Waits until the disk has all blocks.
    pub fn sync(&mut self) -> io::Result<()> {
        self.segments.sync()
    }

    /// Removes the oldest segments while it is longer than it may be, and the application has all of their blocks on the disk.
    pub fn prune(&mut self, durable: u64) -> io::Result<()> {
        let Some(most) = self.limits.most_bytes else { return Ok(()) };
        while self.bytes() > most
            && let [first, second, ..] = self.numbers()[..]
            && second <= durable + 1
        {
            self.segments.remove(first)?;
            self.firsts.remove(&first);
            self.places.remove(&first);
        }
        Ok(())
    }

    /// The segment that has the first block above a view, and a place in it that is no later.
    fn place_of(&mut self, after: View) -> io::Result<Option<(u64, u64)>> {
        let below = self.firsts.iter().rev().find(|(_, (view, _))| *view <= after);
        let Some(segment) = below.or(self.firsts.first_key_value()).map(|(segment, _)| *segment) else {
            return Ok(None);
        };
        if !self.places.contains_key(&segment) {
            let (mut places, mut count) = (Places::new(), 0_u64);
            self.segments.each_from(segment, HEAD, |at, body| {
                remember(&mut places, count, parse(body)?.block.view, at);
                count += 1;
                Ok(true)
            })?;
            self.places.insert(segment, places);
        }
        let places = self.places.get(&segment).map_or(&[][..], |it| it);
        let before = places.partition_point(|(view, _)| *view <= after).saturating_sub(1);
        Ok(places.get(before).map(|(_, at)| (segment, *at)))
    }

    /// Tells each block above a view, in order, until the reader has enough.
    pub fn each_after(&mut self, after: View, mut each: impl FnMut(Entry) -> io::Result<bool>) -> io::Result<()> {
        let Some((segment, place)) = self.place_of(after)? else {
            return Ok(());
        };
        let (mut place, mut is_over) = (place, false);
        let later: Vec<u64> = self.segments.lengths().range(segment..).map(|(number, _)| *number).collect();
        for number in later {
            self.segments.each_from(number, place, |_, body| {
                let entry = parse(body)?;
                is_over = entry.block.view > after && !each(entry)?;
                Ok(!is_over)
            })?;
            if is_over {
                break;
            }
            place = HEAD;
        }
        Ok(())
    }

    /// The blocks just behind a view, up to one of the view `upto` or above whose finalization is here, of about this many bytes at most.
    /// Where more blocks than that have one finalization, the last ones of them.
    pub fn behind(&mut self, after: View, upto: View, most: usize) -> io::Result<Behind> {
        if let Some((_, (first, parent))) = self.firsts.first_key_value()
            && *parent > after
        {
            return Ok(Behind::Pruned(*first));
        }
        let (mut blocks, mut bytes, mut whole) = (Vec::new(), 0, None);
        self.each_after(after, |entry| {
            bytes += entry.block.bytes().len();
            let (view, is_long) = (entry.block.view, bytes > most);
            if is_long && whole.is_some() {
                return Ok(false);
            }
            blocks.push(entry.block);
            if let Some(certificate) = entry.certificate {
                whole = Some((blocks.len(), certificate));
                return Ok(view < upto && !is_long);
            }
            Ok(true)
        })?;
        let Some((count, certificate)) = whole else {
            return Ok(Behind::Nothing);
        };
        blocks.truncate(count);
        let mut left = most;
        let fits = |block: &Block| {
            let length = block.bytes().len();
            let is_room = left >= length;
            left = left.saturating_sub(length);
            is_room
        };
        let mut falling: Vec<Block> = blocks.into_iter().rev().collect();
        let fitting = falling.iter().map(fits).take_while(|it| *it).count();
        falling.truncate(fitting.max(1));
        Ok(Behind::Blocks(Range {
            after,
            certificate,
            blocks: falling,
        }))
    }

    /// Tells the blocks of the last segments, so many at most, in order.
    pub fn each_of_last(&self, segments: usize, mut each: impl FnMut(&Block)) -> io::Result<()> {
        let numbers = self.numbers();
        for number in &numbers[numbers.len().saturating_sub(segments)..] {
            self.segments.each_from(*number, HEAD, |_, body| {
                each(&parse(body)?.block);
                Ok(true)
            })?;
        }
        Ok(())
    }

    /// The block of a view and digest.
    pub fn block(&mut self, view: View, payload: Digest) -> io::Result<Option<Block>> {
        let mut found = None;
        let before = View::new(view.get().saturating_sub(1));
        self.each_after(before, |entry| {
            found = Some(entry.block).filter(|it| it.payload() == payload);
            Ok(false)
        })?;
        Ok(found)
    }
}

/// Remembers the place of a record, where it is far from the last one that is remembered.
fn remember(places: &mut Places, count: u64, view: View, at: u64) {
    let is_far = |(_, last): &(View, u64)| at - last >= STRIDE.1;
    if count.is_multiple_of(STRIDE.0) || places.last().is_none_or(is_far) {
        places.push((view, at));
    }
}

fn tail_of(entry: &Entry) -> Tail {
    Tail {
        height: entry.height,
        view: entry.block.view,
        payload: entry.block.payload(),
    }
}

#[cfg(test)]
mod tests {
    use super::*;
    use crate::trace::scratch;
    use simplex_view_state::{Context, Epoch, Participant, Proposal, Round};
    use std::fs;

    const START: Tail = Tail {
        height: 0,
        view: View::GENESIS,
        payload: Digest::new([0; 32]),
    };
    const LIMITS: Limits = Limits {
        segment_bytes: 4000,
        most_bytes: Some(20_000),
    };

    /// A chain of so many blocks, of every other view, whose fifths have finalizations.
    fn chain(count: u64) -> Vec<Entry> {
        let (mut parent, mut chain) = ((START.view, START.payload), Vec::new());
        for height in 1..=count {
            let round = Round {
                epoch: Epoch::new(1),
                view: View::new(2 * height),
            };
            let context = Context {
                round,
                leader: Participant::new(0),
                parent: parent.0,
                parent_payload: parent.1,
            };
            let block = Block::new(&context, &[height as u8; 40]);
            let proposal = Proposal {
                round,
                parent: parent.0,
                payload: block.payload(),
            };
            let certificate = Certificate::of(Subject::Finalize(proposal), vec![9; 200]);
            parent = (block.view, block.payload());
            chain.push(Entry {
                height,
                block,
                certificate: height.is_multiple_of(5).then_some(certificate),
            });
        }
        chain
    }

    fn open(folder: &Path) -> Archive {
        Archive::open(folder, [7; 32], LIMITS, true, START).expect("a disk").0
    }

    fn filled(name: &str, count: u64) -> (PathBuf, Archive) {
        let folder = scratch(name);
        let mut archive = open(&folder);
        for batch in chain(count).chunks(5) {
            archive.append(batch).expect("a disk");
        }
        archive.sync().expect("a disk");
        (folder, archive)
    }

    fn views(behind: Behind) -> Vec<u64> {
        match behind {
            Behind::Blocks(it) => {
                assert!(it.is_linked());
                it.blocks.iter().map(|it| it.view.get()).collect()
            }
            other => panic!("{other:?}"),
        }
    }

    #[test]
    fn ranges_are_found_from_any_view_on_also_after_a_restart() {
        let (folder, mut archive) = filled("archive-ranges", 200);
        assert!(archive.numbers().len() > 5);
        let mut again = open(&folder);
        assert_eq!(again.tail(), archive.tail());
        for it in [&mut archive, &mut again] {
            for after in (0..390).step_by(7) {
                let behind = it.behind(View::new(after), View::new(after + 20), 1 << 20).expect("a disk");
                let first = after / 2 * 2 + 2;
                let last = (after + 20).next_multiple_of(10).min(400);
                let rising: Vec<u64> = (first..=last).step_by(2).collect();
                assert_eq!(views(behind), rising.into_iter().rev().collect::<Vec<_>>(), "behind {after}");
            }
            assert!(matches!(it.behind(View::new(400), View::new(500), 1 << 20), Ok(Behind::Nothing)));
        }
    }

    #[test]
    fn a_process_that_ends_as_it_begins_a_segment_loses_no_block() {
        let (folder, entries) = (scratch("archive-begun"), chain(60));
        let mut archive = open(&folder);
        archive.append(&entries).expect("a disk");
        archive.sync().expect("a disk");
        let last = *archive.numbers().last().expect("some");
        assert!(last > 1 && last < 60);
        drop(archive);
        let segment = fs::OpenOptions::new()
            .write(true)
            .open(path(&folder).join(format!("{last:020}")))
            .expect("a segment");
        segment.set_len(HEAD).expect("a disk");
        let mut again = open(&folder);
        assert_eq!(
            again.tail(),
            tail_of(&entries[last as usize - 2]),
            "the last block of the segment before"
        );
        again.append(&entries[last as usize - 1..]).expect("it continues there");
        assert_eq!(open(&folder).tail(), tail_of(&entries[59]));
        assert_eq!(
            again.block(View::new(120), entries[59].block.payload()).expect("a disk").as_ref(),
            Some(&entries[59].block)
        );
    }

    #[test]
    fn a_segment_whose_blocks_a_power_cut_took_begins_with_the_next_one() {
        let folder = scratch("archive-empty");
        open(&folder).append(&chain(1)).expect("a disk");
        let (one, other) = (path(&folder).join(format!("{:020}", 1)), path(&folder).join(format!("{:020}", 9)));
        fs::OpenOptions::new()
            .write(true)
            .open(&one)
            .expect("a segment")
            .set_len(HEAD)
            .expect("a disk");
        fs::rename(&one, &other).expect("a disk");
        open(&folder).append(&chain(1)).expect("a disk");
        assert!(one.is_file() && !other.exists());
        assert_eq!(open(&folder).tail().height, 1);
    }

    #[test]
    fn a_range_has_no_more_bytes_than_it_may_and_one_block_at_least() {
        let (_, mut archive) = filled("archive-bytes", 100);
        let length = archive.block(View::new(2), chain(1)[0].block.payload()).expect("a disk");
        assert!(length.is_none(), "blocks say when they were built");
        let mut behind = |most| views(archive.behind(View::GENESIS, View::new(200), most).expect("a disk"));
        assert_eq!(behind(11 * 96), (1..=10).rev().map(|it| 2 * it).collect::<Vec<u64>>());
        assert_eq!(behind(3 * 96), [10, 8, 6], "the last ones of what one finalization makes final");
        assert_eq!(behind(1), [10]);
    }

    #[test]
    fn it_is_pruned_by_segments_and_not_beyond_what_the_application_has() {
        let (folder, mut archive) = filled("archive-prunes", 200);
        let before = archive.bytes();
        archive.prune(10).expect("a disk");
        assert_eq!(archive.bytes(), before, "the application needs them");
        archive.prune(200).expect("a disk");
        assert!(archive.bytes() <= 20_000 && archive.bytes() > 10_000);
        let first = archive.first().expect("some");
        for it in [&mut archive, &mut open(&folder)] {
            let behind = it.behind(View::new(2), View::new(9), 1 << 20).expect("a disk");
            assert!(matches!(behind, Behind::Pruned(view) if view.get() == 2 * first), "{behind:?}");
            assert_eq!(it.first(), Some(first));
        }
    }

    #[test]
    fn a_block_is_found_by_its_view_and_digest() {
        let (_, mut archive) = filled("archive-block", 70);
        let Behind::Blocks(range) = archive.behind(View::new(98), View::new(100), 1 << 20).expect("a disk") else {
            panic!("it is here")
        };
        let block = &range.blocks[0];
        assert_eq!(archive.block(block.view, block.payload()).expect("a disk").as_ref(), Some(block));
        assert_eq!(archive.block(View::new(99), block.payload()).expect("a disk").as_ref(), Some(block));
        assert!(archive.block(block.view, START.payload).expect("a disk").is_none());
        assert!(archive.block(View::new(999), block.payload()).expect("a disk").is_none());
    }

    #[test]
    fn a_block_that_does_not_follow_the_last_one_is_refused() {
        let (_, mut archive) = filled("archive-order", 5);
        assert!(archive.append(&chain(7)[6..]).is_err());
    }
}
