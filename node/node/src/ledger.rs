//! A sample application: a ledger of blocks that hold some numbers, and a file with a line for each block of the finalized chain.
//!
//! It has snapshots ([`snapshots`]), which blocks bind, for nodes that were away for long or are new.

mod restore;
pub mod snapshots;
mod synced;

use crate::application::{Ancestors, Application, Cancelled};
use crate::named::{named, not_stored};
use crate::settings::{Outcome, Settings};
use crate::start::Start;
use simplex_view_state::{Context, Digest, View};
use simplex_wire::{Block, Manifest, digest, now_us};
use snapshots::{BOND, Bond, Snapshots};
use std::fs::{File, OpenOptions};
use std::io::{self, BufRead, BufReader, Read, Seek, SeekFrom, Write};
use std::path::{Path, PathBuf};
use std::thread::sleep;
use std::time::{Duration, Instant};
use synced::Synced;

/// How many bytes a block holds, where nothing else is said.
const CONTENT: usize = 256;

/// How long a line of the chain is at most, in bytes.
const LONGEST_LINE: u64 = 130;

/// A line of the finalized chain.
#[derive(Clone, Debug, PartialEq, Eq)]
pub struct Link {
    /// The block's view.
    pub view: u64,
    /// Its digest, in hexadecimal digits.
    pub payload: String,
    /// When it was taken, in microseconds since 1970.
    pub taken_us: u64,
    /// How long it took from its building until it was taken here, in microseconds.
    pub latency_us: u64,
}

impl Link {
    /// The block's view and digest.
    ///
    /// # Errors
    ///
    /// Where the digest is none.
    pub fn block(&self) -> io::Result<(View, Digest)> {
        Ok((View::new(self.view), parse_digest(&self.payload)?))
    }
}

/// The file of a folder's chain.
pub fn path(folder: &Path) -> PathBuf {
    folder.join("chain")
}

/// The lines of a folder's chain, one after another.
struct Lines {
    path: PathBuf,
    /// None where there is no chain.
    file: Option<BufReader<File>>,
    /// How many lines were read.
    count: u64,
}

impl Lines {
    fn of(folder: &Path) -> io::Result<Lines> {
        let path = path(folder);
        let file = match File::open(&path) {
            Ok(file) => Some(BufReader::new(file)),
            Err(error) if error.kind() == io::ErrorKind::NotFound => None,
            Err(error) => return Err(named(&path)(error)),
        };
        Ok(Lines { path, file, count: 0 })
    }
}

impl Iterator for Lines {
    type Item = io::Result<Link>;

    fn next(&mut self) -> Option<io::Result<Link>> {
        let mut line = Vec::new();
        if let Err(error) = self.file.as_mut()?.read_until(b'\n', &mut line) {
            return Some(Err(named(&self.path)(error)));
        }
        if !line.ends_with(b"\n") {
            return None;
        }
        self.count += 1;
        let link = std::str::from_utf8(&line).ok().and_then(read_link);
        Some(link.ok_or_else(|| {
            io::Error::other(format!(
                "{}: line {} is damaged: move the file away, and the node writes it again from its archive",
                self.path.display(),
                self.count
            ))
        }))
    }
}

/// The finalized chain that a folder has. A last line that was cut off is left out; any other line that is none is an error, which names
/// it.
pub fn read_chain(folder: &Path) -> io::Result<Vec<Link>> {
    Lines::of(folder)?.collect()
}

/// The last lines of a folder's chain, at most so many, for who watches a node. Those that are none are left out.
pub fn last_links(folder: &Path, most: usize) -> io::Result<Vec<Link>> {
    let path = path(folder);
    let mut file = match File::open(&path) {
        Ok(file) => file,
        Err(error) if error.kind() == io::ErrorKind::NotFound => return Ok(Vec::new()),
        Err(error) => return Err(named(&path)(error)),
    };
    let begin = file.metadata()?.len().saturating_sub(LONGEST_LINE * most as u64);
    file.seek(SeekFrom::Start(begin))?;
    let mut bytes = Vec::new();
    file.read_to_end(&mut bytes)?;
    let text = String::from_utf8_lossy(&bytes);
    let whole = if begin == 0 {
        &text[..]
    } else {
        text.split_once('\n').map_or("", |it| it.1)
    };
    let links: Vec<Link> = whole.split_inclusive('\n').filter_map(read_link).collect();
    Ok(links[links.len().saturating_sub(most)..].to_vec())
}

fn read_link(line: &str) -> Option<Link> {
    let mut words = line.strip_suffix('\n')?.split(' ');
    Some(Link {
        view: words.next()?.parse().ok()?,
        payload: words.next()?.to_owned(),
        taken_us: words.next()?.parse().ok()?,
        latency_us: words.next()?.parse().ok()?,
    })
}

/// How a ledger is run: the same for all members, but for a trial's times.
#[derive(Clone, Copy, Debug)]
pub struct Options {
    /// After how many blocks there is another snapshot; 0 makes none.
    pub snapshot_blocks: u64,
    /// How many bytes a block holds, beside a snapshot that it binds.
    pub block_bytes: usize,
    /// How long each reply takes, in a trial.
    pub works_for: Duration,
}

impl Default for Options {
    fn default() -> Options {
        Options {
            snapshot_blocks: 0,
            block_bytes: CONTENT,
            works_for: Duration::ZERO,
        }
    }
}

impl Options {
    /// Those of a node's settings.
    pub fn of(settings: &Settings) -> Options {
        Options {
            snapshot_blocks: settings.protocol.snapshot_blocks,
            block_bytes: settings.trial.block_bytes.unwrap_or(CONTENT),
            works_for: Duration::from_millis(settings.trial.application_ms),
        }
    }

    /// Returns what a block binds that is of the form of one.
    fn bond_of(&self, block: &Block) -> Option<Bond> {
        Bond::parse(block.content().get(self.block_bytes..)?)
    }

    fn is_of_form(&self, block: &Block) -> bool {
        [self.block_bytes, self.block_bytes + BOND].contains(&block.content().len())
    }
}

/// The ledger of a node.
pub struct Ledger {
    folder: PathBuf,
    path: PathBuf,
    file: File,
    last: (View, Digest),
    height: u64,
    synced: Synced,
    salt: u64,
    options: Options,
    /// None where the chain begins at a floor: others have more blocks before it.
    snapshots: Option<Snapshots>,
}

/// The file that says that a folder's chain begins at a floor.
fn floor_path(folder: &Path) -> PathBuf {
    folder.join("chain.floor")
}

impl Ledger {
    /// Continues from the chain that a node's folder has, or from the block where the node starts.
    pub fn open(start: &Start, options: Options) -> Outcome<Ledger> {
        let folder = &start.folder;
        let (mut height, mut whole, mut last) = (0, 0, start.block);
        // (a chain may be longer than the memory)
        for link in Lines::of(folder)? {
            let link = link?;
            (height, whole, last) = (height + 1, whole + written(&link).len() as u64, link.block()?);
        }
        let path = path(folder);
        let is_new = !path.exists();
        if is_new && start.block.0 > View::GENESIS {
            File::create(floor_path(folder)).map_err(named(folder))?;
        }
        let file = OpenOptions::new().create(true).append(true).open(&path).map_err(named(&path))?;
        file.set_len(whole).map_err(named(&path))?;
        if is_new {
            // Its name is on the disk before any of its lines counts.
            File::open(folder).and_then(|it| it.sync_all()).map_err(not_stored(folder))?;
        }
        let is_whole = !floor_path(folder).exists();
        Ok(Ledger {
            snapshots: is_whole
                .then(|| Snapshots::open(folder, options.snapshot_blocks, Lines::of(folder)?))
                .transpose()?,
            folder: folder.clone(),
            path,
            file,
            last,
            height,
            synced: Synced::default(),
            salt: u64::from(start.me.get()) << 32,
            options,
        })
    }

    /// Takes its time; `None` where it is cancelled meanwhile.
    fn works(&self, cancelled: &Cancelled) -> Option<()> {
        let begun = Instant::now();
        while begun.elapsed() < self.options.works_for {
            if cancelled.is_cancelled() {
                return None;
            }
            sleep(Duration::from_millis(1));
        }
        Some(())
    }
}

fn written(link: &Link) -> String {
    format!("{} {} {} {}\n", link.view, link.payload, link.taken_us, link.latency_us)
}

fn parse_digest(hex: &str) -> io::Result<Digest> {
    let byte = |at: usize| hex.get(at..at + 2).and_then(|pair| u8::from_str_radix(pair, 16).ok());
    let bytes: Option<Vec<u8>> = (0..64).step_by(2).map(byte).collect();
    let bytes = bytes
        .and_then(|it| it.try_into().ok())
        .ok_or_else(|| io::Error::other(format!("{hex} is no digest")))?;
    Ok(Digest::new(bytes))
}

impl Application for Ledger {
    fn build(&mut self, context: &Context, _: &Ancestors, cancelled: &Cancelled) -> Option<Vec<u8>> {
        self.works(cancelled)?;
        self.salt = self.salt.wrapping_add(1);
        let mut content = Vec::with_capacity(self.options.block_bytes + 32);
        for place in 0..self.options.block_bytes.div_ceil(32) {
            let seed = [self.salt, place as u64, context.round.view.get()].map(u64::to_be_bytes);
            content.extend_from_slice(digest(seed.as_flattened()).bytes());
        }
        content.truncate(self.options.block_bytes);
        let bond = self.snapshots.as_ref().and_then(Snapshots::bond);
        content.extend(bond.iter().flat_map(Bond::bytes));
        Some(content)
    }

    fn verify(&mut self, block: &Block, _: &Ancestors, cancelled: &Cancelled) -> Option<bool> {
        self.works(cancelled)?;
        match self.options.bond_of(block) {
            Some(bond) => self.snapshots.as_ref()?.is_own(&bond),
            None => Some(self.options.is_of_form(block)),
        }
    }

    /// (More than f members have compared the bond of a block that is notarized.)
    fn certify(&mut self, block: &Block, _: &Ancestors, cancelled: &Cancelled) -> Option<bool> {
        self.works(cancelled)?;
        Some(self.options.is_of_form(block))
    }

    fn finalized(&mut self, block: &Block) -> io::Result<()> {
        let taken_us = now_us();
        let link = Link {
            view: block.view.get(),
            payload: block.payload().to_string(),
            taken_us,
            latency_us: taken_us.saturating_sub(block.built_us),
        };
        self.file.write_all(written(&link).as_bytes()).map_err(not_stored(&self.path))?;
        self.last = (block.view, block.payload());
        self.height += 1;
        if let Some(snapshots) = &mut self.snapshots {
            snapshots.push(block.view, block.payload())?;
            self.options.bond_of(block).iter().for_each(|it| snapshots.bind(it));
        }
        Ok(())
    }

    fn last(&self) -> (View, Digest) {
        self.last
    }

    fn height(&self) -> u64 {
        self.height
    }

    fn durable(&mut self) -> io::Result<u64> {
        self.synced.next(&self.file, self.height).map_err(not_stored(&self.path))
    }

    fn bound(&self, block: &Block) -> Option<Digest> {
        self.options.bond_of(block).map(|it| it.digest)
    }

    fn manifest(&mut self, bound: &Digest) -> io::Result<Option<Manifest>> {
        Ok(self.snapshots.as_ref().and_then(|it| it.find(bound)).cloned())
    }

    fn piece(&mut self, bound: &Digest, index: u32) -> io::Result<Option<Vec<u8>>> {
        self.snapshots.as_ref().map_or(Ok(None), |it| it.piece(bound, index))
    }

    fn restore(&mut self, manifest: &Manifest, bytes: &mut dyn Read) -> io::Result<()> {
        self.take_snapshot(manifest, bytes)
    }
}
