//! The thread of the archive: it writes final blocks, and serves peers from them, so that the thread of the engine never waits for either.

use super::asks::Asks;
use super::{Archive, Behind, Limits};
use crate::chain::{Entry, Tail};
use crate::faults::{Stage, Trial};
use crate::inbox::{Event, Inbox};
use crate::metrics::Counters;
use crate::peers::Peers;
use crate::state_sync::installation;
use simplex_view_state::{Digest, Participant, View};
use simplex_wire::{LONGEST_RANGE, Manifest, Message};
use std::io;
use std::path::PathBuf;
use std::sync::Arc;
use std::sync::atomic::{AtomicU64, AtomicUsize, Ordering::Relaxed};
use std::sync::mpsc::{Receiver, RecvTimeoutError, Sender, channel};
use std::thread::{self, JoinHandle};
use std::time::{Duration, Instant};
use tracing::error;

/// How many orders are taken together, with one wait for the disk.
const BATCH: usize = 1024;
/// How often the disk is waited for: until then the blocks are among those of proposals, on the disk.
const SYNC: Duration = Duration::from_millis(500);
/// For how long peers are served before orders are taken again.
const SLICE: Duration = Duration::from_millis(10);
/// How long it is waited for orders where peers have used up their shares.
const PAUSE: Duration = Duration::from_millis(20);
/// How often it is logged at most that peers can't be served.
const LOGGED: Duration = Duration::from_secs(60);

/// An order to the thread.
enum Order {
    Append(Vec<Entry>),
    /// A peer asked for the blocks behind a view, up to another one.
    Range(Participant, View, View),
    /// A peer asked for a block of a view.
    Block(Participant, View, Digest),
    /// A peer is offered a snapshot, which the final block of a view binds.
    Offer(Participant, Manifest, View),
    /// The application has all blocks up to a height on the disk.
    Durable(u64),
    /// The application took a snapshot: the archive begins anew after it.
    BeginAfter(Tail),
}

impl Order {
    /// The peer that asks, where one does.
    fn peer(&self) -> Option<Participant> {
        match self {
            Order::Range(of, ..) | Order::Block(of, ..) | Order::Offer(of, ..) => Some(*of),
            Order::Append(_) | Order::Durable(_) | Order::BeginAfter(_) => None,
        }
    }
}

/// Where the archive is, and how it is opened.
#[derive(Clone, Debug)]
pub struct Place {
    /// The node's folder.
    pub folder: PathBuf,
    /// The digest of genesis.
    pub genesis: [u8; 32],
    /// How it is kept.
    pub limits: Limits,
    /// True if the disk is waited for.
    pub syncs: bool,
    /// The trial, if there is one.
    pub trial: Trial,
}

impl Place {
    /// Opens the archive. One that has no block continues from this one. The second result is how many bytes of a cut last record are left
    /// out.
    pub fn open(&self, start: Tail) -> io::Result<(Archive, u64)> {
        Archive::open(&self.folder, self.genesis, self.limits, self.syncs, start)
    }

    /// Opens an archive after a snapshot, in place of the one of older blocks, which is set aside.
    pub fn begin_after(&self, start: Tail) -> io::Result<Archive> {
        installation::set_archive_aside(&self.folder, start.height)?;
        self.trial.reached(Stage::Aside);
        let (archive, _) = self.open(start)?;
        installation::discard(&self.folder)?;
        Ok(archive)
    }
}

/// The thread that owns the archive.
pub struct Keeper {
    orders: Option<Sender<Order>>,
    /// The bytes of blocks that wait to be written.
    waiting: Arc<AtomicUsize>,
    /// The view of the last block that the disk has.
    synced: Arc<AtomicU64>,
    thread: Option<JoinHandle<()>>,
}

impl Keeper {
    /// Begins the thread. It reports written blocks by [`Event::Archived`], and a refusal of the disk by [`Event::Failed`].
    pub fn begin(archive: Archive, place: Place, peers: Arc<Peers>, inbox: Arc<Inbox>, counters: Arc<Counters>) -> io::Result<Keeper> {
        let (orders, taken) = channel();
        let waiting = Arc::new(AtomicUsize::new(0));
        let synced = Arc::new(AtomicU64::new(archive.tail().view.get()));
        let work = Work {
            archive,
            asks: Asks::new(peers.count()),
            place,
            peers,
            inbox,
            counters,
            waiting: waiting.clone(),
            durable: 0,
            synced_at: Instant::now(),
            synced: synced.clone(),
            logged: None,
        };
        let thread = thread::Builder::new().name("archive".into()).spawn(move || work.run(&taken))?;
        Ok(Keeper {
            orders: Some(orders),
            synced,
            waiting,
            thread: Some(thread),
        })
    }

    /// Has blocks written, behind all those before.
    pub fn append(&self, entries: Vec<Entry>) {
        let bytes: usize = entries.iter().map(|it| it.block.bytes().len()).sum();
        self.waiting.fetch_add(bytes, Relaxed);
        self.order(Order::Append(entries));
    }

    /// Has a peer served the blocks behind a view.
    pub fn serve(&self, to: Participant, after: View, upto: View) {
        self.order(Order::Range(to, after, upto));
    }

    /// Has a peer served a block.
    pub fn serve_block(&self, to: Participant, view: View, payload: Digest) {
        self.order(Order::Block(to, view, payload));
    }

    /// Has a peer offered a snapshot, with the final blocks that vouch for it.
    pub fn offer(&self, to: Participant, manifest: Manifest, bound_in: View) {
        self.order(Order::Offer(to, manifest, bound_in));
    }

    /// The application took a snapshot: the archive begins anew after it, and the one that was is set aside.
    pub fn begin_after(&self, tail: Tail) {
        self.order(Order::BeginAfter(tail));
    }

    /// The application has all blocks up to this height on the disk: those may be pruned.
    pub fn durable(&self, height: u64) {
        self.order(Order::Durable(height));
    }

    /// The view of the last block that the disk has. Blocks above it have to stay where they were stored before a vote for them left.
    pub fn synced(&self) -> View {
        View::new(self.synced.load(Relaxed))
    }

    /// How many bytes of blocks wait to be written.
    pub fn waiting(&self) -> usize {
        self.waiting.load(Relaxed)
    }

    /// (A thread that has ended has reported why.)
    fn order(&self, order: Order) {
        if let Some(orders) = &self.orders {
            let _ = orders.send(order);
        }
    }

    /// Waits until all that was ordered is done, but for what peers ask.
    pub fn stop(&mut self) {
        self.orders = None;
        if let Some(thread) = self.thread.take() {
            let _ = thread.join();
        }
    }
}

/// The state that the thread owns.
struct Work {
    archive: Archive,
    place: Place,
    asks: Asks<Order>,
    peers: Arc<Peers>,
    inbox: Arc<Inbox>,
    counters: Arc<Counters>,
    waiting: Arc<AtomicUsize>,
    durable: u64,
    synced_at: Instant,
    synced: Arc<AtomicU64>,
    logged: Option<Instant>,
}

impl Work {
    fn run(mut self, orders: &Receiver<Order>) {
        loop {
            let wait = if self.asks.is_empty() { SYNC } else { self.pause() };
            let first = match orders.recv_timeout(wait) {
                Ok(first) => Some(first),
                Err(RecvTimeoutError::Timeout) => None,
                Err(RecvTimeoutError::Disconnected) => break,
            };
            let batch: Vec<Order> = first.into_iter().chain(orders.try_iter().take(BATCH)).collect();
            if let Err(error) = self.carry_out(batch).and_then(|()| self.sync(SYNC)) {
                self.inbox.tell(Event::Failed(format!("the archive: {error}")));
                return;
            }
        }
        if let Err(error) = self.sync(Duration::ZERO) {
            self.log(&error);
        }
    }

    /// Waits for the disk, where that was done last so long ago.
    fn sync(&mut self, every: Duration) -> io::Result<()> {
        if self.synced_at.elapsed() >= every {
            self.archive.sync()?;
            self.synced_at = Instant::now();
            self.synced.store(self.archive.tail().view.get(), Relaxed);
        }
        Ok(())
    }

    /// Serves peers for a while, and returns how long to wait for orders then: not at all where more asks can be served.
    fn pause(&mut self) -> Duration {
        let begun = Instant::now();
        while begun.elapsed() < SLICE {
            let now = Instant::now();
            let Some((of, ask)) = self.asks.next(now) else { return PAUSE };
            if let Err(error) = self.answer(ask) {
                self.log(&error);
            }
            self.asks.took(of, now.elapsed(), Instant::now());
        }
        Duration::ZERO
    }

    /// Writes first: peers can wait.
    fn carry_out(&mut self, batch: Vec<Order>) -> io::Result<()> {
        let mut written = Vec::new();
        for order in batch {
            match order {
                Order::Append(entries) => {
                    self.archive.append(&entries)?;
                    written.extend(entries);
                }
                Order::Durable(height) => self.durable = height,
                Order::BeginAfter(tail) => self.begin_after(tail)?,
                Order::Range(of, ..) | Order::Block(of, ..) | Order::Offer(of, ..) => self.asks.push(of, order, Instant::now()),
            }
        }
        if !written.is_empty() {
            let bytes: usize = written.iter().map(|it| it.block.bytes().len()).sum();
            self.waiting.fetch_sub(bytes, Relaxed);
            self.inbox.tell(Event::Archived(written));
        }
        self.archive.prune(self.durable)?;
        self.counters.archive_bytes.store(self.archive.bytes(), Relaxed);
        self.counters.archive_first.store(self.archive.first().unwrap_or(0), Relaxed);
        Ok(())
    }

    fn begin_after(&mut self, tail: Tail) -> io::Result<()> {
        self.archive = self.place.begin_after(tail)?;
        self.durable = 0;
        self.synced.store(tail.view.get(), Relaxed);
        Ok(())
    }

    /// A snapshot with the final blocks from the one that binds it on, up to one whose finalization is here.
    fn offer_of(&mut self, manifest: Manifest, bound_in: View) -> io::Result<Option<Message>> {
        let before = View::new(bound_in.get().saturating_sub(1));
        let most = LONGEST_RANGE.saturating_sub(manifest.encode().len());
        let Behind::Blocks(range) = self.archive.behind(before, bound_in, most)? else {
            return Ok(None);
        };
        let has_bond = range.blocks.last().is_some_and(|it| it.view == bound_in);
        Ok(has_bond.then_some(Message::Snapshot(manifest, range)))
    }

    /// Serves a peer within its share. What is not served it asks for again.
    fn answer(&mut self, ask: Order) -> io::Result<()> {
        let Some(to) = ask.peer() else { return Ok(()) };
        if !self.peers.may_serve(to) {
            return Ok(());
        }
        let message = match ask {
            Order::Block(_, view, payload) => self.archive.block(view, payload)?.map(|it| Message::Block(it.bytes().to_vec())),
            Order::Range(_, after, upto) => Some(match self.archive.behind(after, upto, LONGEST_RANGE)? {
                Behind::Blocks(range) => Message::Range(range),
                Behind::Pruned(first) => Message::NoRange(after, first),
                Behind::Nothing => Message::NoRange(after, View::GENESIS),
            }),
            Order::Offer(_, manifest, bound_in) => self.offer_of(manifest, bound_in)?,
            Order::Append(_) | Order::Durable(_) | Order::BeginAfter(_) => None,
        };
        if let Some(message) = message {
            self.peers.serve(to, &message);
        }
        Ok(())
    }

    fn log(&mut self, error: &io::Error) {
        if self.logged.is_none_or(|it| it.elapsed() > LOGGED) {
            self.logged = Some(Instant::now());
            error!(%error, "a peer can't be served from the archive");
        }
    }
}
