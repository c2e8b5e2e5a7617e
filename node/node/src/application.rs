//! The interface of an application that the engine orders blocks for.
//!
//! The application has a thread of its own ([`worker`]): it takes as long as it needs, and holds up neither the engine nor the disk.

pub mod ancestors;
pub mod requests;
pub mod worker;

pub use ancestors::Ancestors;

use simplex_view_state::{Context, Digest, View};
use simplex_wire::{Block, Manifest};
use std::io;
use std::sync::Arc;
use std::sync::atomic::{AtomicBool, Ordering::Relaxed};

/// Tells an application that nobody waits for its reply any more. A long piece of work looks now and then, and returns `None` then.
#[derive(Clone, Debug, Default)]
pub struct Cancelled(Arc<AtomicBool>);

impl Cancelled {
    /// Returns whether nobody waits for the reply any more.
    pub fn is_cancelled(&self) -> bool {
        self.0.load(Relaxed)
    }

    fn cancel(&self) {
        self.0.store(true, Relaxed);
    }
}

/// An application: it makes the contents of blocks, verifies them and applies them.
///
/// It is asked one thing at a time, on a thread of its own, and may take as long as it needs; what took too long is cancelled.
///
/// - **All honest nodes must return the same.** [`verify`](Application::verify) and [`certify`](Application::certify)
///   depend on the block and its ancestors alone, not on the clock, on chance or on this machine: a network whose
///   applications contradict each other can stop for good.
/// - **The state before a block is that of [`last`](Application::last), and on it all [`Ancestors`] in order.** They
///   are not final yet, or not taken yet, and are passed with each question, also in the first one after a restart: the
///   application need not remember any.
/// - **A block may never become final**: `build`, `verify` and `certify` change nothing that lasts. What a block does
///   is done in [`finalized`](Application::finalized).
/// - **Over lifetimes it gets each final block once after its own [`last`](Application::last).** So it stores a block's
///   effects and that it is the last one in one step. One that stores nothing gets all blocks again at each start.
pub trait Application: Send + 'static {
    /// Returns what a block holds that this node builds in a context, after these ancestors; `None` where it is cancelled, or has nothing
    /// to propose.
    fn build(&mut self, context: &Context, ancestors: &Ancestors, cancelled: &Cancelled) -> Option<Vec<u8>>;

    /// Returns whether a block may be voted for: what it holds is good after its ancestors. `None` where it is cancelled, or the
    /// application can't decide yet: it is asked again after each final block that it takes, and until then this node does not vote for the
    /// block.
    fn verify(&mut self, block: &Block, ancestors: &Ancestors, cancelled: &Cancelled) -> Option<bool>;

    /// Returns whether a notarized block may be built on. It is asked in all nodes, also in those that did not vote for it. `None` where it
    /// is cancelled.
    fn certify(&mut self, block: &Block, ancestors: &Ancestors, cancelled: &Cancelled) -> Option<bool>;

    /// Takes a finalized block: each once, each behind its parent.
    ///
    /// # Errors
    ///
    /// Where it can't be taken, since the disk refuses, say: the process ends, and the block comes again in the next one.
    fn finalized(&mut self, block: &Block) -> io::Result<()>;

    /// The view and digest of the last block that was taken; where the node starts ([`Start::block`](crate::Start)) at first.
    fn last(&self) -> (View, Digest);

    /// How many blocks were taken.
    fn height(&self) -> u64;

    /// Returns how many of the blocks that were taken the disk has. The archive may drop those from then on; where it returns 0 the archive
    /// keeps all. It is asked each second, on the thread that builds and verifies: while it waits for the disk this node votes for no block.
    /// So an application whose disk may be slow syncs on another thread, and returns what the disk had after the last sync that ended.
    ///
    /// # Errors
    ///
    /// Where the disk refuses: the process ends.
    fn durable(&mut self) -> io::Result<u64>;

    /// The digest of the snapshot that a block binds ([`Manifest::digest`]); `None` where it binds none. It depends on the block alone.
    ///
    /// A snapshot is the application's state after some final block, as bytes that are the same in all honest nodes. Now and then a leader
    /// builds a block that binds one, and [`verify`](Application::verify) refuses a block that binds another one than this node's own. So a
    /// node that was away for long, or is new, can take the state of anybody: a finalized block vouches for it. An application without
    /// snapshots leaves this method and the next three as they are.
    fn bound(&self, block: &Block) -> Option<Digest> {
        let _ = block;
        None
    }

    /// The manifest of the snapshot that a final block binds; `None` where it is not here any more.
    ///
    /// # Errors
    ///
    /// Where the disk refuses: it is logged, and no peer is served.
    fn manifest(&mut self, bound: &Digest) -> io::Result<Option<Manifest>> {
        let _ = bound;
        Ok(None)
    }

    /// A piece of that snapshot; `None` where it is not here any more. The last two snapshots that were bound have to be here.
    ///
    /// # Errors
    ///
    /// As of [`manifest`](Application::manifest).
    fn piece(&mut self, bound: &Digest, index: u32) -> io::Result<Option<Vec<u8>>> {
        let _ = (bound, index);
        Ok(None)
    }

    /// Takes a snapshot in place of the state that it has, which is of an earlier block. All of `bytes` were verified. Where the process
    /// ends meanwhile, the next one finds the old state or the new one. After it [`last`](Application::last) and
    /// [`height`](Application::height) are those of the manifest.
    ///
    /// # Errors
    ///
    /// Where the disk refuses, or the bytes are no state: the process ends.
    fn restore(&mut self, manifest: &Manifest, bytes: &mut dyn io::Read) -> io::Result<()> {
        let _ = (manifest, bytes);
        Err(io::Error::other("this application takes no snapshot: leave `state_sync` away"))
    }
}
