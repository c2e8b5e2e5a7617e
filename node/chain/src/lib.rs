//! Delivers the finalized chain of a Simplex network: each final block once, after its ancestors, over all lifetimes of a process.
//!
//! An engine reports finalized proposals, and not their ancestors, which are final too. A process that ends may lose its last report, and
//! blocks come late or in another order. So a host that executes what is reported forks from others. A [`FinalChain`] follows the links
//! from each reported block down to the last one that the application has, names the blocks that are missing, and returns the others in
//! order.
//!
//! ```
//! use simplex_chain::{FinalChain, Linked, Tail};
//! use simplex_view_state::{Digest, Epoch, Proposal, Round, View};
//! use std::collections::HashMap;
//!
//! #[derive(Clone)]
//! struct Block { view: View, digest: Digest, parent: (View, Digest) }    // and what it holds
//!
//! impl Linked for Block {
//!     fn view(&self) -> View { self.view }
//!     fn digest(&self) -> Digest { self.digest }
//!     fn parent(&self) -> (View, Digest) { self.parent }
//! }
//!
//! let genesis = Tail { height: 0, view: View::GENESIS, payload: Digest::default() };  // or the application's last block
//! let digest = |it| Digest::new([it; 32]);
//! let first = Block { view: View::new(1), digest: digest(1), parent: (genesis.view, genesis.payload) };
//! let second = Block { view: View::new(3), digest: digest(3), parent: (first.view, first.digest) };
//!
//! let mut store = HashMap::from([(second.digest, second.clone())]);       // your blocks by their digests
//! let mut chain = FinalChain::new(genesis);
//! let round = Round { epoch: Epoch::new(1), view: second.view };
//! let proposal = Proposal { round, parent: first.view, payload: second.digest };
//! chain.finalize(&proposal, None, &store)?;                               // of Output::Finalized
//! assert!(chain.take(&store).is_empty());
//! assert_eq!(chain.hole(), Some((first.view, first.digest)));             // ask peers for it
//!
//! store.insert(first.digest, first.clone());
//! chain.arrived(&first, &store)?;
//! let delivered: Vec<u64> = chain.take(&store).iter().map(|it| it.block.view.get()).collect();
//! assert_eq!(delivered, [1, 3]);
//! # Ok::<(), Box<dyn std::error::Error>>(())
//! ```
//!
//! # How a host uses it
//!
//! 1. At a start: [`FinalChain::new`] from the last block that the *application* has stored, then [`FinalChain::finalize`] with the last
//!    finalization of the engine's record. The application is the one place that says what was delivered, so nothing is delivered twice or
//!    left out, whatever the process lost.
//! 2. At each `Output::Finalized`: `finalize`. For each block that was missing and has come: `arrived`. For ranges of final blocks that peers
//!    send, verified: `add`.
//! 3. After each of them: [`FinalChain::take`], and hand what it returns to the application, in order.
//! 4. While there is a [`FinalChain::hole`], ask for that block; where many are missing, ask for ranges of several peers at once
//!    ([`CatchUp`]).
//!
//! A host that has its blocks in memory leaves 2 and 3 to [`Delivery`].
//!
//! # What it promises
//!
//! - Blocks are returned in the order of the chain, each on the one before, from the tail on, each once.
//! - What is returned is final: an ancestor of a block that was passed as final, or that block. (It trusts links: blocks have to be those of
//!   their digests.)
//! - Once all missing blocks came, all up to the last finalized one are returned.
//! - Two final blocks on one parent are a [`Fork`]: more members are faulty than a third. Nothing of it is returned.

#![forbid(unsafe_code)]
#![warn(missing_docs)]

mod catch_up;
mod delivery;
mod final_chain;

pub use catch_up::{Ask, CatchUp};
pub use delivery::Delivery;
pub use final_chain::{Entry, FinalChain, Fork, Tail};

use simplex_view_state::{Digest, View};
use std::collections::HashMap;
use std::hash::BuildHasher;

/// A block that names its parent.
pub trait Linked {
    /// Its view.
    fn view(&self) -> View;

    /// The digest that proposals name it by.
    fn digest(&self) -> Digest;

    /// Its parent's view and digest.
    fn parent(&self) -> (View, Digest);

    /// How many bytes it takes: what [`FinalChain::fetched_bytes`] adds up.
    fn size(&self) -> usize {
        0
    }
}

/// Blocks by their digests.
pub trait Store<B> {
    /// The block of a digest, where it is here.
    fn block(&self, digest: &Digest) -> Option<&B>;
}

impl<B, S: BuildHasher> Store<B> for HashMap<Digest, B, S> {
    fn block(&self, digest: &Digest) -> Option<&B> {
        self.get(digest)
    }
}

#[cfg(feature = "wire")]
impl Linked for simplex_wire::Block {
    fn view(&self) -> View {
        self.view
    }

    fn digest(&self) -> Digest {
        self.payload()
    }

    fn parent(&self) -> (View, Digest) {
        self.parent
    }

    fn size(&self) -> usize {
        self.bytes().len()
    }
}
