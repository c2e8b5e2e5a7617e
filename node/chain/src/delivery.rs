//! Blocks in memory, and the delivery of the final ones.

use crate::{FinalChain, Fork, Linked, Tail};
use simplex_view_state::{Digest, Proposal, View};
use std::collections::HashMap;

/// A host's blocks by their digests, in memory, and the final ones among them in order.
///
/// ```
/// use simplex_chain::{Delivery, Linked, Tail};
/// use simplex_view_state::{Digest, Epoch, Proposal, Round, View};
///
/// #[derive(Clone)]
/// struct Block { view: View, digest: Digest, parent: (View, Digest) }    // and what it holds
///
/// impl Linked for Block {
///     fn view(&self) -> View { self.view }
///     fn digest(&self) -> Digest { self.digest }
///     fn parent(&self) -> (View, Digest) { self.parent }
/// }
///
/// let genesis = Digest::default();
/// let mut delivery = Delivery::new(Tail::genesis(genesis));
/// let block = Block { view: View::new(1), digest: Digest::new([1; 32]), parent: (View::GENESIS, genesis) };
/// let round = Round { epoch: Epoch::new(1), view: block.view };
/// assert!(delivery.finalize(&Proposal { round, parent: View::GENESIS, payload: block.digest })?.is_empty());
/// assert_eq!(delivery.hole(), Some((block.view, block.digest)));          // ask peers for it
/// assert_eq!(delivery.insert(block)?.len(), 1);                           // it is final, and comes once
/// # Ok::<(), simplex_chain::Fork>(())
/// ```
#[derive(Debug)]
pub struct Delivery<B> {
    blocks: HashMap<Digest, B>,
    chain: FinalChain<B>,
}

impl<B: Linked + Clone> Delivery<B> {
    /// Begins behind the last block that the application has.
    pub fn new(tail: Tail) -> Delivery<B> {
        Delivery {
            blocks: HashMap::new(),
            chain: FinalChain::new(tail),
        }
    }

    /// Returns the block of a digest, where it is here.
    pub fn get(&self, digest: &Digest) -> Option<&B> {
        self.blocks.get(digest)
    }

    /// Stores a block, which has to be that of its digest. Returns the blocks to deliver next, in order: those that waited for it.
    ///
    /// # Errors
    ///
    /// A fork, as of [`FinalChain::finalize`].
    pub fn insert(&mut self, block: B) -> Result<Vec<B>, Fork> {
        let digest = block.digest();
        self.blocks.insert(digest, block.clone());
        self.chain.arrived(&block, &self.blocks)?;
        Ok(self.take())
    }

    /// Notes that a proposal is final, as `Output::Finalized` says. Returns the blocks to deliver next, in order.
    ///
    /// # Errors
    ///
    /// A fork, as of [`FinalChain::finalize`].
    pub fn finalize(&mut self, proposal: &Proposal) -> Result<Vec<B>, Fork> {
        self.chain.finalize(proposal, None, &self.blocks)?;
        Ok(self.take())
    }

    /// Returns the lowest final block that is known to be missing: ask peers for it at each finalization, and else once. Where all peers
    /// reply and a host asks at each reply, the asks triple with each block, and its peers cut it off.
    pub fn hole(&self) -> Option<(View, Digest)> {
        self.chain.hole()
    }

    /// Drops the delivered blocks of views below this one, as `Output::Forget` says. Peers that lag can't have them from this host then.
    pub fn forget(&mut self, below: View) {
        let tail = self.chain.tail().view;
        self.blocks.retain(|_, block| block.view() >= below || block.view() > tail);
    }

    fn take(&mut self) -> Vec<B> {
        self.chain.take(&self.blocks).into_iter().map(|it| it.block).collect()
    }
}
