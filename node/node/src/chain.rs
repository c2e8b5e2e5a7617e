//! The finalized chain of this node's blocks.

use crate::blocks::Blocks;
use simplex_chain::Store;
use simplex_view_state::Digest;
use simplex_wire::Block;

pub use simplex_chain::Tail;

/// A final block in its place.
pub type Entry = simplex_chain::Entry<Block>;
/// The final blocks that are not passed on yet.
pub type FinalChain = simplex_chain::FinalChain<Block>;

impl Store<Block> for Blocks {
    fn block(&self, payload: &Digest) -> Option<&Block> {
        self.get(payload).map(|it| &**it)
    }
}
