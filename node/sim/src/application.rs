//! The application, which builds and judges blocks.

use crate::block::Block;
use simplex_view_state::{Context, View};

/// An application on top of an [`EngineHost`](crate::EngineHost). What it keeps in memory survives a crash of the simulated process, as if
/// it was on a disk; an application that wants otherwise forgets in [`Application::begin`].
pub trait Application {
    /// A process lifetime begins.
    fn begin(&mut self) {}

    /// Returns the content of a new block in a context.
    fn build(&mut self, context: &Context) -> u64;

    /// Returns whether a proposed block is valid. Its view and parent are tested.
    fn verify(&mut self, block: &Block) -> bool;

    /// Returns whether a notarized block may be built on. All honest members have to return the same.
    fn certify(&mut self, block: &Block) -> bool;

    /// Takes the next block of the finalized chain, each once.
    fn finalized(&mut self, block: &Block);
}

/// An application that finds each block good, and remembers the last finalized one.
#[derive(Clone, Debug, Default)]
pub struct Log {
    /// How many blocks are final.
    pub height: u64,
    /// The view of the last one.
    pub last: View,
}

impl Application for Log {
    fn build(&mut self, context: &Context) -> u64 {
        context.round.view.get()
    }

    fn verify(&mut self, _: &Block) -> bool {
        true
    }

    fn certify(&mut self, _: &Block) -> bool {
        true
    }

    fn finalized(&mut self, block: &Block) {
        self.height += 1;
        self.last = block.view;
    }
}
