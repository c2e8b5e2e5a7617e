//! Blocks for tests.

use simplex_chain::{Linked, Tail};
use simplex_view_state::{Certificate, Digest, Epoch, Proposal, Round, Subject, View};

/// A block without content.
#[derive(Clone, PartialEq, Eq, Debug)]
pub struct Block {
    pub view: View,
    pub digest: Digest,
    pub parent: (View, Digest),
}

impl Linked for Block {
    fn view(&self) -> View {
        self.view
    }

    fn digest(&self) -> Digest {
        self.digest
    }

    fn parent(&self) -> (View, Digest) {
        self.parent
    }

    fn size(&self) -> usize {
        100
    }
}

/// Where the chain begins.
pub const GENESIS: Tail = Tail {
    height: 0,
    view: View::GENESIS,
    payload: Digest::new([0; 32]),
};

/// The digest of a block of a branch.
fn digest(view: u64, branch: u8) -> Digest {
    let mut bytes = [branch; 32];
    bytes[..8].copy_from_slice(&view.to_be_bytes());
    Digest::new(bytes)
}

/// A chain of blocks of these views behind a block.
pub fn chain_behind(mut parent: (View, Digest), views: &[u64], branch: u8) -> Vec<Block> {
    let mut chain = Vec::new();
    for view in views {
        let block = Block {
            view: View::new(*view),
            digest: digest(*view, branch),
            parent,
        };
        parent = (block.view, block.digest);
        chain.push(block);
    }
    chain
}

/// A chain of blocks of these views on genesis.
pub fn chain(views: &[u64]) -> Vec<Block> {
    chain_behind((GENESIS.view, GENESIS.payload), views, 1)
}

/// The proposal of a block.
pub fn proposal(block: &Block) -> Proposal {
    Proposal {
        round: Round {
            epoch: Epoch::new(1),
            view: block.view,
        },
        parent: block.parent.0,
        payload: block.digest,
    }
}

/// Its finalization.
pub fn certificate(block: &Block) -> Certificate {
    Certificate::of(Subject::Finalize(proposal(block)), vec![block.view.get() as u8])
}
