//! A node whose application has a state, the number of blocks: each block holds its place in the chain, which follows from its ancestors.
//!
//!     cargo run --example numbered -- --config node.toml

use simplex_node::{Ancestors, Application, Cancelled, Outcome, Settings, run};
use simplex_view_state::{Context, Digest, View};
use simplex_wire::Block;
use std::io;

/// Numbers blocks. It stores nothing: at each start it gets all final blocks again.
struct Numbered {
    last: (View, Digest),
    count: u64,
}

impl Numbered {
    /// The number of the block on a parent; `None`, and a line that says so, where its ancestors do not lead there from the last final block.
    fn number(&self, ancestors: &Ancestors, parent: (View, Digest)) -> Option<u64> {
        let (mut at, mut number) = (self.last, self.count + 1);
        for block in ancestors.iter() {
            if block.parent == at {
                (at, number) = ((block.view, block.payload()), number + 1);
            }
        }
        if at != parent {
            println!("the ancestors lead to view {}, and the parent is of view {}", at.0, parent.0);
            return None;
        }
        Some(number)
    }
}

impl Application for Numbered {
    fn build(&mut self, context: &Context, ancestors: &Ancestors, _: &Cancelled) -> Option<Vec<u8>> {
        let number = self.number(ancestors, (context.parent, context.parent_payload))?;
        Some(number.to_be_bytes().to_vec())
    }

    fn verify(&mut self, block: &Block, ancestors: &Ancestors, _: &Cancelled) -> Option<bool> {
        let number = self.number(ancestors, block.parent)?;
        Some(block.content() == number.to_be_bytes())
    }

    fn certify(&mut self, block: &Block, ancestors: &Ancestors, cancelled: &Cancelled) -> Option<bool> {
        self.verify(block, ancestors, cancelled)
    }

    fn finalized(&mut self, block: &Block) -> io::Result<()> {
        self.last = (block.view, block.payload());
        self.count += 1;
        if block.content() != self.count.to_be_bytes() {
            return Err(io::Error::other(format!("block {} has another number", self.count)));
        }
        Ok(())
    }

    fn last(&self) -> (View, Digest) {
        self.last
    }

    fn height(&self) -> u64 {
        self.count
    }

    fn durable(&mut self) -> io::Result<u64> {
        Ok(0)
    }
}

fn main() -> Outcome {
    let path = std::env::args().next_back().unwrap_or_default();
    run(Settings::read(path.as_ref())?, |start| {
        Ok(Numbered {
            last: start.block,
            count: 0,
        })
    })
}
