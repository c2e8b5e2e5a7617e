//! A node with an application of its own: `cargo run --example thirty_lines -- --config node.toml`. `simplex-node init --config node.toml`
//! makes its folder, once.

use simplex_node::{Ancestors, Application, Cancelled, Outcome, Settings, run};
use simplex_view_state::{Context, Digest, View};
use simplex_wire::Block;
use std::io;

/// Orders greetings, and prints them. It stores nothing: at each start it gets all final blocks again.
struct Greetings {
    last: (View, Digest),
    count: u64,
}

impl Application for Greetings {
    fn build(&mut self, context: &Context, _: &Ancestors, _: &Cancelled) -> Option<Vec<u8>> {
        Some(format!("hello from member {}", context.leader).into_bytes())
    }

    fn verify(&mut self, block: &Block, _: &Ancestors, _: &Cancelled) -> Option<bool> {
        Some(block.content().starts_with(b"hello from member "))
    }

    fn certify(&mut self, block: &Block, ancestors: &Ancestors, cancelled: &Cancelled) -> Option<bool> {
        self.verify(block, ancestors, cancelled)
    }

    fn finalized(&mut self, block: &Block) -> io::Result<()> {
        self.last = (block.view, block.payload());
        self.count += 1;
        println!("{} {} {}", self.count, block.view, String::from_utf8_lossy(block.content()));
        Ok(())
    }

    fn last(&self) -> (View, Digest) {
        self.last
    }

    fn height(&self) -> u64 {
        self.count
    }

    fn durable(&mut self) -> io::Result<u64> {
        Ok(0)
    }
}

fn main() -> Outcome {
    let path = std::env::args().next_back().unwrap_or_default();
    run(Settings::read(path.as_ref())?, |start| {
        Ok(Greetings {
            last: start.block,
            count: 0,
        })
    })
}
