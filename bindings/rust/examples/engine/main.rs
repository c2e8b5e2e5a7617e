//! Four engines in one process, which finalize twenty views: `network.rs` beside it is what a host does around each. Half way member 1's
//! process ends, and a new one resumes from its disk.
//!
//!     cargo run --example engine

mod network;

use network::{Network, Outcome};

const MEMBERS: u32 = 4;
const VIEWS: usize = 20;

fn main() -> Outcome {
    let mut network = Network::start(MEMBERS.try_into()?, 0, 1)?;
    let mut printed = 0;
    while printed < VIEWS {
        network.step()?;
        let first = &network.nodes[0];
        for block in &first.chain[printed..] {
            let leader = (block.view.get() - 1) % u64::from(MEMBERS);
            println!("view {:>2}  leader {leader}  block {}", block.view, block.digest());
        }
        let before = std::mem::replace(&mut printed, first.chain.len());
        if before < VIEWS / 2 && printed >= VIEWS / 2 {
            network.nodes[1].engine = None;
            println!("member 1 ends");
        }
        if network.nodes[1].engine.is_none() && printed >= VIEWS * 3 / 4 {
            network.begin(1)?;
            println!("member 1 continues from its disk");
        }
    }
    let entries = network.nodes[0].disk.stored.map_or(0, |stored| stored.entries.get());
    println!(
        "{printed} views are final; member 0 has stored {entries} entries, {} bytes",
        network.nodes[0].disk.journal.len()
    );
    Ok(())
}
