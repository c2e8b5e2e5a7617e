//! Your first engine: four members, each a thread, finalize twenty views. Run it again with the same folder, and they resume from their
//! files. `docs/TUTORIAL.md` goes through it.
//!
//!     cargo run --example first_engine -- FOLDER

mod host;
mod network;
mod toys;

use host::Outcome;
use std::path::Path;

const VIEWS: usize = 20;

fn main() -> Outcome {
    let folder = std::env::args().nth(1).ok_or("name a folder: its files are the members' disks")?;
    std::fs::create_dir_all(&folder)?;
    let chains = network::run(Path::new(&folder), VIEWS)?;
    for proposal in &chains[0] {
        println!("view {:>3}  block {}", proposal.view(), proposal.payload);
    }
    Ok(())
}
