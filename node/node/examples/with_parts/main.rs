//! A host of one's own, made of the parts: four members over TLS on this machine, each with a thread and a journal, finalize sixty blocks.
//! The last one begins when the first has forty, and fetches these.
//!
//!     cargo run --example with_parts -- FOLDER

mod host;

use host::{Host, Outcome};
use simplex_keys::{Keys, public_key};
use simplex_net::{Address, Places};
use simplex_view_state::Participant;
use simplex_wire::Block;
use std::net::TcpListener;
use std::path::PathBuf;
use std::sync::Arc;
use std::sync::atomic::{AtomicU32, AtomicUsize, Ordering::Relaxed};
use std::time::Duration;
use std::{fs, thread};

const MEMBERS: u32 = 4;
const BLOCKS: usize = 60;
const LATE: usize = 40;

/// Keys that everyone knows: a real member draws its own.
fn secret(index: u32) -> [u8; 32] {
    [index as u8 + 1; 32]
}

/// An address of this machine that is free now.
fn address() -> Outcome<Address> {
    let port = TcpListener::bind("127.0.0.1:0")?.local_addr()?.port();
    Ok(Address::try_from(format!("127.0.0.1:{port}"))?)
}

fn main() -> Outcome {
    let folder = std::env::args()
        .nth(1)
        .ok_or("name a folder that is not there yet: it gets the members' journals")?;
    fs::create_dir(&folder).map_err(|error| format!("{folder}: {error}; name a folder that is not there yet"))?;
    let public = (0..MEMBERS).map(|it| public_key(&secret(it))).collect::<Result<Vec<_>, _>>()?;
    let addresses = (0..MEMBERS).map(|_| address()).collect::<Outcome<Vec<_>>>()?;
    let (folder, done) = (PathBuf::from(folder), AtomicU32::new(0)); // how many members have delivered all blocks
    let first = AtomicUsize::new(0); // how many blocks the first has delivered
    let run = |index| -> Outcome<Vec<Block>> {
        let me = Participant::new(index);
        let keys = Arc::new(Keys::new("with-parts".to_owned().try_into()?, 1, 1, me, &secret(index), &public)?);
        let places = Places::of(me, addresses.clone()).ok_or("no such member")?;
        while index == MEMBERS - 1 && first.load(Relaxed) < LATE {
            thread::sleep(Duration::from_millis(10));
        }
        let mut host = Host::begin(keys, &places, &folder.join(index.to_string()))?;
        host.run(|it| {
            if index == 0 {
                first.store(it.delivered.len(), Relaxed);
            }
            it.delivered.len() >= BLOCKS
        })?;
        done.fetch_add(1, Relaxed);
        host.run(|_| done.load(Relaxed) == MEMBERS)?; // until the others have them too
        Ok(host.delivered)
    };
    let chains = thread::scope(|scope| {
        let run = &run;
        let all: Vec<_> = (0..MEMBERS).map(|index| scope.spawn(move || run(index))).collect();
        all.into_iter()
            .map(|it| it.join().expect("no host panics"))
            .collect::<Outcome<Vec<_>>>()
    })?;
    show(&chains)
}

/// Prints the blocks of the first chain, and compares the others with it.
fn show(chains: &[Vec<Block>]) -> Outcome {
    for it in &chains[0][..BLOCKS] {
        println!(
            "view {:>3}  block {}  {}",
            it.view,
            it.payload(),
            String::from_utf8_lossy(it.content())
        );
    }
    if chains.iter().any(|it| it[..BLOCKS] != chains[0][..BLOCKS]) {
        return Err("two members delivered different blocks".into());
    }
    Ok(())
}
