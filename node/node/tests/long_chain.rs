//! A ledger whose chain is longer than what it may have of the memory.

use simplex_node::application::Application;
use simplex_node::ledger::{self, Ledger, Options};
use simplex_node::network::folder_of;
use simplex_node::start::Start;
use simplex_view_state::{Digest, Participant, View};
use simplex_wire::Manifest;
use std::fs::{self, File};
use std::io::{BufWriter, Read, Write};

/// How many blocks the chain has: 10 MB of lines.
const BLOCKS: u64 = 100_000;

/// The most memory that this process has had, in kilobytes.
fn peak_kb() -> u64 {
    let status = fs::read_to_string("/proc/self/status").expect("Linux");
    let line = status.lines().find_map(|line| line.strip_prefix("VmHWM:")).expect("a line");
    line.trim().trim_end_matches(" kB").parse().expect("a number")
}

/// The digest of the block of a view.
fn payload(view: u64) -> Digest {
    format!("{view:064x}").parse().expect("a digest")
}

/// The bytes of a snapshot after so many blocks, one of each view.
fn snapshot(blocks: u64) -> impl Read {
    Records(1..=blocks, Vec::new())
}

struct Records(std::ops::RangeInclusive<u64>, Vec<u8>);

impl Read for Records {
    fn read(&mut self, to: &mut [u8]) -> std::io::Result<usize> {
        if self.1.is_empty() {
            let Some(view) = self.0.next() else { return Ok(0) };
            self.1 = [&view.to_be_bytes()[..], payload(view).bytes()].concat();
        }
        let count = to.len().min(self.1.len());
        to[..count].copy_from_slice(&self.1.drain(..count).collect::<Vec<u8>>());
        Ok(count)
    }
}

#[test]
fn a_ledger_reads_its_chain_at_the_start_and_in_a_snapshot_and_holds_little_of_it() {
    let start = Start {
        folder: folder_of("long-chain"),
        block: (View::GENESIS, Digest::default()),
        me: Participant::new(0),
    };
    fs::create_dir_all(&start.folder).expect("a disk");
    let mut file = BufWriter::new(File::create(ledger::path(&start.folder)).expect("a disk"));
    for view in 1..=BLOCKS {
        writeln!(file, "{view} {view:064x} 1700000000000000 2000").expect("a disk");
    }
    file.flush().expect("a disk");
    let options = Options {
        snapshot_blocks: 1000,
        ..Options::default()
    };
    let before = peak_kb();
    let mut ledger = Ledger::open(&start, options).expect("a chain");
    assert_eq!(ledger.height(), BLOCKS);
    let grown = peak_kb() - before;
    assert!(grown < 8 << 10, "{grown} kB at the start");
    let longer = BLOCKS + 1000;
    let manifest = Manifest {
        height: longer,
        view: View::new(longer),
        payload: payload(longer),
        length: longer * 40,
        pieces: Vec::new(),
    };
    ledger.restore(&manifest, &mut snapshot(longer)).expect("a snapshot");
    let grown = peak_kb() - before;
    println!("{grown} kB");
    assert_eq!(ledger.height(), longer);
    assert!(grown < 8 << 10, "{grown} kB in a snapshot");
    fs::remove_dir_all(&start.folder).expect("a disk");
}
