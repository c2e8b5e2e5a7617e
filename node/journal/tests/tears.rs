//! Journals after a power cut: the last write torn at each byte, sector and page, and bytes that changed.

mod common;

use common::{entries, identity, scratch};
use simplex_journal::{Cause, HEAD, Journal, Recovered, parse, path};
use simplex_view_state::Entries;
use std::fs::{self, OpenOptions};
use std::io::Write;
use std::path::Path;

const SECTOR: usize = 512;
const PAGE: usize = 4096;

/// A journal: its bytes, where each piece begins, and the record up to each.
struct Made {
    bytes: Vec<u8>,
    ends: Vec<usize>,
    frames: Vec<Vec<u8>>,
}

/// Writes a piece for each length, the first one in place of all, and syncs behind those that are named.
fn made(name: &str, lengths: &[usize], synced_behind: &[usize]) -> Made {
    let folder = scratch(name);
    let (mut journal, none) = Journal::open(&folder, &identity(), true).expect("a disk");
    assert!(none.is_none());
    let mut made = Made {
        bytes: Vec::new(),
        ends: Vec::new(),
        frames: Vec::new(),
    };
    let mut frames = Vec::new();
    for (place, length) in lengths.iter().enumerate() {
        let it: Entries = entries(place as u64, *length);
        frames.extend_from_slice(&it.bytes);
        match place {
            0 => journal.replace(&it).expect("a disk"),
            _ => journal.append(&it).expect("a disk"),
        }
        if synced_behind.contains(&place) {
            assert!(journal.sync().expect("a disk"));
        }
        made.ends.push(journal.bytes() as usize);
        made.frames.push(frames.clone());
    }
    made.bytes = fs::read(path(&folder)).expect("a journal");
    made
}

fn read(bytes: &[u8]) -> Result<Recovered, Cause> {
    parse(bytes).map(|(_, it)| it)
}

/// The bytes are read as what was recorded up to this piece, and the rest is cut off.
fn is_cut_behind(made: &Made, bytes: &[u8], last: usize, what: &str) {
    let it = read(bytes).unwrap_or_else(|refused| panic!("{what}: {refused}"));
    assert_eq!(
        (it.stored.entries.get(), it.cut),
        (last as u64, bytes.len() - made.ends[last]),
        "{what}"
    );
    assert_eq!(it.frames, made.frames[last], "{what}");
}

#[test]
fn the_last_write_is_cut_off_at_any_byte() {
    let made = made("bytes", &[40, 300, 9000], &[1]);
    for end in made.ends[1]..made.bytes.len() {
        is_cut_behind(&made, &made.bytes[..end], 1, &format!("{end} bytes"));
    }
    is_cut_behind(&made, &made.bytes, 2, "whole");
}

/// The file got its length, and none of the bytes.
#[test]
fn zeros_after_the_end_are_cut_off() {
    let made = made("zeros", &[40, 300], &[1]);
    for count in (1..70).chain([500, 511, 512, 513, 4095, 4096, 4097, 20_000]) {
        let bytes = [&made.bytes[..], &vec![0; count]].concat();
        is_cut_behind(&made, &bytes, 1, &format!("{count} zeros"));
    }
}

/// Fills a part of the last write with zeros, from this place to that one, as the disk left it.
fn without(bytes: &mut [u8], synced: usize, from: usize, size: usize) {
    let (from, to) = (from.max(synced), (from + size).min(bytes.len()));
    bytes[from..to].fill(0);
}

#[test]
fn pages_of_the_last_write_may_be_missing_in_any_order() {
    // The last write begins at each place of a sector's end and of a page's.
    for length in (1..40).chain(3700..3760) {
        let made = made("pages", &[40, length, 3 * PAGE], &[1]);
        let (synced, count) = (made.ends[1], made.bytes.len().div_ceil(PAGE));
        for lost in 1_usize..1 << count {
            let mut bytes = made.bytes.clone();
            let is_lost = |page: &usize| lost >> page & 1 == 1 && (page + 1) * PAGE > synced;
            (0..count)
                .filter(is_lost)
                .for_each(|page| without(&mut bytes, synced, page * PAGE, PAGE));
            let last = if bytes == made.bytes { 2 } else { 1 };
            is_cut_behind(&made, &bytes, last, &format!("length {length}, pages {lost:b}"));
        }
    }
}

#[test]
fn each_sector_of_the_last_write_may_be_missing() {
    for length in 1..=SECTOR {
        let made = made("sectors", &[40, length, 2000], &[1]);
        let synced = made.ends[1];
        for sector in synced / SECTOR..made.bytes.len().div_ceil(SECTOR) {
            let mut bytes = made.bytes.clone();
            without(&mut bytes, synced, sector * SECTOR, SECTOR);
            is_cut_behind(&made, &bytes, 1, &format!("length {length}, sector {sector}"));
        }
    }
}

#[test]
fn of_writes_that_were_not_synced_those_before_the_first_torn_one_are_left() {
    let made = made("batch", &[40, 300, 1000, 1000, 1000], &[1]);
    let synced = made.ends[1];
    for sector in synced / SECTOR..made.bytes.len().div_ceil(SECTOR) {
        let mut bytes = made.bytes.clone();
        without(&mut bytes, synced, sector * SECTOR, SECTOR);
        let changed = bytes
            .iter()
            .zip(&made.bytes)
            .position(|(one, other)| one != other)
            .expect("it was written");
        let last = made.ends.iter().filter(|end| **end <= changed).count() - 1;
        is_cut_behind(&made, &bytes, last, &format!("sector {sector}"));
    }
}

#[test]
fn synced_bytes_that_are_missing_now_are_damage() {
    let made = made("synced", &[40, 2000, 2000, 600], &[1, 2]);
    for sector in made.ends[0].div_ceil(SECTOR)..made.ends[1] / SECTOR {
        let mut bytes = made.bytes.clone();
        without(&mut bytes, HEAD, sector * SECTOR, SECTOR);
        assert!(
            matches!(read(&bytes), Err(Cause::Damaged(at)) if at == made.ends[0]),
            "sector {sector}"
        );
    }
    // The first piece was synced before the file had its name.
    for end in 9..made.ends[0] {
        assert!(matches!(read(&made.bytes[..end]), Err(Cause::Damaged(_))), "{end} bytes");
    }
}

#[test]
fn a_bit_that_is_changed_is_damage_also_in_the_last_piece() {
    let made = made("bits", &[40, 30, 60], &[1, 2]);
    let mut bytes = made.bytes.clone();
    for at in 9..bytes.len() {
        for bit in 0..8 {
            bytes[at] ^= 1 << bit;
            assert!(matches!(read(&bytes), Err(Cause::Damaged(_))), "byte {at}, bit {bit}");
            bytes[at] ^= 1 << bit;
        }
    }
}

/// Numbers that follow from a seed: xorshift.
struct Random(u64);

impl Random {
    fn below(&mut self, most: usize) -> usize {
        self.0 ^= self.0 << 13;
        self.0 ^= self.0 >> 7;
        self.0 ^= self.0 << 17;
        (self.0 % most as u64) as usize
    }
}

/// Leaves what a power cut may leave: of the bytes that are not synced some beginning, and of its sectors some.
fn cut_power(folder: &Path, synced: usize, random: &mut Random) {
    let mut bytes = fs::read(path(folder)).expect("a journal");
    bytes.truncate(synced + random.below(bytes.len() - synced + 1));
    if random.below(2) == 0 {
        // Longer than what was written: from the end of a sector on.
        bytes.truncate((bytes.len() / SECTOR * SECTOR).max(synced));
        bytes.extend(vec![0; random.below(2000)]);
    }
    let count = bytes.len().div_ceil(SECTOR);
    for sector in synced / SECTOR..count {
        if random.below(3) == 0 {
            without(&mut bytes, synced, sector * SECTOR, SECTOR);
        }
    }
    fs::write(path(folder), bytes).expect("a disk");
    if random.below(2) == 0 {
        let mut left = OpenOptions::new()
            .create(true)
            .append(true)
            .open(folder.join("journal.new"))
            .expect("a disk");
        left.write_all(b"a beginning").expect("a disk");
    }
}

/// Lifetimes that end by power cuts: each begins with all that was synced before, and a beginning of what was not.
#[test]
fn no_power_cut_loses_what_was_synced() {
    for seed in 1..60 {
        let (folder, mut random) = (scratch("lifetimes"), Random(seed));
        // What was recorded after each call, from the last synced one on.
        let mut possible: Vec<Vec<u8>> = Vec::new();
        for lifetime in 0..6 {
            let (mut journal, recovered) = Journal::open(&folder, &identity(), true).expect("it is never refused");
            let before = recovered.map(|it| it.frames);
            assert_eq!(before.is_none(), lifetime == 0);
            let mut frames = before.clone().unwrap_or_else(|| vec![7; 50]);
            let is_one = before.is_none_or(|it| possible.contains(&it));
            assert!(is_one, "seed {seed}, lifetime {lifetime}");
            let whole = |bytes: &[u8]| Entries {
                bytes: bytes.to_vec(),
                ..entries(1, 0)
            };
            journal.replace(&whole(&frames)).expect("a disk");
            let mut synced = journal.bytes() as usize;
            possible = vec![frames.clone()];
            for call in 0..random.below(9) {
                match random.below(8) {
                    0 => {
                        frames.truncate(random.below(frames.len() + 1));
                        journal.replace(&whole(&frames)).expect("a disk");
                        (synced, possible) = (journal.bytes() as usize, vec![frames.clone()]);
                    }
                    1..=3 if journal.sync().expect("a disk") => (synced, possible) = (journal.bytes() as usize, vec![frames.clone()]),
                    _ => {
                        let more = entries(call as u64, 1 + random.below(1500));
                        journal.append(&more).expect("a disk");
                        frames.extend_from_slice(&more.bytes);
                        possible.push(frames.clone());
                    }
                }
            }
            drop(journal);
            cut_power(&folder, synced, &mut random);
        }
    }
}
