//! Files that only grow: records one behind another, each with a checksum, in segments of some megabytes that are removed as a whole.
//!
//! A segment's name is the number of its first record, in twenty digits. It begins with a head of [`HEAD`] bytes. A record is the length of
//! its body and a CRC-32 of length and body, four bytes each, and the body. No byte is written again. A crash may cut the last
//! records off: what has no good checksum at the end of the last segment is cut away.

use crate::named::{named, not_stored};
use std::collections::BTreeMap;
use std::fs::{self, File, OpenOptions};
use std::io::{self, Read, Seek, SeekFrom, Write};
use std::path::{Path, PathBuf};

const NAME: &[u8; 8] = b"simplexb";
const VERSION: u8 = 1;
/// How many bytes precede a segment's first record: eight letters, a version, the digest of genesis, and a CRC-32 of all that.
pub const HEAD: u64 = 8 + 1 + 32 + 4;
/// The bytes of a record beside its body.
pub const BESIDE: u64 = 8;

/// Segments in a folder of their own.
#[derive(Debug)]
pub struct Segments {
    folder: PathBuf,
    genesis: [u8; 32],
    /// How long a segment gets, in bytes, and one record more.
    longest: u64,
    syncs: bool,
    /// The length of each segment, by the number of its first record.
    lengths: BTreeMap<u64, u64>,
    last: Option<File>,
    is_dirty: bool,
}

/// A record as it is found: the segment, where it begins in it, and its body.
pub type Found<'a> = (u64, u64, &'a [u8]);

impl Segments {
    /// Opens the segments of a folder, which is made where it is not there. A last record that was cut off is cut away; how many bytes that
    /// were is the second result. A file that is no segment of this network is an error.
    pub fn open(folder: &Path, genesis: [u8; 32], longest: u64, syncs: bool) -> io::Result<(Segments, u64)> {
        if !folder.exists() {
            fs::create_dir_all(folder).map_err(not_stored(folder))?;
            sync_folder(folder.parent().unwrap_or(Path::new(".")))?;
        }
        let mut segments = Segments {
            folder: folder.to_owned(),
            genesis,
            longest,
            syncs,
            lengths: BTreeMap::new(),
            last: None,
            is_dirty: false,
        };
        for entry in fs::read_dir(folder).map_err(named(folder))? {
            let entry = entry.map_err(named(folder))?;
            let number = number_of(&entry.file_name()).ok_or_else(|| foreign(&entry.path()))?;
            segments.lengths.insert(number, entry.metadata()?.len());
        }
        let cut = segments.mend_last()?;
        // An earlier process may have ended before it waited for the disk, which then has less than this one reads.
        segments.is_dirty = true;
        segments.sync()?;
        Ok((segments, cut))
    }

    /// Cuts the last segment behind its last good record, and opens it. One that has no whole head was never written to, and begins anew.
    fn mend_last(&mut self) -> io::Result<u64> {
        let Some((&number, &length)) = self.lengths.last_key_value() else {
            return Ok(0);
        };
        if length < HEAD || self.is_blank(number)? {
            fs::remove_file(self.path(number))?;
            self.lengths.remove(&number);
            return self.mend_last();
        }
        let mut whole = HEAD;
        self.each_from(number, HEAD, |at, body| {
            whole = at + BESIDE + body.len() as u64;
            Ok(true)
        })
        .or_else(|error| if is_damage(&error) { Ok(()) } else { Err(error) })?;
        let path = self.path(number);
        let file = OpenOptions::new().append(true).open(&path).map_err(named(&path))?;
        file.set_len(whole).map_err(named(&path))?;
        self.last = Some(file);
        self.lengths.insert(number, whole);
        Ok(length - whole)
    }

    /// Returns whether a segment's head is zeros: a power cut came before it was on the disk, and so before any record.
    fn is_blank(&self, number: u64) -> io::Result<bool> {
        let mut found = [0; HEAD as usize];
        File::open(self.path(number))?.read_exact(&mut found)?;
        Ok(found.iter().all(|byte| *byte == 0))
    }

    /// The file of a segment.
    pub fn path(&self, number: u64) -> PathBuf {
        self.folder.join(format!("{number:020}"))
    }

    /// The segments, by the numbers of their first records, with their lengths in bytes.
    pub fn lengths(&self) -> &BTreeMap<u64, u64> {
        &self.lengths
    }

    /// Appends a record, which has this number. Returns the segment and where the record begins in it. It is on the disk after `sync`.
    pub fn append(&mut self, number: u64, body: &[u8]) -> io::Result<(u64, u64)> {
        let is_full = self.lengths.last_key_value().is_none_or(|(_, length)| *length >= self.longest);
        if is_full || self.last.is_none() {
            self.begin(number)?;
        }
        let framed = framed(body)?;
        let segment = self
            .lengths
            .last_key_value()
            .map(|(number, _)| self.path(*number))
            .unwrap_or_default();
        let (Some(file), Some(mut last)) = (&mut self.last, self.lengths.last_entry()) else {
            return Err(io::Error::other("a segment was begun"));
        };
        file.write_all(&framed).map_err(not_stored(&segment))?;
        let at = *last.get();
        *last.get_mut() += framed.len() as u64;
        self.is_dirty = true;
        Ok((*last.key(), at))
    }

    /// Begins a segment: the one before is whole on the disk first, and the folder has the new one's name.
    fn begin(&mut self, number: u64) -> io::Result<()> {
        self.sync()?;
        let path = self.path(number);
        let mut file = OpenOptions::new()
            .create_new(true)
            .append(true)
            .open(&path)
            .map_err(not_stored(&path))?;
        file.write_all(&head(&self.genesis)).map_err(not_stored(&path))?;
        if self.syncs {
            file.sync_all().map_err(not_stored(&path))?;
            sync_folder(&self.folder)?;
        }
        self.last = Some(file);
        self.lengths.insert(number, HEAD);
        Ok(())
    }

    /// Waits until the disk has all records.
    pub fn sync(&mut self) -> io::Result<()> {
        if std::mem::take(&mut self.is_dirty)
            && self.syncs
            && let (Some(file), Some((number, _))) = (&self.last, self.lengths.last_key_value())
        {
            file.sync_data().map_err(not_stored(&self.path(*number)))?;
        }
        Ok(())
    }

    /// Removes the last segment where it has no record and the next record, of this number, is not the one that it was begun for: a power
    /// cut took those that were written to it.
    pub fn remove_empty(&mut self, next: u64) -> io::Result<()> {
        if let Some((&number, &length)) = self.lengths.last_key_value()
            && length <= HEAD
            && number != next
        {
            let path = self.path(number);
            fs::remove_file(&path).map_err(named(&path))?;
            self.lengths.remove(&number);
            self.last = None;
        }
        Ok(())
    }

    /// Removes a whole segment; the last one stays.
    pub fn remove(&mut self, number: u64) -> io::Result<()> {
        if self.lengths.last_key_value().is_some_and(|(last, _)| *last != number) && self.lengths.remove(&number).is_some() {
            fs::remove_file(self.path(number)).map_err(named(&self.folder))?;
        }
        Ok(())
    }

    /// Reads a segment's records from a place on, with where each begins, until there is none, or the reader has enough of them. A record
    /// with a wrong checksum is `InvalidData`, which names file and place.
    pub fn each_from(&self, segment: u64, begin: u64, mut each: impl FnMut(u64, &[u8]) -> io::Result<bool>) -> io::Result<()> {
        let (path, length) = (self.path(segment), self.lengths.get(&segment).copied().unwrap_or(0));
        let mut file = io::BufReader::with_capacity(256 << 10, File::open(&path).map_err(named(&path))?);
        let mut found = [0; HEAD as usize];
        file.read_exact(&mut found)?;
        if found != head(&self.genesis) {
            return Err(foreign(&path));
        }
        file.seek(SeekFrom::Start(begin))?;
        let (mut at, mut body) = (begin, Vec::new());
        while at < length {
            read_record(&mut file, length - at, &mut body).map_err(|error| damaged(error, &path, at))?;
            if !each(at, &body)? {
                return Ok(());
            }
            at += BESIDE + body.len() as u64;
        }
        Ok(())
    }
}

/// Reads one record of at most so many bytes into a buffer.
fn read_record(file: &mut impl Read, left: u64, body: &mut Vec<u8>) -> io::Result<()> {
    let mut beside = [0; BESIDE as usize];
    if left < BESIDE {
        return Err(io::ErrorKind::InvalidData.into());
    }
    file.read_exact(&mut beside)?;
    let [lengths, sum] = [0, 4].map(|at| u32::from_be_bytes([beside[at], beside[at + 1], beside[at + 2], beside[at + 3]]));
    if u64::from(lengths) > left - BESIDE {
        return Err(io::ErrorKind::InvalidData.into());
    }
    body.resize(lengths as usize, 0);
    file.read_exact(body)?;
    if sum_of(lengths, body) != sum {
        return Err(io::ErrorKind::InvalidData.into());
    }
    Ok(())
}

fn sum_of(length: u32, body: &[u8]) -> u32 {
    let mut sum = crc32fast::Hasher::new();
    sum.update(&length.to_be_bytes());
    sum.update(body);
    sum.finalize()
}

fn framed(body: &[u8]) -> io::Result<Vec<u8>> {
    let length = u32::try_from(body.len()).map_err(|_| io::Error::other("a record of 4 GiB"))?;
    let mut framed = Vec::with_capacity(body.len() + BESIDE as usize);
    framed.extend_from_slice(&length.to_be_bytes());
    framed.extend_from_slice(&sum_of(length, body).to_be_bytes());
    framed.extend_from_slice(body);
    Ok(framed)
}

fn head(genesis: &[u8; 32]) -> [u8; HEAD as usize] {
    let mut head = [0; HEAD as usize];
    head[..8].copy_from_slice(NAME);
    head[8] = VERSION;
    head[9..41].copy_from_slice(genesis);
    let sum = crc32fast::hash(&head[..41]);
    head[41..].copy_from_slice(&sum.to_be_bytes());
    head
}

fn number_of(name: &std::ffi::OsStr) -> Option<u64> {
    let name = name.to_str()?;
    (name.len() == 20 && name.bytes().all(|it| it.is_ascii_digit())).then(|| name.parse().ok())?
}

/// Returns whether a file's name is that of a segment.
pub fn is_segment(name: &std::ffi::OsStr) -> bool {
    number_of(name).is_some()
}

/// Returns whether an error says that records are damaged, and the disk did read them.
pub fn is_damage(error: &io::Error) -> bool {
    matches!(error.kind(), io::ErrorKind::InvalidData | io::ErrorKind::UnexpectedEof)
}

fn damaged(error: io::Error, path: &Path, at: u64) -> io::Error {
    if is_damage(&error) {
        return io::Error::new(
            io::ErrorKind::InvalidData,
            format!("{} is damaged after {at} bytes: put back a whole copy of this file", path.display()),
        );
    }
    named(path)(error)
}

fn foreign(path: &Path) -> io::Error {
    io::Error::other(format!(
        "{} is no file of blocks of this network and epoch: move it away",
        path.display()
    ))
}

fn sync_folder(folder: &Path) -> io::Result<()> {
    let folder = if folder.as_os_str().is_empty() { Path::new(".") } else { folder };
    File::open(folder).and_then(|it| it.sync_all()).map_err(not_stored(folder))
}

#[cfg(test)]
mod tests {
    use super::*;
    use crate::trace::scratch;

    fn open(folder: &Path) -> (Segments, u64) {
        Segments::open(folder, [7; 32], 300, true).expect("a disk")
    }

    fn bodies(segments: &Segments) -> Vec<Vec<u8>> {
        let mut found = Vec::new();
        for segment in segments.lengths().keys() {
            let read = segments.each_from(*segment, HEAD, |_, body| {
                found.push(body.to_vec());
                Ok(true)
            });
            read.expect("good records");
        }
        found
    }

    #[test]
    fn records_are_found_in_order_in_segments_and_after_a_restart() {
        let folder = scratch("segments-order").join("new");
        let written: Vec<Vec<u8>> = (0..20).map(|it| vec![it; 50 + usize::from(it)]).collect();
        let mut segments = open(&folder).0;
        for (number, body) in (0..).zip(&written) {
            segments.append(number, body).expect("a disk");
        }
        segments.sync().expect("a disk");
        assert!(segments.lengths().len() > 3);
        assert_eq!(bodies(&segments), written);
        let (again, cut) = open(&folder);
        assert_eq!((bodies(&again), cut), (written, 0));
    }

    #[test]
    fn a_last_record_that_is_cut_anywhere_or_has_holes_is_cut_away_and_no_other() {
        let folder = scratch("segments-cut");
        let mut segments = open(&folder).0;
        segments.append(0, &[1; 40]).expect("a disk");
        let (_, at) = segments.append(1, &[2; 60]).expect("a disk");
        let bytes = fs::read(segments.path(0)).expect("a segment");
        let mut torn: Vec<Vec<u8>> = (at as usize + 1..bytes.len()).map(|end| bytes[..end].to_vec()).collect();
        let mut with_hole = bytes.clone();
        with_hole[at as usize + 20..].fill(0);
        torn.push(with_hole);
        torn.push([&bytes[..at as usize], &[0; 4096][..]].concat());
        for it in torn {
            fs::write(segments.path(0), &it).expect("a disk");
            let (mut again, cut) = open(&folder);
            assert_eq!((bodies(&again), cut), (vec![vec![1; 40]], it.len() as u64 - at));
            again.append(1, &[3; 5]).expect("a disk");
            assert_eq!(bodies(&again), [vec![1; 40], vec![3; 5]]);
        }
    }

    #[test]
    fn a_record_that_is_damaged_in_an_earlier_segment_is_named() {
        let folder = scratch("segments-damage");
        let mut segments = open(&folder).0;
        for number in 0..10 {
            segments.append(number, &[number as u8; 100]).expect("a disk");
        }
        let path = segments.path(0);
        let mut bytes = fs::read(&path).expect("a segment");
        bytes[HEAD as usize + 50] ^= 1;
        fs::write(&path, bytes).expect("a disk");
        let again = open(&folder).0;
        let error = again.each_from(0, HEAD, |_, _| Ok(true)).expect_err("it is damaged");
        assert!(
            is_damage(&error) && error.to_string().contains("is damaged after 45 bytes"),
            "{error}"
        );
    }

    #[test]
    fn segments_of_another_network_and_other_files_are_refused() {
        let folder = scratch("segments-other");
        let mut segments = open(&folder).0;
        segments.append(0, &[1; 40]).expect("a disk");
        let other = Segments::open(&folder, [8; 32], 300, true).expect_err("it is refused");
        assert!(other.to_string().contains("move it away"), "{other}");
        fs::write(folder.join("notes"), "mine").expect("a disk");
        assert!(Segments::open(&folder, [7; 32], 300, true).is_err());
        assert!(folder.join("notes").exists());
    }

    #[test]
    fn a_segment_is_removed_whole_and_never_the_last_one() {
        let folder = scratch("segments-remove");
        let mut segments = open(&folder).0;
        for number in 0..10 {
            segments.append(number, &[number as u8; 100]).expect("a disk");
        }
        let numbers: Vec<u64> = segments.lengths().keys().copied().collect();
        for number in &numbers {
            segments.remove(*number).expect("a disk");
        }
        assert_eq!(segments.lengths().keys().copied().collect::<Vec<_>>(), numbers[numbers.len() - 1..]);
        assert_eq!(bodies(&open(&folder).0).last().map(|it| it[0]), Some(9));
    }
}
