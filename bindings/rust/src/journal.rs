//! A member's journal on the host's disk, and the bytes beside it.

use crate::ffi;

/// New entries of a member's record, as bytes, and what to store beside the journal with them.
#[derive(Clone, PartialEq, Eq, Debug)]
pub struct Entries {
    /// The bytes to append: frames, one after another, each a length and its complement in four bytes each, the entry, and its SHA-256
    /// digest.
    pub bytes: Vec<u8>,
    /// The numbers to store beside the journal; `stored.entries` is what the next [`Member::entries_since`](crate::Member::entries_since)
    /// takes.
    pub stored: Stored,
}

/// A number of entries of a record.
#[derive(Clone, Copy, PartialEq, Eq, PartialOrd, Ord, Hash, Debug, Default)]
pub struct EntryCount(pub(crate) u64);

impl EntryCount {
    /// No entry.
    pub const ZERO: EntryCount = EntryCount(0);

    /// Makes the count of this number.
    pub const fn new(count: u64) -> EntryCount {
        EntryCount(count)
    }

    /// Returns the number.
    pub const fn get(self) -> u64 {
        self.0
    }
}

/// The numbers that a host stores beside a journal, as 33 bytes, and passes with it to a resume ([`Engine::resume`](crate::Engine::resume),
/// [`Member::resume`](crate::Member::resume)).
///
/// ```
/// use simplex_view_state::Stored;
///
/// # use simplex_view_state::{Config, Digest, Epoch, Member, Moment, Namespace};
/// # let config = Config::new(Namespace::new([1; 32]), 4.try_into()?, None, Epoch::new(1), Digest::default());
/// # let stored = Member::start(&config, Moment::default())?.stored();
/// assert_eq!(Stored::from_bytes(&stored.to_bytes()), Some(stored));
/// # Ok::<(), Box<dyn std::error::Error>>(())
/// ```
#[derive(Clone, Copy, PartialEq, Eq, Hash, Debug)]
pub struct Stored {
    /// How many entries the record had: a journal of fewer is refused.
    pub entries: EntryCount,
    closed: u64,
    retention: u64,
    least_retention: u64,
    is_pruned: bool,
}

impl Stored {
    /// The length of [`to_bytes`](Stored::to_bytes).
    pub const SIZE: usize = 33;

    /// Returns its bytes: four numbers, big-endian, and a flag.
    pub fn to_bytes(&self) -> [u8; Stored::SIZE] {
        let mut bytes = [0; Stored::SIZE];
        let numbers = [self.entries.0, self.closed, self.retention, self.least_retention];
        for (place, number) in bytes.chunks_exact_mut(8).zip(numbers) {
            place.copy_from_slice(&number.to_be_bytes());
        }
        bytes[32] = u8::from(self.is_pruned);
        bytes
    }

    /// Returns what [`to_bytes`](Stored::to_bytes) made these bytes of; `None` where it can't have made them.
    pub fn from_bytes(bytes: &[u8]) -> Option<Stored> {
        let (numbers, flag) = bytes.split_first_chunk::<32>()?;
        let mut numbers = numbers
            .chunks_exact(8)
            .map(|it| u64::from_be_bytes(it.try_into().expect("8 bytes")));
        Some(Stored {
            entries: EntryCount(numbers.next()?),
            closed: numbers.next()?,
            retention: numbers.next()?,
            least_retention: numbers.next()?,
            is_pruned: match flag {
                [0] => false,
                [1] => true,
                _ => return None,
            },
        })
    }

    pub(crate) fn of(flat: &ffi::Stored) -> Stored {
        Stored {
            entries: EntryCount(flat.entries),
            closed: flat.closed,
            retention: flat.retention,
            least_retention: flat.least_retention,
            is_pruned: flat.is_pruned != 0,
        }
    }

    pub(crate) fn flat(&self) -> ffi::Stored {
        ffi::Stored {
            entries: self.entries.0,
            closed: self.closed,
            retention: self.retention,
            least_retention: self.least_retention,
            is_pruned: u32::from(self.is_pruned),
            reserved: 0,
        }
    }
}

/// The whole entries that [`scan`] finds in the bytes of a journal.
#[derive(Clone, Copy, PartialEq, Eq, Hash, Debug)]
pub struct Scan {
    /// The number of whole entries at its start.
    pub entries: EntryCount,
    /// The length of those entries in bytes. Truncate a journal that is [`Cut`](Ending::Cut) to it.
    pub bytes: usize,
    /// How the journal ends after them.
    pub ending: Ending,
}

/// How a journal ends after its whole entries.
#[derive(Clone, Copy, PartialEq, Eq, Hash, Debug)]
pub enum Ending {
    /// Nothing comes after them.
    Whole,
    /// The journal ends within an entry, as after a crash amid an append: truncate it to [`Scan::bytes`], and resume. An entry that has all
    /// its bytes is never reported so, whatever was changed in it, unless its length and the complement were changed alike.
    Cut,
    /// Bytes of the entry after them were changed. Such a member must not resume: it could vote twice.
    Damaged,
}

/// Returns how many entries of a journal are whole, and how it ends after them.
///
/// ```
/// use simplex_view_state::{Ending, scan};
///
/// assert_eq!(scan(&[]).ending, Ending::Whole);
/// assert_eq!(scan(&[0, 0, 0]).ending, Ending::Cut);
/// assert_eq!(scan(&[0; 40]).ending, Ending::Damaged);
/// ```
pub fn scan(journal: &[u8]) -> Scan {
    // SAFETY: the slice is borrowed for the call.
    let scan = unsafe { ffi::simplex_scan(journal.as_ptr(), journal.len()) };
    Scan {
        entries: EntryCount(scan.entries),
        bytes: scan.bytes as usize,
        ending: match scan.ending {
            0 => Ending::Whole,
            1 => Ending::Cut,
            _ => Ending::Damaged,
        },
    }
}
