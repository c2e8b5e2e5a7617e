//! The journal of a Simplex member: the entries of its record, and what is stored beside them, in one file that survives crashes.
//!
//! A member that forgets a vote may contradict it, which counts as a fault. So a vote leaves only once the entry that holds it is on the
//! disk, and a member that lost entries must never vote with its key again. This crate stores what an
//! [`Engine`](simplex_view_state::Engine) says, and returns exactly that, or refuses.
//!
//! ```
//! use simplex_identity::{Identity, members_digest};
//! use simplex_journal::Journal;
//! use simplex_view_state::{Config, Epoch, Moment, Options, Output, Participant};
//!
//! # let folder = std::env::temp_dir().join(format!("simplex-journal-example-{}", std::process::id()));
//! # let _ = std::fs::remove_dir_all(&folder);
//! let keys = [[7; 32]];
//! let me = Identity { network: "example".to_owned().try_into()?, key: keys[0], epoch: 1, term_length: 1, members: members_digest(&keys) };
//! let config = Config::new(me.namespace(), 1.try_into()?, Some(Participant::new(0)), Epoch::new(1), me.genesis());
//! let (options, now) = (Options::default(), Moment::from_millis(0));
//!
//! let (mut journal, recovered) = Journal::open(&folder, &me, true)?;   // takes the folder for this process alone
//! let mut engine = simplex_journal::engine(recovered.as_ref(), &config, &options)?;
//! while let Some(output) = engine.poll(now)? {
//!     match output {
//!         Output::Replace(entries) => journal.replace(&entries)?,      // an engine's first output, and when its record got long
//!         Output::Store(entries) => journal.append(&entries)?,
//!         Output::Vote(order) => {
//!             journal.sync()?;                                          // one sync may serve all votes of a turn
//!             // .. now sign order.text and send the vote
//! #           let _ = order;
//!         }
//!         _ => {}
//!     }
//! }
//! # drop(journal);
//! # std::fs::remove_dir_all(&folder)?;
//! # Ok::<(), Box<dyn std::error::Error>>(())
//! ```
//!
//! # What it promises
//!
//! - **Entries and what is stored beside them are one unit.** [`Journal::append`] and [`Journal::replace`] store both or neither.
//! - **A crash loses only what was not synced.** A process that ends at any instruction, and a machine that loses power, leave a journal
//!   that [`Journal::open`] reads: all that was synced, and of what was written later a beginning.
//! - **Damage is refused.** Bytes that were synced and are changed now are [`Cause::Damaged`]; so this key must not vote again, unless a
//!   whole copy of these very bytes is put back.
//! - **One process at a time, and its own journal.** A second process is refused ([`Cause::InUse`]), and so is the journal of another
//!   network, key, epoch, list of members or term length ([`Cause::Other`]).
//! - **A lost journal is not begun anew over what is left of it.** A `journal.new` without a `journal` is refused
//!   ([`Cause::ReplacementAlone`]), unless it holds only what a crash left of the bytes that are written.
//! - **After an error it does nothing more** ([`Cause::Failed`]): what is in the file is read by the next process.
//!
//! A file that was put back from an older copy is whole, and no program can tell by the file alone: compare it with what else the member
//! stored.
//!
//! # The files
//!
//! `journal` in the folder; `journal.new` while one is replaced; `lock`, whose lock the process holds. All numbers are big-endian.
//!
//! | Bytes | |
//! |---|---|
//! | 8 | `simplexj` |
//! | 1 | version, 5 |
//! | [`simplex_identity::SIZE`] | whose journal it is, [`Identity::to_bytes`](simplex_identity::Identity::to_bytes) |
//! | 32 | SHA-256 of all these |
//!
//! Pieces follow, one for each `replace` or `append`:
//!
//! | Bytes | |
//! |---|---|
//! | 1 | `0xa5` |
//! | 4, 4 | the length of the body, and its complement |
//! | 8 | how many bytes of the file were synced before this piece was written |
//! | 33 | [`Stored`](simplex_view_state::Stored) |
//! | any | entries, as [`Entries::bytes`](simplex_view_state::Entries) has them; with `Stored` the body |
//! | 32 | SHA-256 of the piece up to here, without its first byte |
//! | 1 | `0x5a` |
//!
//! # A torn tail, and damage
//!
//! A power cut leaves any of the sectors of what was not synced unwritten, in any order: the file ends early, or has zeros there. So from
//! the first piece on that is not whole the file is *torn*, and cut there, where
//!
//! - no later piece is whole that was written after those bytes had been synced, and
//! - the file ends within the piece, or one of the sectors of 512 bytes that the piece lies in is all zeros from the piece's beginning on.
//!
//! Else it is damaged. The first piece was synced before the file got its name, so it is never torn. A file system that shows old bytes of
//! other files after a power cut, in place of zeros (`data=writeback`), makes a torn tail look damaged: use none for this.

#![forbid(unsafe_code)]
#![warn(missing_docs)]

mod error;
mod format;
mod journal;
#[cfg(test)]
mod scratch;

pub use error::{BEGIN_AGAIN, Cause, JournalError, NEW_KEY};
pub use format::{HEAD, Recovered, VERSION, engine, parse};
pub use journal::{Journal, path, read};
