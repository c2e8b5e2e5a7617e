//! The ed25519 keys of the members of a Simplex network: what is signed, by whom, and whether it is good.
//!
//! Each text of a vote begins with the network's namespace. [`PublicKeys`] verifies votes and certificates; [`Keys`] has this member's secret key
//! beside them, signs its votes, and says whose journal and whose links these are. [`Messages`] verifies what members send, on the threads of
//! their links.
//!
//! ```
//! use simplex_keys::{Keys, public_key};
//! use simplex_view_state::{Epoch, Participant, Round, Subject, View, Vote};
//!
//! let secrets = [[1; 32], [2; 32], [3; 32], [4; 32]];                     // each member draws its own, and shows it to nobody
//! let public = secrets.iter().map(public_key).collect::<Result<Vec<_>, _>>()?;
//! let keys = Keys::new("payments-1".to_owned().try_into()?, 1, 1, Participant::new(2), &secrets[2], &public)?;
//!
//! let subject = Subject::Nullify(Round { epoch: Epoch::new(1), view: View::new(7) });
//! let vote = Vote { subject, signer: keys.me(), signature: keys.sign(&subject.text(keys.public().namespace()))? };
//! assert!(keys.public().is_vote(&vote));
//! assert!(!keys.public().is_vote(&Vote { signer: Participant::new(1), ..vote }));
//! # Ok::<(), Box<dyn std::error::Error>>(())
//! ```

#![forbid(unsafe_code)]
#![warn(missing_docs)]

mod keys;
mod messages;
mod public;

pub use keys::{Keys, public_key};
pub use messages::{FromMember, Messages};
pub use public::{PublicKeys, SIGNATURE};
