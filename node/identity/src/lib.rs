//! Who a member of a Simplex network is.
//!
//! A key may sign in several networks and epochs, and its votes must count in one of them only. So all that a member signs begins with a
//! namespace ([`Identity::namespace`]), which is another one in each network and epoch, as genesis is ([`Identity::genesis`]). What a member
//! stores says whose it is ([`Identity::to_bytes`]).
//!
//! ```
//! use simplex_identity::{Identity, NetworkName, members_digest};
//!
//! let network: NetworkName = "payments-1".to_owned().try_into()?;
//! let keys = [[3; 32], [4; 32]];                       // all members' public keys, in order
//! let me = Identity { network, key: keys[0], epoch: 1, term_length: 1, members: members_digest(&keys) };
//!
//! let next = Identity { epoch: 2, ..me.clone() };
//! assert_ne!(me.namespace(), next.namespace());
//! assert_ne!(me.genesis(), next.genesis());
//! let difference = me.differs_from(&next).expect("the epoch");
//! assert!(difference.to_string().contains("epoch 1"));
//! # Ok::<(), Box<dyn std::error::Error>>(())
//! ```
//!
//! With the feature `serde` a [`NetworkName`] is read from settings.

#![forbid(unsafe_code)]
#![warn(missing_docs)]

mod identity;
mod network_name;

pub use identity::{Difference, Identity, SIZE, hex, members_digest};
pub use network_name::{LONGEST, NetworkName};
