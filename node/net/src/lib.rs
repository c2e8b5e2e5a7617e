//! Links between the members of a Simplex network, over TCP.
//!
//! A member sends over the connections that it began, in frames of bytes. Links are TLS 1.3: both sides show the
//! keys of members, and then say the settings that they must share. Members may be hostile, and strangers may connect: neither can keep
//! another member out, or take more of this host than its share.
//!
//! ```
//! use simplex_net::{Address, Connection, Credentials, Greeting, Members, Peers, Places, Receiver};
//! use simplex_view_state::Participant;
//! use std::sync::{Arc, mpsc::{Sender, channel}};
//! use std::time::Duration;
//!
//! /// Passes frames on as they are. A real one decodes and verifies them here, on the connection's own thread.
//! struct Inbox { from: Participant, to: Sender<(Participant, Vec<u8>)> }
//!
//! impl Connection for Inbox {
//!     type Message = Vec<u8>;
//!     fn verify(&mut self, frame: &[u8]) -> std::io::Result<Option<Vec<u8>>> { Ok(Some(frame.to_vec())) }
//!     fn take(&mut self, frame: Vec<u8>, _: usize) -> bool { self.to.send((self.from, frame)).is_ok() }
//! }
//!
//! struct Inboxes(Sender<(Participant, Vec<u8>)>);
//!
//! impl Receiver for Inboxes {
//!     type Connection = Inbox;
//!     fn connection(&self, from: Participant) -> Inbox { Inbox { from, to: self.0.clone() } }
//! }
//!
//! let secrets = [[1; 32], [2; 32]];                                       // each member has its own
//! # let public_of = |it: &[u8; 32]| openssl::pkey::PKey::private_key_from_raw_bytes(it, openssl::pkey::Id::ED25519)
//! #     .and_then(|it| it.raw_public_key()).map(|it| <[u8; 32]>::try_from(it).expect("32 bytes"));
//! let keys = [public_of(&secrets[0])?, public_of(&secrets[1])?];          // the members' public keys
//! let greeting = Greeting::new(&[("network", "example"), ("epoch", "1")]);
//! # let port = || std::net::TcpListener::bind("127.0.0.1:0").and_then(|it| it.local_addr()).map(|it| it.port());
//! # let addresses = vec![format!("localhost:{}", port()?), format!("localhost:{}", port()?)];
//! let members: Vec<Address> = addresses.into_iter().map(Address::try_from).collect::<Result<_, _>>()?;
//!
//! let start = |index: u32, to| {
//!     let me = Members::of_raw_key(Participant::new(index), &secrets[index as usize], &keys)?;
//!     let credentials = Credentials::new(me, greeting.clone())?;
//!     let places = Places { listen: members[index as usize].clone(), members: members.clone(), delay: Duration::ZERO };
//!     Peers::start(&places, credentials, Inboxes(to), Arc::new(()))
//! };
//! let (to_first, _) = channel();
//! let (to_second, received) = channel();
//! let (first, _second) = (start(0, to_first)?, start(1, to_second)?);
//!
//! let frame = [&5_u32.to_be_bytes()[..], b"hello"].concat();              // simplex_wire::Message::frame makes such
//! first.send(Participant::new(1), Arc::new(frame));
//! assert_eq!(received.recv()?, (Participant::new(0), b"hello".to_vec()));
//! # Ok::<(), Box<dyn std::error::Error>>(())
//! ```
//!
//! # What it promises
//!
//! - **Who it is.** A connection is a member's whose key the handshake proved; there is no authority, and no session is
//!   resumed. Nothing is sent to a process at a member's address that has another key.
//! - **One network.** Settings that differ are refused by name, at both ends ([`Greeting`]).
//! - **A place for each member.** A member has one connection, the newest. Connections that have not greeted have a
//!   small room of their own, and two seconds for the whole greeting.
//! - **Bounds in bytes.** What waits for a member has at most 8 MiB, and a frame that does not fit is dropped. A member
//!   that sends more than 16 MB or 5,000 frames a second, or takes more than half a processor to verify, is read
//!   slower.
//! - **A turn for each member.** An [`Inbox`] has a bounded queue for each member, from which one thread takes
//!   round-robin.
//! - **Silence ends a link.** Heartbeats go both ways; a link that is silent for [`SILENCE`] is begun anew, with the
//!   name resolved again.
//! - **Forgers** ([`Connection::verify`] says `PermissionDenied`) are refused for a second, which doubles up to a
//!   minute.
//!
//! Frames may be lost, and those of two connections of one member come in any order: ask again for what matters.

#![forbid(unsafe_code)]
#![warn(missing_docs)]

mod accept;
mod address;
mod budget;
mod greeting;
mod inbox;
mod link;
mod members;
mod peers;
mod receive;
mod send_queue;
mod session;
mod tls;
mod watch;

pub use address::Address;
pub use budget::Bucket;
pub use greeting::Greeting;
pub use inbox::{Inbox, Put};
pub use link::HEARTBEAT;
pub use members::Members;
pub use peers::{Peers, Places};
pub use receive::{Connection, Receiver};
pub use session::{Credentials, GREETING, SILENCE, Session};
pub use watch::Watch;
