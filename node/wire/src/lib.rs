//! The messages between members of a Simplex network, as bytes.
//!
//! A [`Message`] is a vote, a proposal with its block, a certificate, a block, a range of final blocks, a snapshot of an application's
//! state in pieces, or a request for one of them. A [`Block`] has a head that names its view and its parent, and content of the
//! application. Messages go in frames, over any stream of bytes.
//!
//! ```
//! use simplex_view_state::{Context, Digest, Epoch, Participant, Proposal, Round, Subject, View, Vote};
//! use simplex_wire::{Block, Message, read_frame};
//!
//! let round = Round { epoch: Epoch::new(1), view: View::new(1) };
//! let context = Context { round, leader: Participant::new(1), parent: View::GENESIS, parent_payload: Digest::default() };
//! let block = Block::new(&context, b"a payment");
//! let proposal = Proposal { round, parent: context.parent, payload: block.payload() };
//! let vote = Vote { subject: Subject::Notarize(proposal), signer: context.leader, signature: vec![7; 64] };
//!
//! let mut stream = Vec::new();                                          // a TCP stream, say
//! stream.extend(Message::Proposal(vote, block.bytes().to_vec()).frame());
//!
//! let frame = read_frame(&mut &stream[..])?.expect("no heartbeat");
//! let Message::Proposal(vote, bytes) = Message::decode(&frame)? else { panic!("it is a proposal") };
//! // Verify vote.signature on vote.subject.text(&namespace), and that the block is the one that it names:
//! let received = Block::decode(bytes)?;
//! assert!(vote.proposal().is_some_and(|it| it.payload == received.payload() && received.is_of(&it)));
//! assert_eq!(received.content(), b"a payment");
//! # Ok::<(), Box<dyn std::error::Error>>(())
//! ```
//!
//! # What it promises
//!
//! - **One text each**: what is decoded encodes to the same bytes, and no other bytes decode to it.
//! - **Bounded**: [`read_frame`] reads at most [`LONGEST`] bytes, and no message takes more memory than some times its bytes.
//! - **No trust**: nothing is verified but the form. Signatures, digests and links are the host's to verify; [`Range::is_linked`] does so
//!   for
//!   the links of a range.
//! - **Versioned**: members say [`VERSION`] in their greeting, and those of two versions refuse each other.
//!
//! # The bytes
//!
//! Numbers are big-endian. A frame is the length of a message in four bytes, and the message; a frame of length 0 is a heartbeat. A message
//! begins with a byte that says its kind:
//!
//! | | Message | Behind the kind |
//! |---|---|---|
//! | 1 | [`Message::Proposal`] | a vote, and the block |
//! | 2 | [`Message::Vote`] | a vote: the signer in four bytes, the signature's length in two, the signature, the subject's text |
//! | 3 | [`Message::Certificate`] | the text of its subject, and its bytes |
//! | 4 | [`Message::AskCertificate`] | 0 a notarization, 1 a nullification, 2 what decided the view; the view in eight |
//! | 5 | [`Message::AskBlock`] | the view, and the digest |
//! | 6 | [`Message::Block`] | the block |
//! | 7 | [`Message::AskRange`] | two views |
//! | 8 | [`Message::Range`] | the view, the certificate as in 3 behind its length in four bytes, and each block behind its length |
//! | 9 | [`Message::NoRange`] | two views |
//! | 10 | [`Message::AskSnapshot`] | |
//! | 11 | [`Message::Snapshot`] | the manifest behind its length in four bytes, and the rest as in 8 |
//! | 12, 13, 14 | [`Message::AskPiece`], [`Message::Piece`], [`Message::NoPiece`] | the digest, the index in four bytes, and the piece in 13 |
//!
//! The manifest of a snapshot is its height, view, block and length, and the digests of its pieces.
//!
//! A block is its view, its parent's view, its parent's digest (32 bytes), when it was built in microseconds since 1970, and its content.
//! Its digest is SHA-256 of all these.

#![forbid(unsafe_code)]
#![warn(missing_docs)]

mod block;
mod frame;
mod message;
mod read;
mod snapshot;

pub use block::{Block, digest, now_us};
pub use frame::{HEARTBEAT_FRAME, LONGEST, read_frame, read_message};
pub use message::{LONGEST_BLOCK, LONGEST_RANGE, LONGEST_SIGNATURE, Malformed, Message, Range, VERSION};
pub use snapshot::{MOST_PIECES, Manifest, PIECE};
