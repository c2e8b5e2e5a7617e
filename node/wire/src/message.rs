//! Messages, and how they are written.

use crate::block::{Block, digest};
use crate::read;
use crate::snapshot::Manifest;
use simplex_view_state::{Certificate, Digest, FetchKind, View, Vote};
use std::fmt;

/// The version of all messages. Greetings say it, so members of two versions refuse each other.
/// From 2 on certificates are as the library makes them of votes; from 3 on both sides of a link send heartbeats; from 4 on
/// all that is signed begins with the network's name, and links are encrypted by TLS 1.3; from 5 on signatures have any length; from 6 on
/// there are snapshots; from 7 on the text of each vote begins with the network's namespace in place of its name.
pub const VERSION: u8 = 7;

/// The longest block.
pub const LONGEST_BLOCK: usize = (1 << 20) - 256;

/// How many bytes of blocks a range has at most, where one block has no more.
pub const LONGEST_RANGE: usize = 1 << 20;

/// The longest signature of a vote.
pub const LONGEST_SIGNATURE: usize = 4096;

/// Bytes that are no message, or no block.
#[derive(Clone, Copy, PartialEq, Eq, Debug)]
pub struct Malformed(pub(crate) &'static str);

impl fmt::Display for Malformed {
    fn fmt(&self, f: &mut fmt::Formatter<'_>) -> fmt::Result {
        f.write_str(self.0)
    }
}

impl std::error::Error for Malformed {}

/// A message from one member to another.
#[derive(Clone, PartialEq, Eq, Debug)]
pub enum Message {
    /// A leader's proposal: its vote to notarize it, and its block.
    Proposal(Vote, Vec<u8>),
    /// A vote.
    Vote(Vote),
    /// A certificate.
    Certificate(Certificate),
    /// A certificate is asked for: of a view, or one that leads past it.
    AskCertificate(FetchKind, View),
    /// A block of a view is asked for, by its payload's digest.
    AskBlock(View, Digest),
    /// Final blocks behind a view are asked for, up to another view or beyond.
    AskRange(View, View),
    /// Final blocks behind a view.
    Range(Range),
    /// The final blocks just behind a view are not here: the first one that is has the second view, or none is where that is 0.
    NoRange(View, View),
    /// A block.
    Block(Vec<u8>),
    /// A snapshot of the application's state is asked for.
    AskSnapshot,
    /// A snapshot is offered: its manifest, and final blocks of which the last one in the list, the lowest, binds it.
    Snapshot(Manifest, Range),
    /// A piece of the snapshot whose manifest has this digest is asked for, by its index.
    AskPiece(Digest, u32),
    /// A piece of a snapshot.
    Piece(Digest, u32, Vec<u8>),
    /// The piece is not here.
    NoPiece(Digest, u32),
}

/// Final blocks, each on the one before, up to one whose finalization comes with them.
#[derive(Clone, PartialEq, Eq, Debug)]
pub struct Range {
    /// The view behind which they were asked for.
    pub after: View,
    /// The finalization of the first one below.
    pub certificate: Certificate,
    /// The blocks, the last one first. The digests that decoded blocks carry are those of the links between them until
    /// [`Range::is_linked`].
    pub blocks: Vec<Block>,
}

impl Range {
    /// Returns whether each block has the digest that the certificate, or the block on it, names, and is below that.
    pub fn is_linked(&self) -> bool {
        let is_falling = self
            .blocks
            .windows(2)
            .all(|it| it[1].view == it[0].parent.0 && it[1].view < it[0].view);
        let is_first = self.blocks.first().is_some_and(|it| it.view == self.certificate.round().view);
        is_first && is_falling && self.blocks.iter().all(|it| digest(it.bytes()) == it.payload())
    }
}

impl Message {
    /// A member's vote, as a proposal where it has its block beside it: that of a leader's vote to notarize its own proposal.
    pub fn of_vote(vote: Vote, block: Option<&Block>) -> Message {
        match block {
            Some(block) => Message::Proposal(vote, block.bytes().to_vec()),
            None => Message::Vote(vote),
        }
    }

    /// Its bytes in a frame: their number in four bytes, and they. A signature that is longer than [`LONGEST_SIGNATURE`] is cut, so no
    /// member takes it.
    pub fn frame(&self) -> Vec<u8> {
        let mut frame = vec![0; 4];
        self.write(&mut frame);
        let length = (frame.len() - 4) as u32;
        frame[..4].copy_from_slice(&length.to_be_bytes());
        frame
    }

    fn write(&self, out: &mut Vec<u8>) {
        match self {
            Message::Proposal(vote, block) => {
                out.push(1);
                write_vote(out, vote);
                out.extend_from_slice(block);
            }
            Message::Vote(vote) => {
                out.push(2);
                write_vote(out, vote);
            }
            Message::Certificate(it) => out.extend([&[3][..], &it.subject().encode(), it.bytes()].concat()),
            Message::AskCertificate(kind, view) => out.extend([&[4, number_of(*kind)][..], &view.get().to_be_bytes()].concat()),
            Message::AskBlock(view, payload) => out.extend([&[5][..], &view.get().to_be_bytes(), payload.bytes()].concat()),
            Message::Block(block) => {
                out.push(6);
                out.extend_from_slice(block);
            }
            Message::AskRange(after, upto) => write_views(out, 7, *after, *upto),
            Message::Range(it) => {
                out.push(8);
                write_range(out, it);
            }
            Message::NoRange(after, first) => write_views(out, 9, *after, *first),
            Message::AskSnapshot => out.push(10),
            Message::Snapshot(manifest, range) => {
                out.push(11);
                write_long(out, &manifest.encode());
                write_range(out, range);
            }
            Message::AskPiece(snapshot, index) => write_piece(out, 12, snapshot, *index, &[]),
            Message::Piece(snapshot, index, bytes) => write_piece(out, 13, snapshot, *index, bytes),
            Message::NoPiece(snapshot, index) => write_piece(out, 14, snapshot, *index, &[]),
        }
    }

    /// The message that bytes are.
    ///
    /// # Errors
    ///
    /// Where they are none. Nothing but the form is tested: signatures and digests are not.
    pub fn decode(bytes: &[u8]) -> Result<Message, Malformed> {
        read::message(bytes).ok_or(Malformed("bytes are no message"))
    }
}

fn number_of(kind: FetchKind) -> u8 {
    match kind {
        FetchKind::Notarization => 0,
        FetchKind::Nullification => 1,
        FetchKind::Decision => 2,
    }
}

fn write_views(out: &mut Vec<u8>, tag: u8, first: View, second: View) {
    out.push(tag);
    out.extend_from_slice(&first.get().to_be_bytes());
    out.extend_from_slice(&second.get().to_be_bytes());
}

/// The view, the certificate behind its length, and the blocks, each behind its length.
fn write_range(out: &mut Vec<u8>, it: &Range) {
    out.extend_from_slice(&it.after.get().to_be_bytes());
    write_long(out, &[&it.certificate.subject().encode()[..], it.certificate.bytes()].concat());
    it.blocks.iter().for_each(|block| write_long(out, block.bytes()));
}

fn write_piece(out: &mut Vec<u8>, tag: u8, snapshot: &Digest, index: u32, bytes: &[u8]) {
    out.push(tag);
    out.extend_from_slice(snapshot.bytes());
    out.extend_from_slice(&index.to_be_bytes());
    out.extend_from_slice(bytes);
}

fn write_long(out: &mut Vec<u8>, bytes: &[u8]) {
    out.extend_from_slice(&(bytes.len() as u32).to_be_bytes());
    out.extend_from_slice(bytes);
}

fn write_vote(out: &mut Vec<u8>, vote: &Vote) {
    let signature = &vote.signature[..vote.signature.len().min(LONGEST_SIGNATURE)];
    out.extend_from_slice(&vote.signer.get().to_be_bytes());
    out.extend_from_slice(&(signature.len() as u16).to_be_bytes());
    out.extend_from_slice(signature);
    out.extend_from_slice(&vote.subject.encode());
}
