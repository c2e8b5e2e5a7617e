//! How messages are read.

use crate::block::Block;
use crate::message::{LONGEST_SIGNATURE, Message, Range};
use crate::snapshot::Manifest;
use simplex_view_state::{Certificate, Digest, FetchKind, Participant, Subject, View, Vote};

/// The message that bytes are, if they are one.
pub(crate) fn message(bytes: &[u8]) -> Option<Message> {
    let (&tag, rest) = bytes.split_first()?;
    match tag {
        1 => split_vote(rest).map(|(vote, block)| Message::Proposal(vote, block.to_vec())),
        2 => split_vote(rest)
            .filter(|(_, rest)| rest.is_empty())
            .map(|(vote, _)| Message::Vote(vote)),
        3 => Subject::decode(rest).map(|(subject, bytes)| Message::Certificate(Certificate::of(subject, bytes.to_vec()))),
        4 => ask(rest),
        5 => {
            let (view, rest) = split_view(rest)?;
            Some(Message::AskBlock(view, Digest::new(rest.try_into().ok()?)))
        }
        6 => Some(Message::Block(rest.to_vec())),
        7 => views(rest).map(|(after, upto)| Message::AskRange(after, upto)),
        8 => range(rest).map(Message::Range),
        9 => views(rest).map(|(after, first)| Message::NoRange(after, first)),
        10 => rest.is_empty().then_some(Message::AskSnapshot),
        11 => {
            let (manifest, rest) = split_long(rest)?;
            Some(Message::Snapshot(Manifest::decode(manifest).ok()?, range(rest)?))
        }
        12 => piece(rest)
            .filter(|it| it.2.is_empty())
            .map(|(snapshot, index, _)| Message::AskPiece(snapshot, index)),
        13 => piece(rest).map(|(snapshot, index, bytes)| Message::Piece(snapshot, index, bytes.to_vec())),
        14 => piece(rest)
            .filter(|it| it.2.is_empty())
            .map(|(snapshot, index, _)| Message::NoPiece(snapshot, index)),
        _ => None,
    }
}

fn ask(bytes: &[u8]) -> Option<Message> {
    let (&kind, view) = bytes.split_first()?;
    let kind = match kind {
        0 => FetchKind::Notarization,
        1 => FetchKind::Nullification,
        2 => FetchKind::Decision,
        _ => return None,
    };
    Some(Message::AskCertificate(kind, View::new(u64::from_be_bytes(view.try_into().ok()?))))
}

fn split_view(bytes: &[u8]) -> Option<(View, &[u8])> {
    let (view, rest) = bytes.split_first_chunk()?;
    Some((View::new(u64::from_be_bytes(*view)), rest))
}

fn views(bytes: &[u8]) -> Option<(View, View)> {
    let (first, rest) = split_view(bytes)?;
    let (second, rest) = split_view(rest)?;
    rest.is_empty().then_some((first, second))
}

fn split_long(bytes: &[u8]) -> Option<(&[u8], &[u8])> {
    let (length, rest) = bytes.split_first_chunk::<4>()?;
    rest.split_at_checked(u32::from_be_bytes(*length) as usize)
}

fn piece(bytes: &[u8]) -> Option<(Digest, u32, &[u8])> {
    let (snapshot, rest) = bytes.split_first_chunk::<32>()?;
    let (index, rest) = rest.split_first_chunk::<4>()?;
    Some((Digest::new(*snapshot), u32::from_be_bytes(*index), rest))
}

fn range(bytes: &[u8]) -> Option<Range> {
    let (after, rest) = split_view(bytes)?;
    let (certificate, mut rest) = split_long(rest)?;
    let (subject, certificate) = Subject::decode(certificate)?;
    let Subject::Finalize(proposal) = subject else { return None };
    let (mut blocks, mut payload) = (Vec::new(), proposal.payload);
    while !rest.is_empty() {
        let (block, behind) = split_long(rest)?;
        let block = Block::of(block.to_vec(), payload).ok()?;
        payload = block.parent.1;
        blocks.push(block);
        rest = behind;
    }
    Some(Range {
        after,
        certificate: Certificate::of(subject, certificate.to_vec()),
        blocks,
    })
}

fn split_vote(bytes: &[u8]) -> Option<(Vote, &[u8])> {
    let (signer, rest) = bytes.split_first_chunk::<4>()?;
    let (length, rest) = rest.split_first_chunk::<2>()?;
    let length = usize::from(u16::from_be_bytes(*length));
    let (signature, rest) = rest.split_at_checked(length).filter(|_| length <= LONGEST_SIGNATURE)?;
    let (subject, rest) = Subject::decode(rest)?;
    let vote = Vote {
        subject,
        signer: Participant::new(u32::from_be_bytes(*signer)),
        signature: signature.to_vec(),
    };
    Some((vote, rest))
}
