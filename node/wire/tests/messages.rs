//! Messages that are written are read back, and other bytes are refused.

use simplex_view_state::{Certificate, Context, Digest, Epoch, FetchKind, Participant, Proposal, Round, Subject, View, Vote};
use simplex_wire::{
    Block, LONGEST, LONGEST_BLOCK, LONGEST_SIGNATURE, MOST_PIECES, Manifest, Message, PIECE, Range, digest, read_frame, read_message,
};

fn messages() -> Vec<Message> {
    let round = Round {
        epoch: Epoch::new(3),
        view: View::new(9),
    };
    let proposal = Proposal {
        round,
        parent: View::new(8),
        payload: digest(b"a block"),
    };
    let vote = |subject| Vote {
        subject,
        signer: Participant::new(2),
        signature: vec![5; 64],
    };
    let subjects = [Subject::Notarize(proposal), Subject::Nullify(round), Subject::Finalize(proposal)];
    let mut all = vec![
        Message::AskRange(View::new(8), View::new(99)),
        Message::NoRange(View::new(8), View::GENESIS),
        Message::AskBlock(View::new(8), proposal.payload),
        Message::Block(vec![1, 2]),
        Message::AskSnapshot,
        Message::AskPiece(proposal.payload, 7),
        Message::Piece(proposal.payload, 7, vec![1, 2]),
        Message::NoPiece(proposal.payload, 7),
    ];
    all.push(Message::Proposal(vote(subjects[0]), vec![7; 100]));
    all.extend(subjects.map(|it| Message::Vote(vote(it))));
    all.extend(subjects.map(|it| Message::Certificate(Certificate::of(it, vec![4; 228]))));
    let kinds = [FetchKind::Notarization, FetchKind::Nullification, FetchKind::Decision];
    all.extend(kinds.map(|it| Message::AskCertificate(it, View::new(77))));
    all
}

#[test]
fn what_is_written_is_read() {
    for message in messages() {
        let frame = message.frame();
        assert_eq!(Message::decode(&frame[4..]).as_ref(), Ok(&message));
    }
}

/// A chain of blocks, the last one first, and the finalization of that.
fn range(blocks: u64) -> Range {
    let (mut parent, mut chain) = ((View::GENESIS, Digest::default()), Vec::new());
    for view in 1..=blocks {
        let context = Context {
            round: Round {
                epoch: Epoch::new(3),
                view: View::new(view),
            },
            leader: Participant::new(0),
            parent: parent.0,
            parent_payload: parent.1,
        };
        let block = Block::new(&context, &[blocks as u8; 9]);
        parent = (block.view, block.payload());
        chain.insert(0, block);
    }
    let proposal = Proposal {
        round: Round {
            epoch: Epoch::new(3),
            view: parent.0,
        },
        parent: View::new(blocks - 1),
        payload: parent.1,
    };
    Range {
        after: View::GENESIS,
        certificate: Certificate::of(Subject::Finalize(proposal), vec![4; 228]),
        blocks: chain,
    }
}

#[test]
fn a_range_that_is_written_is_read_and_one_with_another_block_is_not_linked() {
    let it = range(5);
    let bytes = Message::Range(it.clone()).frame();
    let Ok(Message::Range(read)) = Message::decode(&bytes[4..]) else {
        panic!("it is a range")
    };
    assert_eq!((&read.blocks, read.certificate.bytes()), (&it.blocks, it.certificate.bytes()));
    assert!(read.is_linked());
    for place in 0..5 {
        let mut other = it.clone();
        other.blocks[place] = range(6).blocks[place + 1].clone();
        let bytes = Message::Range(other).frame();
        let Ok(Message::Range(read)) = Message::decode(&bytes[4..]) else {
            panic!("it is a range")
        };
        assert!(!read.is_linked(), "block {place}");
    }
    assert!(Message::decode(&bytes[4..bytes.len() - 1]).is_err());
}

#[test]
fn a_snapshot_of_the_most_pieces_and_the_longest_piece_are_messages() {
    let manifest = Manifest {
        height: 1,
        view: View::new(1),
        payload: Digest::default(),
        length: (MOST_PIECES * PIECE) as u64,
        pieces: vec![Digest::default(); MOST_PIECES],
    };
    let offer = Message::Snapshot(manifest, range(1));
    let piece = Message::Piece(Digest::default(), 0, vec![0; PIECE]);
    for message in [offer, piece] {
        let frame = message.frame();
        assert!(frame.len() - 4 <= LONGEST);
        assert_eq!(Message::decode(&frame[4..]), Ok(message));
    }
}

#[test]
fn a_proposal_of_the_longest_block_is_a_message() {
    let proposals = messages().into_iter().filter_map(|it| match it {
        Message::Proposal(vote, _) => Some(vote),
        _ => None,
    });
    for vote in proposals {
        let frame = Message::Proposal(vote, vec![0; LONGEST_BLOCK]).frame();
        assert!(frame.len() - 4 <= LONGEST);
    }
    assert!(Message::Block(vec![0; LONGEST_BLOCK]).frame().len() - 4 <= LONGEST);
}

#[test]
fn a_beginning_of_a_message_of_one_length_is_refused() {
    let is_of_one_length = |it: &Message| {
        !matches!(
            it,
            Message::Proposal(..) | Message::Certificate(_) | Message::Block(_) | Message::Piece(..)
        )
    };
    for message in messages().into_iter().filter(is_of_one_length) {
        let frame = message.frame();
        assert!(Message::decode(&frame[4..frame.len() - 1]).is_err(), "{message:?}");
    }
}

#[test]
fn signatures_have_any_length_up_to_the_longest() {
    for length in [0, 1, 48, 64, 96, LONGEST_SIGNATURE] {
        let vote = Vote {
            subject: Subject::Nullify(Round::default()),
            signer: Participant::new(3),
            signature: vec![9; length],
        };
        let frame = Message::Vote(vote.clone()).frame();
        assert_eq!(Message::decode(&frame[4..]), Ok(Message::Vote(vote.clone())), "{length} bytes");
        // One byte more is said than is there.
        let mut other = frame[4..].to_vec();
        other[6] = other[6].wrapping_add(1);
        assert_ne!(Message::decode(&other), Ok(Message::Vote(vote)));
    }
    let mut long = Message::Vote(Vote {
        subject: Subject::Nullify(Round::default()),
        signer: Participant::new(3),
        signature: vec![9; LONGEST_SIGNATURE],
    })
    .frame()[4..]
        .to_vec();
    long[5..7].copy_from_slice(&(LONGEST_SIGNATURE as u16 + 1).to_be_bytes());
    long.insert(7, 9);
    assert!(Message::decode(&long).is_err());
}

#[test]
fn a_stream_is_read_frame_by_frame_and_a_frame_that_is_too_long_is_refused() {
    let mut stream = vec![0; 8];
    messages().iter().for_each(|it| stream.extend(it.frame()));
    let mut left = &stream[..];
    assert_eq!(read_frame(&mut left).expect("a heartbeat"), None);
    for message in messages() {
        assert_eq!(read_message(&mut left).expect("a message"), message);
    }
    assert_eq!(
        read_message(&mut left).map_err(|it| it.kind()),
        Err(std::io::ErrorKind::UnexpectedEof)
    );
    let long = [&(LONGEST as u32 + 1).to_be_bytes()[..], &[0; 100]].concat();
    assert_eq!(
        read_frame(&mut &long[..]).map_err(|it| it.kind()),
        Err(std::io::ErrorKind::InvalidData)
    );
}

/// Numbers that follow from a seed: xorshift.
struct Random(u64);

impl Random {
    fn below(&mut self, most: usize) -> usize {
        self.0 ^= self.0 << 13;
        self.0 ^= self.0 >> 7;
        self.0 ^= self.0 << 17;
        (self.0 % most.max(1) as u64) as usize
    }
}

/// Changes bytes: some of them, the end, a part that is doubled or left out, or a part of another message.
fn mutate(bytes: &mut Vec<u8>, other: &[u8], random: &mut Random) {
    let (at, length) = (random.below(bytes.len() + 1), 1 + random.below(40));
    let end = (at + length).min(bytes.len());
    match random.below(6) {
        0 => bytes.truncate(at),
        1 => bytes[at..end].iter_mut().for_each(|it| *it ^= 1 << (length % 8)),
        2 => bytes[at..end].fill(if length % 2 == 0 { 0 } else { 0xff }),
        3 => drop(bytes.drain(at..end)),
        4 => {
            let part = bytes[at..end].to_vec();
            bytes.splice(at..at, part);
        }
        _ => {
            let from = random.below(other.len());
            bytes.splice(at..end, other[from..(from + length).min(other.len())].iter().copied());
        }
    }
}

/// Whatever is decoded encodes to the very bytes: so there is one text for each message, and nothing is lost or made up.
#[test]
fn changed_messages_are_refused_or_read_as_what_they_say() {
    let mut samples: Vec<Vec<u8>> = messages().iter().map(|it| it.frame()[4..].to_vec()).collect();
    samples.extend((1..4).map(|blocks| Message::Range(range(blocks)).frame()[4..].to_vec()));
    let manifest = |bytes: &[u8]| Manifest::of(9, View::new(9), digest(b"a block"), bytes).expect("few pieces");
    samples.extend([0, 1].map(|bytes| Message::Snapshot(manifest(&vec![7; bytes * PIECE + 1]), range(2)).frame()[4..].to_vec()));
    let (mut random, mut read, count) = (Random(7), 0, 200_000);
    for _ in 0..count {
        let mut bytes = samples[random.below(samples.len())].clone();
        let other = samples[random.below(samples.len())].clone();
        for _ in 0..1 + random.below(3) {
            mutate(&mut bytes, &other, &mut random);
        }
        if let Ok(message) = Message::decode(&bytes) {
            assert_eq!(message.frame()[4..], bytes);
            read += 1;
        }
    }
    assert!(read > count / 20 && read < count, "{read} of {count}");
}
