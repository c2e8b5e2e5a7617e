//! Snapshots of an application's state: what a manifest says of one, and the pieces that it is sent in.

use crate::block::digest;
use crate::message::Malformed;
use simplex_view_state::{Digest, View};

/// How many bytes each piece of a snapshot has, but for the last one.
pub const PIECE: usize = 256 << 10;

/// How many pieces a snapshot has at most: 4 GiB.
pub const MOST_PIECES: usize = 16 << 10;

/// The beginning of the bytes whose digest a manifest has: no block's digest is of such bytes.
const NAME: &[u8] = b"simplex snapshot";
const HEAD: usize = 8 + 8 + 32 + 8;

/// The manifest of a snapshot: its block, and the digests of its pieces. A block binds a snapshot by its manifest's digest, so the pieces
/// of one that a finalized block binds can come from anybody.
#[derive(Clone, PartialEq, Eq, Debug)]
pub struct Manifest {
    /// How many blocks the application had taken.
    pub height: u64,
    /// The last one's view.
    pub view: View,
    /// The digest of that block.
    pub payload: Digest,
    /// How many bytes the snapshot has.
    pub length: u64,
    /// The SHA-256 digest of each piece.
    pub pieces: Vec<Digest>,
}

impl Manifest {
    /// The manifest of a snapshot after a block, whose bytes are these.
    ///
    /// # Errors
    ///
    /// Where it has more than [`MOST_PIECES`] pieces.
    pub fn of(height: u64, view: View, payload: Digest, bytes: &[u8]) -> Result<Manifest, Malformed> {
        let pieces: Vec<Digest> = bytes.chunks(PIECE).map(digest).collect();
        let it = Manifest {
            height,
            view,
            payload,
            length: bytes.len() as u64,
            pieces,
        };
        it.is_whole().then_some(it).ok_or(Malformed("a snapshot has too many pieces"))
    }

    fn is_whole(&self) -> bool {
        self.pieces.len() <= MOST_PIECES && self.pieces.len() as u64 == self.length.div_ceil(PIECE as u64)
    }

    /// The digest that a block binds the snapshot by.
    pub fn digest(&self) -> Digest {
        digest(&[NAME, &self.encode()].concat())
    }

    /// How many bytes a piece has; 0 where there is none.
    pub fn length_of(&self, index: u32) -> usize {
        let begin = u64::from(index) * PIECE as u64;
        (self.length.saturating_sub(begin)).min(PIECE as u64) as usize
    }

    /// Returns whether bytes are a piece.
    pub fn is_piece(&self, index: u32, bytes: &[u8]) -> bool {
        self.pieces
            .get(index as usize)
            .is_some_and(|it| bytes.len() == self.length_of(index) && digest(bytes) == *it)
    }

    /// Its bytes.
    pub fn encode(&self) -> Vec<u8> {
        let mut bytes = Vec::with_capacity(HEAD + 32 * self.pieces.len());
        bytes.extend_from_slice(&self.height.to_be_bytes());
        bytes.extend_from_slice(&self.view.get().to_be_bytes());
        bytes.extend_from_slice(self.payload.bytes());
        bytes.extend_from_slice(&self.length.to_be_bytes());
        self.pieces.iter().for_each(|it| bytes.extend_from_slice(it.bytes()));
        bytes
    }

    /// The manifest that bytes are.
    ///
    /// # Errors
    ///
    /// Where they are none: the number of pieces is another one than the length says, or too high.
    pub fn decode(bytes: &[u8]) -> Result<Manifest, Malformed> {
        Manifest::parse(bytes)
            .filter(Manifest::is_whole)
            .ok_or(Malformed("bytes are no manifest of a snapshot"))
    }

    fn parse(bytes: &[u8]) -> Option<Manifest> {
        let (height, rest) = bytes.split_first_chunk::<8>()?;
        let (view, rest) = rest.split_first_chunk::<8>()?;
        let (payload, rest) = rest.split_first_chunk::<32>()?;
        let (length, rest) = rest.split_first_chunk::<8>()?;
        let (pieces, behind) = rest.as_chunks::<32>();
        behind.is_empty().then(|| Manifest {
            height: u64::from_be_bytes(*height),
            view: View::new(u64::from_be_bytes(*view)),
            payload: Digest::new(*payload),
            length: u64::from_be_bytes(*length),
            pieces: pieces.iter().map(|it| Digest::new(*it)).collect(),
        })
    }
}

#[cfg(test)]
mod tests {
    use super::*;

    #[test]
    fn a_manifest_is_read_as_it_was_written_and_each_bit_counts() {
        let bytes = vec![7; 2 * PIECE + 5];
        let it = Manifest::of(9, View::new(12), Digest::new([3; 32]), &bytes).expect("three pieces");
        assert_eq!(Manifest::decode(&it.encode()), Ok(it.clone()));
        assert_eq!(
            (it.pieces.len(), it.length_of(0), it.length_of(2), it.length_of(3)),
            (3, PIECE, 5, 0)
        );
        for at in 0..it.encode().len() {
            let mut changed = it.encode();
            changed[at] ^= 1;
            assert!(Manifest::decode(&changed).is_err() || Manifest::decode(&changed).is_ok_and(|other| other.digest() != it.digest()));
        }
    }

    #[test]
    fn pieces_are_taken_in_their_place_alone() {
        let bytes: Vec<u8> = (0..PIECE + 9).map(|it| (it % 251) as u8).collect();
        let it = Manifest::of(1, View::new(1), Digest::default(), &bytes).expect("two pieces");
        let (first, second) = bytes.split_at(PIECE);
        assert!(it.is_piece(0, first) && it.is_piece(1, second));
        for (index, bytes) in [(0, second), (1, first), (2, first), (1, &second[1..]), (2, &[][..])] {
            assert!(!it.is_piece(index, bytes), "piece {index}");
        }
    }

    #[test]
    fn a_manifest_of_other_than_its_pieces_is_refused() {
        let whole = Manifest::of(1, View::new(1), Digest::default(), &[1; 10]).expect("a piece");
        for length in [0, PIECE as u64 + 1, u64::MAX] {
            let it = Manifest { length, ..whole.clone() };
            assert!(Manifest::decode(&it.encode()).is_err(), "{length} bytes in one piece");
        }
        let (length, pieces) = ((MOST_PIECES * PIECE) as u64 + 1, vec![Digest::default(); MOST_PIECES + 1]);
        let long = Manifest {
            length,
            pieces,
            ..whole.clone()
        };
        assert!(Manifest::decode(&long.encode()).is_err());
        assert!(Manifest::decode(&whole.encode()[..60]).is_err());
    }
}
