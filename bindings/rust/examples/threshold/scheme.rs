//! A toy threshold scheme: Shamir's shares over a prime field, with a product in place of a pairing. **It protects nothing**: whoever can
//! verify can sign, and the dealer's secret is in this file.

use simplex_view_state::Participant;
use std::hash::{DefaultHasher, Hasher};

/// How many members there are.
pub const MEMBERS: u32 = 4;
/// How many shares make a signature: the votes in a certificate, n - f.
pub const QUORUM: usize = 3;
/// The bytes of a signature, and of a share.
pub const SIZE: usize = 8;

const PRIME: u64 = (1 << 61) - 1;
/// The dealer's polynomial, lowest coefficient first. Its value at 0 signs for the network, and its value at i + 1 for member i.
const POLYNOMIAL: [u64; QUORUM] = [0x0123_4567_89ab_cdef, 0x0fed_cba9_8765_4321, 0x0abc_def0_1234_5678];

/// Returns a member's share of the signature on a text.
pub fn share(member: Participant, text: &[u8]) -> Vec<u8> {
    times(hash_of(text), value_at(point_of(member))).to_be_bytes().to_vec()
}

/// Returns the signature that the first [`QUORUM`] shares make; `None` where they are fewer, or one is not as long as a share.
pub fn combine(shares: &[(Participant, &[u8])]) -> Option<Vec<u8>> {
    let shares = shares.get(..QUORUM)?;
    let points: Vec<u64> = shares.iter().map(|(member, _)| point_of(*member)).collect();
    let mut sum = 0;
    for ((_, share), point) in shares.iter().zip(&points) {
        let share = u64::from_be_bytes((*share).try_into().ok()?);
        sum = plus(sum, times(share % PRIME, weight_of(*point, &points)));
    }
    Some(sum.to_be_bytes().to_vec())
}

/// Returns whether these bytes are the signature on a text.
pub fn is_signature(text: &[u8], bytes: &[u8]) -> bool {
    bytes == times(hash_of(text), value_at(0)).to_be_bytes()
}

/// Where the polynomial has a member's share: not at 0, which is the secret.
fn point_of(member: Participant) -> u64 {
    u64::from(member.get()) + 1
}

fn value_at(point: u64) -> u64 {
    POLYNOMIAL.iter().rev().fold(0, |sum, it| plus(times(sum, point), it % PRIME))
}

/// Lagrange's weight of a point for the value at 0.
fn weight_of(point: u64, points: &[u64]) -> u64 {
    let others = points.iter().filter(|it| **it != point);
    others.fold(1, |product, other| {
        times(product, times(*other, inverse(plus(*other, PRIME - point))))
    })
}

/// The inverse, by Fermat's little theorem.
fn inverse(number: u64) -> u64 {
    let (mut power, mut square, mut left) = (1, number, PRIME - 2);
    while left > 0 {
        if left % 2 == 1 {
            power = times(power, square);
        }
        square = times(square, square);
        left /= 2;
    }
    power
}

fn plus(one: u64, other: u64) -> u64 {
    (one % PRIME + other % PRIME) % PRIME
}

fn times(one: u64, other: u64) -> u64 {
    (u128::from(one) * u128::from(other) % u128::from(PRIME)) as u64
}

fn hash_of(text: &[u8]) -> u64 {
    let mut hasher = DefaultHasher::new();
    hasher.write(text);
    hasher.finish() % PRIME
}
