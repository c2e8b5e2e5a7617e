//! Views, epochs, members, namespaces, digests and moments.

use crate::journal::EntryCount;
use std::fmt;
use std::num::ParseIntError;
use std::str::FromStr;
use std::time::Duration;

/// Conversions between a number and what it counts, and its decimal text.
macro_rules! is_number {
    ($($name:ident: $number:ty),+) => {$(
        impl From<$number> for $name {
            fn from(number: $number) -> $name {
                $name(number)
            }
        }

        impl From<$name> for $number {
            fn from(it: $name) -> $number {
                it.0
            }
        }

        impl FromStr for $name {
            type Err = ParseIntError;

            fn from_str(text: &str) -> Result<$name, ParseIntError> {
                text.parse().map($name)
            }
        }

        impl fmt::Display for $name {
            fn fmt(&self, f: &mut fmt::Formatter<'_>) -> fmt::Result {
                self.0.fmt(f)
            }
        }
    )+};
}

is_number!(View: u64, ViewDelta: u64, Epoch: u64, EntryCount: u64, Participant: u32, Token: u64);

/// A view: one attempt to agree on a block. 0 is genesis.
#[derive(Clone, Copy, PartialEq, Eq, PartialOrd, Ord, Hash, Debug, Default)]
pub struct View(u64);

impl View {
    /// Genesis.
    pub const GENESIS: View = View(0);

    /// Makes the view of this number.
    pub const fn new(view: u64) -> View {
        View(view)
    }

    /// Returns its number.
    pub const fn get(self) -> u64 {
        self.0
    }
}

/// A number of views: a distance between two.
#[derive(Clone, Copy, PartialEq, Eq, PartialOrd, Ord, Hash, Debug, Default)]
pub struct ViewDelta(u64);

impl ViewDelta {
    /// Makes a distance of this number of views.
    pub const fn new(views: u64) -> ViewDelta {
        ViewDelta(views)
    }

    /// Returns the number of views.
    pub const fn get(self) -> u64 {
        self.0
    }
}

/// An epoch: a run of views with one set of members.
#[derive(Clone, Copy, PartialEq, Eq, PartialOrd, Ord, Hash, Debug, Default)]
pub struct Epoch(u64);

impl Epoch {
    /// Makes the epoch of this number.
    pub const fn new(epoch: u64) -> Epoch {
        Epoch(epoch)
    }

    /// Returns its number.
    pub const fn get(self) -> u64 {
        self.0
    }
}

/// A member, by its index.
#[derive(Clone, Copy, PartialEq, Eq, PartialOrd, Ord, Hash, Debug)]
pub struct Participant(u32);

impl Participant {
    /// Makes the member of this index.
    pub const fn new(index: u32) -> Participant {
        Participant(index)
    }

    /// Returns its index.
    pub const fn get(self) -> u32 {
        self.0
    }
}

/// The namespace of a network: each text that its members sign begins with these bytes.
///
/// In two networks with one namespace the signatures of one count in the other, so choose a digest of all that distinguishes the network:
/// its name, its epoch and its members' public keys, say. All members need the same one.
#[derive(Clone, Copy, PartialEq, Eq, PartialOrd, Ord, Hash)]
pub struct Namespace([u8; 32]);

impl Namespace {
    /// Makes the namespace of these bytes.
    pub const fn new(bytes: [u8; 32]) -> Namespace {
        Namespace(bytes)
    }

    /// Returns its bytes.
    pub const fn bytes(&self) -> &[u8; 32] {
        &self.0
    }
}

impl From<Digest> for Namespace {
    fn from(digest: Digest) -> Namespace {
        Namespace(digest.0)
    }
}

impl fmt::Display for Namespace {
    fn fmt(&self, f: &mut fmt::Formatter<'_>) -> fmt::Result {
        fmt::Display::fmt(&Digest(self.0), f)
    }
}

impl FromStr for Namespace {
    type Err = ParseDigestError;

    /// Reads what `Display` writes; upper case too.
    fn from_str(text: &str) -> Result<Namespace, ParseDigestError> {
        text.parse().map(|Digest(bytes)| Namespace(bytes))
    }
}

impl fmt::Debug for Namespace {
    fn fmt(&self, f: &mut fmt::Formatter<'_>) -> fmt::Result {
        fmt::Display::fmt(self, f)
    }
}

/// The digest of a payload.
#[derive(Clone, Copy, PartialEq, Eq, PartialOrd, Ord, Hash, Default)]
pub struct Digest([u8; 32]);

impl Digest {
    /// Makes the digest of these bytes.
    pub const fn new(bytes: [u8; 32]) -> Digest {
        Digest(bytes)
    }

    /// Returns its bytes.
    pub const fn bytes(&self) -> &[u8; 32] {
        &self.0
    }
}

impl fmt::Display for Digest {
    fn fmt(&self, f: &mut fmt::Formatter<'_>) -> fmt::Result {
        self.0.iter().try_for_each(|byte| write!(f, "{byte:02x}"))
    }
}

impl From<[u8; 32]> for Digest {
    fn from(bytes: [u8; 32]) -> Digest {
        Digest(bytes)
    }
}

/// A text is not the 64 hexadecimal digits of a digest.
#[derive(Clone, Copy, PartialEq, Eq, Debug)]
pub struct ParseDigestError;

impl fmt::Display for ParseDigestError {
    fn fmt(&self, f: &mut fmt::Formatter<'_>) -> fmt::Result {
        f.write_str("a digest is written as 64 hexadecimal digits")
    }
}

impl std::error::Error for ParseDigestError {}

impl FromStr for Digest {
    type Err = ParseDigestError;

    /// Reads what `Display` writes; upper case too.
    fn from_str(text: &str) -> Result<Digest, ParseDigestError> {
        let digits = text.as_bytes();
        if digits.len() != 64 {
            return Err(ParseDigestError);
        }
        let value = |digit: u8| (digit as char).to_digit(16).ok_or(ParseDigestError);
        let mut bytes = [0; 32];
        for (byte, pair) in bytes.iter_mut().zip(digits.chunks_exact(2)) {
            *byte = (16 * value(pair[0])? + value(pair[1])?) as u8;
        }
        Ok(Digest(bytes))
    }
}

impl fmt::Debug for Digest {
    fn fmt(&self, f: &mut fmt::Formatter<'_>) -> fmt::Result {
        fmt::Display::fmt(self, f)
    }
}

/// An epoch and a view.
#[derive(Clone, Copy, PartialEq, Eq, PartialOrd, Ord, Hash, Debug, Default)]
pub struct Round {
    /// The epoch.
    pub epoch: Epoch,
    /// The view.
    pub view: View,
}

/// A moment of the host's clock, in whole milliseconds since any moment that the host chooses. Moments never decrease within a lifetime of a
/// member; a later lifetime may choose another beginning.
#[derive(Clone, Copy, PartialEq, Eq, PartialOrd, Ord, Hash, Debug, Default)]
pub struct Moment(u64);

impl Moment {
    /// Makes the moment of this number of milliseconds.
    pub const fn from_millis(millis: u64) -> Moment {
        Moment(millis)
    }

    /// Returns its milliseconds.
    pub const fn as_millis(self) -> u64 {
        self.0
    }

    /// Returns the time from this moment until a later one; zero if the other is not later.
    pub const fn until(self, later: Moment) -> Duration {
        Duration::from_millis(later.0.saturating_sub(self.0))
    }
}

impl fmt::Display for Moment {
    fn fmt(&self, f: &mut fmt::Formatter<'_>) -> fmt::Result {
        write!(f, "{} ms", self.0)
    }
}

/// The number by which a host names a certification.
#[derive(Clone, Copy, PartialEq, Eq, PartialOrd, Ord, Hash, Debug, Default)]
pub struct Token(u64);

impl Token {
    /// Makes the token of this number.
    pub const fn new(token: u64) -> Token {
        Token(token)
    }

    /// Returns its number.
    pub const fn get(self) -> u64 {
        self.0
    }
}

#[cfg(test)]
mod tests {
    use super::*;

    #[test]
    fn a_number_is_read_as_it_is_written() {
        for number in [0, 1, u64::MAX] {
            assert_eq!(View::from(number).to_string().parse(), Ok(View::new(number)));
            assert_eq!(u64::from(Epoch::new(number)), number);
        }
        assert_eq!("7".parse(), Ok(Participant::new(7)));
        assert!("4294967296".parse::<Participant>().is_err() && "-1".parse::<View>().is_err() && "".parse::<ViewDelta>().is_err());
    }

    #[test]
    fn a_digest_is_read_as_it_is_written() {
        let bytes = std::array::from_fn(|place| 8 * place as u8 + 3);
        let digest = Digest::from(bytes);
        assert_eq!(digest.to_string().parse(), Ok(digest));
        assert_eq!(digest.to_string().to_uppercase().parse(), Ok(digest));
        for wrong in [
            "",
            &digest.to_string()[1..],
            &format!("{digest}0"),
            &digest.to_string().replace('3', "g"),
        ] {
            assert_eq!(wrong.parse::<Digest>(), Err(ParseDigestError), "{wrong}");
        }
        assert_eq!(
            "é".repeat(32).parse::<Digest>(),
            Err(ParseDigestError),
            "64 bytes that are no digits"
        );
    }
}
