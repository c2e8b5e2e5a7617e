//! Whose something is: a member's, by its key, in one epoch of one network with one list of members.

use crate::network_name::{self, NetworkName};
use sha2::{Digest as _, Sha256};
use simplex_view_state::{Digest, Namespace};
use std::fmt;

/// How many bytes an identity has.
pub const SIZE: usize = 32 + 8 + 4 + 32 + 1 + network_name::LONGEST;

fn digest(bytes: &[u8]) -> Digest {
    Digest::new(Sha256::digest(bytes).into())
}

/// The digest of all members' public keys, in order: SHA-256 of the keys one behind another.
pub fn members_digest(keys: &[[u8; 32]]) -> Digest {
    digest(keys.as_flattened())
}

/// Bytes in hexadecimal digits.
pub fn hex(bytes: &[u8]) -> String {
    bytes.iter().map(|byte| format!("{byte:02x}")).collect()
}

/// The identity that all votes of one key share, over all lifetimes.
#[derive(Clone, PartialEq, Eq, Debug)]
pub struct Identity {
    /// The network's name.
    pub network: NetworkName,
    /// The public key that votes are signed with.
    pub key: [u8; 32],
    /// Their epoch.
    pub epoch: u64,
    /// How many views a term has.
    pub term_length: u32,
    /// The digest of all members' public keys, in order ([`members_digest`]). Addresses may change.
    pub members: Digest,
}

impl Identity {
    /// Its bytes: zeros fill up the room of the name.
    pub fn to_bytes(&self) -> [u8; SIZE] {
        let mut bytes = [0; SIZE];
        bytes[..32].copy_from_slice(&self.key);
        bytes[32..40].copy_from_slice(&self.epoch.to_be_bytes());
        bytes[40..44].copy_from_slice(&self.term_length.to_be_bytes());
        bytes[44..76].copy_from_slice(self.members.bytes());
        let name = self.network.prefixed();
        bytes[76..76 + name.len()].copy_from_slice(&name);
        bytes
    }

    /// The identity of bytes; `None` where they are none.
    pub fn from_bytes(bytes: &[u8; SIZE]) -> Option<Identity> {
        let (key, rest) = bytes.split_first_chunk()?;
        let (epoch, rest) = rest.split_first_chunk()?;
        let (term_length, rest) = rest.split_first_chunk()?;
        let (members, rest) = rest.split_first_chunk()?;
        let (network, behind) = NetworkName::split(rest)?;
        let is_filled = behind.iter().all(|byte| *byte == 0);
        is_filled.then_some(Identity {
            network,
            key: *key,
            epoch: u64::from_be_bytes(*epoch),
            term_length: u32::from_be_bytes(*term_length),
            members: Digest::new(*members),
        })
    }

    /// The payload of genesis: the same for all members, and another one in each network and epoch.
    pub fn genesis(&self) -> Digest {
        self.shared(b"simplex-node genesis")
    }

    /// The namespace of all that members sign: the same for all of them, and another one in each network and epoch.
    pub fn namespace(&self) -> Namespace {
        self.shared(b"simplex-node namespace").into()
    }

    /// The digest, for a purpose, of all that members share.
    fn shared(&self, purpose: &[u8]) -> Digest {
        let mut text = purpose.to_vec();
        text.extend_from_slice(&self.network.prefixed());
        text.extend_from_slice(&self.epoch.to_be_bytes());
        text.extend_from_slice(self.members.bytes());
        text.extend_from_slice(&self.term_length.to_be_bytes());
        digest(&text)
    }

    /// Returns in what the identity of something stored differs from a member's; `None` where they are the same.
    pub fn differs_from(&self, member: &Identity) -> Option<Difference> {
        if self.network != member.network {
            return Some(Difference::Network(self.network.clone(), member.network.clone()));
        }
        if self.key != member.key {
            return Some(Difference::Key(self.key, member.key));
        }
        if self.epoch != member.epoch {
            return Some(Difference::Epoch(self.epoch, member.epoch));
        }
        if self.members != member.members {
            return Some(Difference::Members);
        }
        (self.term_length != member.term_length).then_some(Difference::TermLength(self.term_length, member.term_length))
    }
}

/// In what the identity of something stored, which comes first, differs from a member's.
#[derive(Clone, PartialEq, Eq, Debug)]
pub enum Difference {
    /// The network.
    Network(NetworkName, NetworkName),
    /// The public key.
    Key([u8; 32], [u8; 32]),
    /// The epoch.
    Epoch(u64, u64),
    /// The members, or their order.
    Members,
    /// How many views a term has.
    TermLength(u32, u32),
}

impl fmt::Display for Difference {
    fn fmt(&self, f: &mut fmt::Formatter<'_>) -> fmt::Result {
        match self {
            Difference::Network(stored, member) => write!(
                f,
                "it is of the network {stored}, and this member is of the network {member}: name that network, or another folder"
            ),
            Difference::Key(stored, member) => write!(
                f,
                "it is of the key {}, and this member's key is {}: name that key's folder, or that key",
                hex(stored),
                hex(member)
            ),
            Difference::Epoch(stored, member) => write!(
                f,
                "it is of epoch {stored}, and this is epoch {member}: an epoch begins in a folder of its own, so name another one"
            ),
            Difference::Members => f.write_str(
                "it is of a network of other members, or in another order: put their list back; another list begins with an epoch, in a \
                 folder of its own",
            ),
            Difference::TermLength(stored, member) => write!(
                f,
                "it is of terms of {stored} views, and the term length is {member} here: put it back; another length begins with an epoch, \
                 in a folder of its own"
            ),
        }
    }
}

#[cfg(test)]
mod tests {
    use super::*;

    #[test]
    fn what_is_written_is_read_and_each_field_counts() {
        let it = Identity {
            network: NetworkName::try_from("main".to_owned()).expect("a name"),
            key: [3; 32],
            epoch: 1 << 40,
            term_length: 9,
            members: Digest::new([4; 32]),
        };
        assert_eq!(Identity::from_bytes(&it.to_bytes()).as_ref(), Some(&it));
        assert_eq!(it.differs_from(&it), None);
        for at in 0..SIZE {
            let mut bytes = it.to_bytes();
            bytes[at] ^= 1;
            let is_other = Identity::from_bytes(&bytes).is_none_or(|other| other.differs_from(&it).is_some());
            assert!(is_other, "byte {at}");
        }
    }

    #[test]
    fn genesis_and_namespace_are_of_the_network_the_epoch_the_members_and_the_term_length() {
        let it = Identity {
            network: NetworkName::try_from("main".to_owned()).expect("a name"),
            key: [3; 32],
            epoch: 1,
            term_length: 2,
            members: Digest::new([4; 32]),
        };
        let changed = |change: fn(&mut Identity)| {
            let mut other = it.clone();
            change(&mut other);
            other
        };
        for other in [
            changed(|it| it.network = NetworkName::try_from("test".to_owned()).expect("a name")),
            changed(|it| it.members = Digest::new([5; 32])),
            changed(|it| it.epoch = 2),
            changed(|it| it.term_length = 1),
        ] {
            assert_ne!(it.genesis(), other.genesis(), "{other:?}");
            assert_ne!(it.namespace(), other.namespace(), "{other:?}");
        }
        let of_another_member = changed(|it| it.key = [9; 32]);
        assert_eq!(it.genesis(), of_another_member.genesis());
        assert_eq!(it.namespace(), of_another_member.namespace());
        assert_ne!(it.genesis().bytes(), it.namespace().bytes());
    }
}
