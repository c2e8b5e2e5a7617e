//! The keys of one member.

use crate::public::PublicKeys;
use openssl::pkey::{Id, PKey, Private};
use openssl::sign::Signer;
use simplex_identity::{Identity, NetworkName, hex, members_digest};
use simplex_net::{Credentials, Greeting, Members};
use simplex_view_state::{Config, Epoch, Participant};
use simplex_wire::VERSION;
use std::io;
use std::num::NonZeroU32;

/// Returns the public key of a secret one.
///
/// # Errors
///
/// Where OpenSSL has no ed25519, or no memory.
pub fn public_key(secret: &[u8; 32]) -> io::Result<[u8; 32]> {
    let raw = PKey::private_key_from_raw_bytes(secret, Id::ED25519)?.raw_public_key()?;
    raw.try_into().map_err(|_| io::Error::other("an ed25519 key has 32 bytes"))
}

/// The keys of all members, with the secret one of this member.
pub struct Keys {
    me: Participant,
    identity: Identity,
    secret: PKey<Private>,
    raw: Vec<[u8; 32]>,
    public: PublicKeys,
}

impl Keys {
    /// The keys of a network's member, in an epoch and with this many views a term.
    ///
    /// # Errors
    ///
    /// Where a key is none, or the secret key is not that of the member.
    pub fn new(
        network: NetworkName,
        epoch: u64,
        term_length: u32,
        me: Participant,
        secret: &[u8; 32],
        public: &[[u8; 32]],
    ) -> io::Result<Keys> {
        let key = public_key(secret)?;
        if public.get(me.get() as usize) != Some(&key) {
            let said = format!("the secret key is not that of member {me}: name its own");
            return Err(io::Error::new(io::ErrorKind::InvalidInput, said));
        }
        let identity = Identity {
            network,
            key,
            epoch,
            term_length,
            members: members_digest(public),
        };
        Ok(Keys {
            me,
            secret: PKey::private_key_from_raw_bytes(secret, Id::ED25519)?,
            raw: public.to_vec(),
            public: PublicKeys::new(identity.namespace(), public)?,
            identity,
        })
    }

    /// Returns which member this is.
    pub fn me(&self) -> Participant {
        self.me
    }

    /// Returns the keys of all members.
    pub fn public(&self) -> &PublicKeys {
        &self.public
    }

    /// Returns this member's signature on the text of a vote, which the engine's order has ([`Subject::text`](simplex_view_state::Subject::text)).
    ///
    /// # Errors
    ///
    /// Where OpenSSL refuses.
    pub fn sign(&self, text: &[u8]) -> io::Result<Vec<u8>> {
        Ok(Signer::new_without_digest(&self.secret)?.sign_oneshot_to_vec(text)?)
    }

    /// Returns who this member is: whose journal it is, and which genesis and which namespace its network has.
    pub fn identity(&self) -> &Identity {
        &self.identity
    }

    /// Returns the settings of this member: members lead round-robin, and the chain begins at the identity's genesis.
    ///
    /// # Errors
    ///
    /// Where the identity's term has no view.
    pub fn config(&self) -> io::Result<Config> {
        let identity = &self.identity;
        let none = |what| io::Error::new(io::ErrorKind::InvalidInput, what);
        let members = u32::try_from(self.raw.len())
            .ok()
            .and_then(NonZeroU32::new)
            .ok_or_else(|| none("no members"))?;
        let (epoch, namespace) = (Epoch::new(identity.epoch), identity.namespace());
        let mut config = Config::new(namespace, members, Some(self.me), epoch, identity.genesis());
        config.terms.length = NonZeroU32::new(identity.term_length).ok_or_else(|| none("a term has no view"))?;
        Ok(config)
    }

    /// Returns the credentials of its links, whose greeting says what members must share: the version of messages and the identity.
    ///
    /// # Errors
    ///
    /// Where OpenSSL refuses a key.
    pub fn credentials(&self) -> io::Result<Credentials> {
        let identity = &self.identity;
        let greeting = Greeting::new(&[
            ("version of messages", &VERSION.to_string()),
            ("network", &identity.network.to_string()),
            ("epoch", &identity.epoch.to_string()),
            ("term_length", &identity.term_length.to_string()),
            ("members", &hex(identity.members.bytes())),
        ]);
        Credentials::new(Members::new(self.me, self.secret.clone(), &self.raw)?, greeting)
    }
}
