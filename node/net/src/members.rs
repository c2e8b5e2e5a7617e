//! The members' keys, and this member's own.

use openssl::error::ErrorStack;
use openssl::pkey::{Id, PKey, PKeyRef, Private, Public};
use simplex_view_state::Participant;
use std::io;

/// The ed25519 keys of all members, with the secret one of this member.
pub struct Members {
    pub(crate) me: Participant,
    secret: PKey<Private>,
    public: Vec<PKey<Public>>,
}

impl Members {
    /// The members' public keys in order, and this member's secret key.
    ///
    /// # Errors
    ///
    /// Where a key is none, or the secret key is not that of the member.
    pub fn new(me: Participant, secret: PKey<Private>, public: &[[u8; 32]]) -> io::Result<Members> {
        let keys: Result<Vec<_>, ErrorStack> = public.iter().map(|it| PKey::public_key_from_raw_bytes(it, Id::ED25519)).collect();
        let public = keys?;
        let is_mine = public.get(me.get() as usize).is_some_and(|it| secret.public_eq(it));
        if !is_mine {
            return Err(io::Error::new(
                io::ErrorKind::InvalidInput,
                format!("the secret key is not that of member {me}"),
            ));
        }
        Ok(Members { me, secret, public })
    }

    /// The same of a secret key's 32 bytes.
    ///
    /// # Errors
    ///
    /// As of [`Members::new`].
    pub fn of_raw_key(me: Participant, secret: &[u8; 32], public: &[[u8; 32]]) -> io::Result<Members> {
        Members::new(me, PKey::private_key_from_raw_bytes(secret, Id::ED25519)?, public)
    }

    /// How many members there are.
    pub fn count(&self) -> usize {
        self.public.len()
    }

    pub(crate) fn secret(&self) -> &PKeyRef<Private> {
        &self.secret
    }

    /// The member whose key this is; `None` where it is nobody's.
    pub(crate) fn member_of(&self, key: &PKeyRef<Public>) -> Option<Participant> {
        let index = self.public.iter().position(|it| it.public_eq(key))?;
        Some(Participant::new(index as u32))
    }
}
