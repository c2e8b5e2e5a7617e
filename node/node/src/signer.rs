//! Who signs this member's votes: the node itself, or a process of its own that holds the key and refuses to sign against itself.

pub mod guard;
mod remote;
mod server;

pub use remote::Remote;
pub use server::{Settings, run, serve};

use crate::crypto::Signature;
use crate::settings::Outcome;
use openssl::pkey::{PKey, Private};
use openssl::sign::Signer as Signing;
use simplex_view_state::Subject;

/// Signs the votes of one member.
pub trait Signer: Send + Sync {
    /// The signature on a vote's text, which begins with the namespace of the network.
    ///
    /// # Errors
    ///
    /// Where the vote is refused, or the signer can't be reached: nothing was signed, and the node has to end.
    fn sign(&self, subject: &Subject, text: &[u8]) -> Outcome<Signature>;
}

/// A signer with the key in this process. The engine's own record is what keeps it from contradictions.
pub struct Local {
    secret: PKey<Private>,
}

impl Local {
    /// A signer with this key.
    pub fn new(secret: PKey<Private>) -> Local {
        Local { secret }
    }
}

impl Signer for Local {
    fn sign(&self, _: &Subject, text: &[u8]) -> Outcome<Signature> {
        let signature = Signing::new_without_digest(&self.secret)?.sign_oneshot_to_vec(text)?;
        Ok(signature.try_into().map_err(|_| "an ed25519 signature has 64 bytes")?)
    }
}
