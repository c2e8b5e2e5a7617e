//! Who takes what members send.

use simplex_view_state::Participant;
use std::io;

/// Takes the connections of members.
pub trait Receiver: Send + Sync + 'static {
    /// The receiver of one connection's frames.
    type Connection: Connection;

    /// A member has connected, and greeted.
    fn connection(&self, from: Participant) -> Self::Connection;
}

/// Takes the frames of one connection, on the thread of that connection.
pub trait Connection {
    /// A frame, once it is verified.
    type Message;

    /// Reads and verifies a frame. The time that this takes counts against what the member may take of this host. `None` where it is
    /// to be ignored.
    ///
    /// # Errors
    ///
    /// The connection ends. `PermissionDenied` says that the member sends what it can't have signed: it is refused for a while.
    fn verify(&mut self, frame: &[u8]) -> io::Result<Option<Self::Message>>;

    /// Takes a message of so many bytes. It may wait for room, but for less than [`SILENCE`](crate::SILENCE). Returns whether any more are
    /// taken.
    fn take(&mut self, message: Self::Message, bytes: usize) -> bool;
}
