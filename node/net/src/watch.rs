//! Events that a host may count.

use simplex_view_state::Participant;

/// Receives what happens to connections, to count it. Each call does nothing by default, and comes from any thread.
pub trait Watch: Send + Sync + 'static {
    /// A connection to a member was begun.
    fn connected(&self, _to: Participant) {}

    /// A greeting was refused: of a stranger, or of a member whose settings differ.
    fn refused_greeting(&self) {}

    /// A connection was refused: too many that did not greet, or a member's that sent forgeries.
    fn refused_connection(&self) {}

    /// A member sent forgeries, and is refused for a while.
    fn offended(&self, _by: Participant) {}

    /// A member's connection is read no further for a moment, since the member took more than its budget.
    fn slowed(&self, _from: Participant) {}

    /// A frame did not fit a member's queue, and was dropped.
    fn dropped(&self, _to: Participant) {}
}

/// Counts nothing.
impl Watch for () {}
