//! Votes that a node's journal has.

use simplex_node::crypto::raw_key;
use simplex_node::network::Network;
use simplex_node::settings::Settings;
use simplex_node::trace::Line;
use simplex_view_state::{Digest, Epoch, Proposal, Round, Subject, View};

/// Returns whether a node's journal has a vote of its own: the record holds the text that was signed.
pub fn has_stored(network: &Network, vote: &Line) -> bool {
    let settings = Settings::read(&network.config(vote.signer)).expect("settings");
    let identity = settings.identity().expect("keys");
    let kept = simplex_journal::read(&settings.data, &identity)
        .expect("a journal")
        .expect("it began");
    let text = subject_of(vote, settings.protocol.epoch).text(&identity.namespace());
    kept.frames.windows(text.len()).any(|it| it == text)
}

/// Returns what a vote of a trace is on.
fn subject_of(vote: &Line, epoch: u64) -> Subject {
    let (epoch, view) = (Epoch::new(epoch), View::new(vote.view));
    let round = Round { epoch, view };
    let Some((parent, payload)) = vote.proposal.split_once(' ') else {
        return Subject::Nullify(round);
    };
    let proposal = Proposal {
        round,
        parent: View::new(parent.parse().expect("a view")),
        payload: Digest::new(raw_key(payload).expect("a digest has as many digits as a key")),
    };
    match vote.kind {
        'n' => Subject::Notarize(proposal),
        _ => Subject::Finalize(proposal),
    }
}
