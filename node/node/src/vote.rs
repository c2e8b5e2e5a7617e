//! Which votes and certificates are read at all.

use simplex_view_state::{CertificateKind, Epoch, Subject, View};

/// Which certificate votes on a subject make.
pub fn kind_of(subject: &Subject) -> CertificateKind {
    match subject {
        Subject::Notarize(_) => CertificateKind::Notarization,
        Subject::Nullify(_) => CertificateKind::Nullification,
        Subject::Finalize(_) => CertificateKind::Finalization,
    }
}

/// Returns whether a subject is one that honest members sign: of the epoch, of no genesis, its parent below it. A vote of another epoch
/// beside one of this would look like a contradiction.
pub fn is_sound(subject: &Subject, epoch: Epoch) -> bool {
    let round = subject.round();
    let is_below = match subject {
        Subject::Notarize(it) | Subject::Finalize(it) => it.parent < round.view,
        Subject::Nullify(_) => true,
    };
    round.epoch == epoch && round.view > View::GENESIS && is_below
}
