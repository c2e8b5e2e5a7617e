//! Certificates of views far ahead. A node that was away for long is sent one of each view: a finalization moves it there at once, and
//! others would have it ask for the nullifications of all views in between. So those wait for a finalization, for a while.

use super::Replica;
use crate::settings::Outcome;
use simplex_view_state::{Certificate, Input, Subject, View};
use std::time::{Duration, Instant};

/// How many views ahead are far.
const FAR: u64 = 256;
/// How long a certificate of a far view waits for a finalization: a network that finalizes nothing sends none.
const WAIT: Duration = Duration::from_secs(1);

/// The certificate of the highest far view, and since when one waits.
pub(super) type Far = Option<(Certificate, Instant)>;

fn is_final(it: &Certificate) -> bool {
    matches!(it.subject(), Subject::Finalize(_))
}

impl Replica {
    /// Takes a certificate that is good, now or later.
    pub(super) fn take_certificate(&mut self, it: Certificate) -> Outcome {
        let current = self.views()?.current;
        if is_final(&it) || it.round().view.get() <= current.get() + FAR {
            return self.take_near(it);
        }
        let since = self.far.as_ref().map_or_else(Instant::now, |(_, since)| *since);
        let is_highest = self.far.as_ref().is_none_or(|(other, _)| other.round().view <= it.round().view);
        if is_highest {
            self.far = Some((it, since));
        }
        Ok(())
    }

    /// Takes the far certificate that waits, once its view is near, or nothing was finalized for a while.
    pub(super) fn take_far(&mut self) -> Outcome {
        let current = self.views()?.current;
        let is_near = |view: View| view.get() <= current.get() + FAR;
        match self.far.take_if(|(it, since)| is_near(it.round().view) || since.elapsed() > WAIT) {
            Some((it, _)) => self.take_near(it),
            None => Ok(()),
        }
    }

    fn take_near(&mut self, it: Certificate) -> Outcome {
        let (subject, view) = (it.subject(), it.round().view);
        if self.parts.engine.admits_vote(view) {
            let found = self.leader_votes.see_certificate(&it);
            self.compare(found)?;
        }
        if self.handle(Input::Certificate(it))? {
            self.parts.horizon.know(subject);
        }
        Ok(())
    }
}
