//! The clock of a lifetime: milliseconds since it began.

use simplex_view_state::Moment;
use std::time::{Duration, Instant};

/// A clock that begins with a lifetime of a node and never falls, whatever is done to the machine's.
#[derive(Clone, Copy, Debug)]
pub struct Clock {
    begun: Instant,
    ahead: Duration,
    jumped: u64,
}

impl Clock {
    /// A clock that begins now, at 0.
    pub fn start() -> Clock {
        Clock {
            begun: Instant::now(),
            ahead: Duration::ZERO,
            jumped: 0,
        }
    }

    /// The moment.
    pub fn now(&self) -> Moment {
        Moment::from_millis(self.elapsed().as_millis() as u64)
    }

    /// How long it is until a moment.
    pub fn until(&self, moment: Moment) -> Duration {
        Duration::from_millis(moment.as_millis()).saturating_sub(self.elapsed())
    }

    /// How long it has been since the clock began, whatever it jumped.
    pub fn life(&self) -> Duration {
        self.begun.elapsed()
    }

    fn elapsed(&self) -> Duration {
        self.begun.elapsed() + self.ahead
    }

    /// Jumps ahead, once in each hundred views: a fault that is tried. Whether it did.
    pub fn jump(&mut self, by: Duration, view: u64) -> bool {
        let is_due = view / 100 > self.jumped;
        if is_due {
            self.jumped = view / 100;
            self.ahead += by;
        }
        is_due
    }
}
