//! How much of this host one peer may take: bytes that are read from it, messages, and processor time for its signatures.
//!
//! Each is a bucket that fills at a steady rate up to a burst. A reader that finds one empty sleeps until it has filled, so TCP slows the
//! peer down, and no other reader waits.

use std::time::{Duration, Instant};

/// A bucket that fills at a steady rate up to a burst: what is left of it, in units of its own.
#[derive(Debug)]
pub struct Bucket {
    left: f64,
    a_second: f64,
    burst: f64,
    filled: Instant,
}

impl Bucket {
    /// A full bucket.
    pub fn new(a_second: f64, burst: f64, now: Instant) -> Bucket {
        Bucket {
            left: burst,
            a_second,
            burst,
            filled: now,
        }
    }

    fn fill(&mut self, now: Instant) {
        let passed = now.saturating_duration_since(self.filled).as_secs_f64();
        self.left = (self.left + passed * self.a_second).min(self.burst);
        self.filled = now;
    }

    /// Takes an amount, which may leave the bucket in debt. Returns how long it takes until the debt is paid.
    pub fn spend(&mut self, amount: f64, now: Instant) -> Duration {
        self.fill(now);
        self.left -= amount;
        Duration::from_secs_f64((-self.left).max(0.0) / self.a_second)
    }

    /// Takes an amount where the bucket is not in debt. Returns whether it did.
    pub fn take(&mut self, amount: f64, now: Instant) -> bool {
        self.fill(now);
        let is_there = self.left > 0.0;
        if is_there {
            self.left -= amount;
        }
        is_there
    }
}

/// The budget of one peer on its reader.
#[derive(Debug)]
pub(crate) struct Budget {
    bytes: Bucket,
    messages: Bucket,
    processor: Bucket,
}

impl Budget {
    /// 16 MB and 5,000 messages a second, and half of a processor; twice to four times as much at once.
    pub fn new(now: Instant) -> Budget {
        Budget {
            bytes: Bucket::new(16e6, 32e6, now),
            messages: Bucket::new(5e3, 10e3, now),
            processor: Bucket::new(0.5, 2.0, now),
        }
    }

    /// A message of so many bytes was read, and took so much of the processor. Returns how long the next one has to wait.
    pub fn spend(&mut self, bytes: usize, took: Duration, now: Instant) -> Duration {
        let waits = [
            self.bytes.spend(bytes as f64, now),
            self.messages.spend(1.0, now),
            self.processor.spend(took.as_secs_f64(), now),
        ];
        waits.into_iter().max().unwrap_or_default()
    }
}

#[cfg(test)]
mod tests {
    use super::*;

    #[test]
    fn a_bucket_gives_its_burst_at_once_and_then_its_rate() {
        let begun = Instant::now();
        let mut bucket = Bucket::new(100.0, 50.0, begun);
        assert_eq!(bucket.spend(50.0, begun), Duration::ZERO);
        assert_eq!(bucket.spend(25.0, begun), Duration::from_millis(250));
        assert!(!bucket.take(1.0, begun + Duration::from_millis(250)));
        assert!(bucket.take(1.0, begun + Duration::from_millis(300)));
        assert_eq!(
            bucket.spend(50.0, begun + Duration::from_secs(60)),
            Duration::ZERO,
            "it fills up to its burst"
        );
        assert!(
            bucket.spend(1.0, begun + Duration::from_secs(60)) > Duration::ZERO,
            "and no further"
        );
    }

    #[test]
    fn a_peer_that_floods_waits() {
        let begun = Instant::now();
        let mut budget = Budget::new(begun);
        let longest = (0..100).map(|_| budget.spend(1 << 20, Duration::ZERO, begun)).max();
        assert!(longest > Some(Duration::from_secs(4)), "100 MiB at once: {longest:?}");
        let mut budget = Budget::new(begun);
        assert!(
            budget.spend(100, Duration::from_secs(3), begun) >= Duration::from_secs(2),
            "signatures"
        );
    }
}
