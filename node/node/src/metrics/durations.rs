//! How long things took, as histograms, and when each member was heard of.

use prometheus::core::Collector;
use prometheus::proto::MetricFamily;
use prometheus::{GaugeVec, Histogram, HistogramOpts, Opts, exponential_buckets};
use std::fmt;

/// The histograms of a node, in seconds, and how long each member has been silent.
pub struct Durations {
    sync: Histogram,
    sign: Histogram,
    verify: Histogram,
    view: Histogram,
    finality: Histogram,
    silence: GaugeVec,
}

/// Sixteen buckets, each twice as wide: from a quarter of a millisecond to eight seconds.
const FIRST: f64 = 0.00025;
const BUCKETS: usize = 16;

fn histogram(name: &str, help: &str) -> Histogram {
    let buckets = exponential_buckets(FIRST, 2.0, BUCKETS).expect("they rise");
    Histogram::with_opts(HistogramOpts::new(format!("simplex_{name}_seconds"), help).buckets(buckets)).expect("a name of letters")
}

impl Default for Durations {
    fn default() -> Durations {
        let silence = Opts::new("simplex_peer_silence_seconds", "Time since each other member was heard of.");
        Durations {
            sync: histogram("sync_duration", "How long the disk was waited for, each time."),
            sign: histogram("sign_duration", "How long a signature took, with that of a signer of its own."),
            verify: histogram("verify_duration", "How long a message of a peer took to be read and verified."),
            view: histogram("view_duration", "How long each view was the current one."),
            finality: histogram("finality", "How long it took from the begin of a view here until it was finalized."),
            silence: GaugeVec::new(silence, &["member"]).expect("a name of letters"),
        }
    }
}

impl fmt::Debug for Durations {
    fn fmt(&self, formatter: &mut fmt::Formatter<'_>) -> fmt::Result {
        formatter.debug_struct("Durations").finish_non_exhaustive()
    }
}

impl Durations {
    /// The disk was waited for.
    pub fn sync(&self, seconds: f64) {
        self.sync.observe(seconds);
    }

    /// A vote was signed.
    pub fn sign(&self, seconds: f64) {
        self.sign.observe(seconds);
    }

    /// A message was read and verified.
    pub fn verify(&self, seconds: f64) {
        self.verify.observe(seconds);
    }

    /// A view has ended.
    pub fn view(&self, seconds: f64) {
        self.view.observe(seconds);
    }

    /// A view was finalized, so long after it began.
    pub fn finality(&self, seconds: f64) {
        self.finality.observe(seconds);
    }

    /// A member has been silent for so long.
    pub fn silence(&self, member: u32, seconds: f64) {
        self.silence.with_label_values(&[&member.to_string()]).set(seconds);
    }

    pub(super) fn collect(&self) -> Vec<MetricFamily> {
        let histograms = [&self.sync, &self.sign, &self.verify, &self.view, &self.finality];
        let mut families: Vec<MetricFamily> = histograms.into_iter().flat_map(Collector::collect).collect();
        // (without a member there is nothing to be served)
        families.extend(self.silence.collect().into_iter().filter(|it| !it.get_metric().is_empty()));
        families
    }
}
