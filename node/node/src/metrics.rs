//! Metrics, in Prometheus' text format: times in seconds and sizes in bytes.

mod durations;
mod server;

pub use durations::Durations;
pub use server::serve;

use prometheus::proto::{Counter, Gauge, Metric, MetricFamily, MetricType};
use prometheus::{Encoder, TextEncoder};
use std::sync::atomic::{AtomicU64, Ordering::Relaxed};

/// A number that is counted here, as it is served.
#[derive(Clone, Debug, PartialEq)]
pub struct Exported {
    /// The name that it is served under.
    pub name: String,
    /// The factor from the stored number to seconds or bytes.
    pub scale: f64,
}

/// A name of [`Counters`], as it is served: in base units, and a counter with `total` behind it.
fn exported(name: &str, kind: &str) -> Exported {
    let (stem, unit, scale) = if let Some(stem) = name.strip_suffix("_us") {
        (stem, "_seconds", 1e-6)
    } else if let Some(stem) = name.strip_suffix("_kb") {
        (stem, "_bytes", 1024.0)
    } else {
        (name, "", 1.0)
    };
    let end = if kind == "counter" { "_total" } else { "" };
    Exported {
        name: format!("simplex_{stem}{unit}{end}"),
        scale,
    }
}

macro_rules! counters {
    ($($(#[doc = $help:literal])+ $name:ident: $kind:literal,)+) => {
        /// The counters of a node. Each is written by one thread or added to by several, and read at any time.
        #[derive(Default, Debug)]
        pub struct Counters {
            $($(#[doc = $help])+ pub $name: AtomicU64,)+
            /// How long things took.
            pub durations: Durations,
        }

        impl Counters {
            /// Each name with its kind, its help, and what is counted.
            fn all(&self) -> Vec<(&'static str, &'static str, &'static str, u64)> {
                vec![$((stringify!($name), $kind, concat!($($help),+), self.$name.load(Relaxed)),)+]
            }

            /// How a count is served; `None` where none has this name.
            pub fn exported(name: &str) -> Option<Exported> {
                match name {
                    $(stringify!($name) => Some(exported(name, $kind)),)+
                    _ => None,
                }
            }
        }
    };
}

impl Counters {
    /// All of them, in Prometheus' text format.
    pub fn text(&self) -> String {
        let mut families: Vec<MetricFamily> = self.all().into_iter().map(family).collect();
        families.extend(self.durations.collect());
        let mut text = Vec::new();
        let encoded = TextEncoder::new().encode(&families, &mut text);
        encoded.ok().and_then(|()| String::from_utf8(text).ok()).unwrap_or_default()
    }
}

fn family((name, kind, help, count): (&str, &str, &str, u64)) -> MetricFamily {
    let Exported { name, scale } = exported(name, kind);
    let (mut family, mut metric, value) = (MetricFamily::default(), Metric::default(), count as f64 * scale);
    family.set_name(name);
    family.set_help(help.trim().to_owned());
    if kind == "counter" {
        let mut counter = Counter::default();
        counter.set_value(value);
        metric.set_counter(counter);
        family.set_field_type(MetricType::COUNTER);
    } else {
        let mut gauge = Gauge::default();
        gauge.set_value(value);
        metric.set_gauge(gauge);
        family.set_field_type(MetricType::GAUGE);
    }
    family.set_metric(vec![metric]);
    family
}

counters! {
    /// The current view.
    current_view: "gauge",
    /// The last finalized view.
    last_finalized: "gauge",
    /// Blocks of the finalized chain.
    height: "gauge",
    /// Views between the last block that the archive has on the disk and the last finalized view.
    lag_views: "gauge",
    /// The height of a final block that no member who replies has any more; 0 where there is none.
    missing_height: "gauge",
    /// Bytes of the archive of final blocks.
    archive_bytes: "gauge",
    /// The height of the archive's first block.
    archive_first: "gauge",
    /// Ranges of final blocks that peers were asked for.
    ranges: "counter",
    /// Snapshots of the application's state that were taken of peers.
    state_syncs: "counter",
    /// Pieces of snapshots that came and were good.
    snapshot_pieces: "counter",
    /// Pieces of snapshots that came and were not good.
    wrong_pieces: "counter",
    /// Votes to notarize that were sent.
    notarizes: "counter",
    /// Votes to nullify that were sent, repeats among them.
    nullifies: "counter",
    /// Votes to finalize that were sent.
    finalizes: "counter",
    /// Blocks that were built here and proposed.
    proposals: "counter",
    /// Signatures and certificates that were verified and good.
    verified: "counter",
    /// Signatures and certificates that were verified and not good.
    forged: "counter",
    /// Signatures that were verified, those in certificates among them.
    signatures: "counter",
    /// Bytes of messages that were sent to peers.
    sent_bytes: "counter",
    /// Certificates that were sent to peers.
    sent_certificates: "counter",
    /// Certificates that were not sent to peers, since they have them.
    spared_certificates: "counter",
    /// Votes that contradict another one of their signer.
    contradictions: "counter",
    /// Views whose leader was found to have proposed twice.
    equivocations: "counter",
    /// Certificates and blocks that were asked for.
    fetches: "counter",
    /// Certificates and blocks that peers were served.
    served: "counter",
    /// Fetches that are open.
    open_fetches: "gauge",
    /// Inputs that the engine ignored.
    ignored_inputs: "counter",
    /// Times that the disk was waited for.
    syncs: "counter",
    /// Time that the disk was waited for.
    sync_us: "counter",
    /// Replies of the application that a turn waited for, before it waited for the disk.
    awaited_replies: "counter",
    /// Time that replies of the application were waited for so.
    reply_us: "counter",
    /// Replies of the application that were waited for in vain.
    missed_replies: "counter",
    /// Time that was spent in the library.
    core_us: "counter",
    /// Time that was spent signing.
    sign_us: "counter",
    /// Time in which there was nothing to do.
    idle_us: "counter",
    /// Time since the node began.
    life_us: "counter",
    /// Memory of the process.
    resident_kb: "gauge",
    /// Bytes of the journal.
    journal_bytes: "gauge",
    /// Entries of the record.
    record_entries: "gauge",
    /// Times that the record was compacted.
    compactions: "counter",
    /// Connections that were begun to peers.
    connections: "counter",
    /// Greetings that were refused.
    refused_greetings: "counter",
    /// Connections that were refused: too many that did not greet, or a member's that sent forgeries.
    refused_connections: "counter",
    /// Times that a member was refused for forgeries.
    offences: "counter",
    /// Times that a peer's reader waited, since the peer took more than its budget.
    slowed_readers: "counter",
    /// Messages of peers that waited for too long, and were dropped.
    dropped_messages: "counter",
    /// Blocks that the application built too long to be proposed.
    oversized_blocks: "counter",
    /// Frames that did not fit a peer's queue.
    dropped_frames: "counter",
}

/// The memory of this process that is in use, in kilobytes.
pub fn resident_kb() -> u64 {
    let status = std::fs::read_to_string("/proc/self/status").unwrap_or_default();
    let line = status.lines().find_map(|line| line.strip_prefix("VmRSS:"));
    line.and_then(|line| line.trim().strip_suffix(" kB")?.trim().parse().ok())
        .unwrap_or(0)
}

#[cfg(test)]
mod tests {
    use super::*;
    use serde_json::Value;
    use std::collections::BTreeSet;

    /// All names that are served, of histograms those of their parts too.
    fn names(text: &str) -> BTreeSet<&str> {
        let lines = text.lines().filter(|line| !line.starts_with('#'));
        lines.filter_map(|line| line.split(['{', ' ']).next()).collect()
    }

    /// The names in a text that are names of metrics.
    fn named(text: &str) -> BTreeSet<&str> {
        let words = text.split(|it: char| !it.is_ascii_alphanumeric() && it != '_');
        words.filter(|it| it.starts_with("simplex_")).collect()
    }

    fn text() -> String {
        let counters = Counters::default();
        counters.durations.silence(1, 0.5);
        counters.text()
    }

    #[test]
    fn counts_are_served_in_base_units() {
        let counters = Counters::default();
        counters.height.store(7, Relaxed);
        counters.sync_us.store(2_500_000, Relaxed);
        counters.resident_kb.store(3, Relaxed);
        counters.durations.sync(0.003);
        counters.durations.silence(2, 1.5);
        let text = counters.text();
        for line in [
            "# TYPE simplex_height gauge",
            "simplex_height 7",
            "# TYPE simplex_sync_seconds_total counter",
            "simplex_sync_seconds_total 2.5",
            "simplex_resident_bytes 3072",
            "simplex_sync_duration_seconds_bucket{le=\"0.004\"} 1",
            "simplex_sync_duration_seconds_bucket{le=\"0.002\"} 0",
            "simplex_sync_duration_seconds_sum 0.003",
            "simplex_peer_silence_seconds{member=\"2\"} 1.5",
        ] {
            assert!(text.lines().any(|it| it == line), "{line}: {text}");
        }
        assert!(names(&text).iter().all(|it| !it.ends_with("_us") && !it.ends_with("_kb")), "{text}");
    }

    #[test]
    fn the_dashboard_names_metrics_that_are_served() {
        let dashboard: Value = serde_json::from_str(include_str!("../../dashboard.json")).expect("JSON");
        let panels = dashboard["panels"].as_array().expect("panels");
        assert!(panels.len() >= 8);
        let text = text();
        let served = names(&text);
        for panel in panels {
            let title = panel["title"].as_str().expect("a title");
            let targets = panel["targets"].as_array().expect("targets");
            assert!(!targets.is_empty(), "{title}");
            for target in targets {
                let expression = target["expr"].as_str().expect("an expression");
                let named = named(expression);
                assert!(!named.is_empty() && named.is_subset(&served), "{title}: {expression}");
            }
        }
    }

    #[test]
    fn the_page_names_metrics_that_are_served() {
        let (page, text) = (include_str!("../../../docs/PRODUCTION.md"), text());
        let served: BTreeSet<&str> = names(&text)
            .into_iter()
            .flat_map(|it| [it, it.trim_end_matches("_bucket")])
            .collect();
        let missing: Vec<&str> = named(page)
            .into_iter()
            .filter(|it| *it != "simplex_" && !served.contains(it))
            .collect();
        assert!(missing.is_empty(), "{missing:?}");
        assert!(named(page).len() > 15);
    }
}
