//! The report and the picture of a run.

use super::{Arguments, Ended, STANDSTILL};
use simplex_node::audit::{contradictions, disagreements, quantile};
use simplex_node::ledger::{self, Link};
use simplex_node::network::{Metrics, Network};
use simplex_node::picture::Grid;
use simplex_node::settings::Outcome;
use simplex_node::trace::Line;
use std::fs::File;
use std::io::{self, Write};
use std::time::Duration;

/// How many views the text shows, and how many the picture.
const VIEWS_SHOWN: (usize, usize) = (24, 60);

/// A node that was killed.
#[derive(Clone, Copy, PartialEq, Eq, PartialOrd, Ord)]
pub struct Kill {
    /// The last finalized view then.
    pub view: u64,
    /// Which node.
    pub node: u32,
}

/// A run that is over.
pub struct Run {
    /// Why it ended.
    pub ended: Ended,
    /// How long it took.
    pub took: Duration,
    /// Who was killed, in order.
    pub kills: Vec<Kill>,
    /// The last counts of each node; `None` of one that did not reply.
    pub metrics: Vec<Option<Metrics>>,
    /// The honest nodes that ended by themselves.
    pub left: Vec<u32>,
}

/// A line while the network runs.
pub fn line(network: &Network, elapsed: Duration, highest: u64, rate: f64) -> Outcome<String> {
    let last = (0..network.lives.len() as u32).map(|index| ledger::last_links(&network.data(index), 200));
    let last = last.collect::<Result<Vec<_>, _>>()?;
    let (median, high) = latencies(last.iter().flatten());
    let restarts: u32 = network.lives.iter().map(|it| it - 1).sum();
    let most = |name| {
        (0..network.lives.len() as u32)
            .filter_map(|index| network.metric(index, name))
            .max()
            .unwrap_or(0)
    };
    Ok(format!(
        "{:4.0} s  view {highest}, {rate:.0} a second, from build to final {median:.1} ms (median), {high:.1} ms (99 %), {}, \
         at most {} kB and {} entries a node",
        elapsed.as_secs_f64(),
        counted(restarts, "restart"),
        most("resident_kb"),
        most("record_entries"),
    ))
}

/// Prints the report of a run, and draws the picture. Returns whether all is as it has to be, which the last line says.
pub fn print(network: &Network, arguments: &Arguments, run: &Run, svg: Option<&mut File>) -> Outcome<bool> {
    let (chains, votes) = (network.chains()?, network.votes()?);
    let grid = |views| grid(network, &chains, &votes, &run.kills, views);
    println!(
        "\nThe last views: n, x and f: voted to notarize, nullify, finalize; k: killed.\n{}",
        grid(VIEWS_SHOWN.0).text()
    );
    for (index, chain) in chains.iter().enumerate() {
        println!("{}", row(index, chain, network.lives[index], run.took));
    }
    for (index, metrics) in run.metrics.iter().enumerate() {
        if let Some(shares) = metrics.as_ref().and_then(shares) {
            println!("node {index}, last lifetime: {shares}");
        }
    }
    for (index, metrics) in run.metrics.iter().enumerate() {
        if let Some(costs) = metrics.as_ref().and_then(costs) {
            println!("node {index}, a view of that lifetime: {costs}");
        }
    }
    let seen = run.metrics.iter().flatten().filter_map(|it| it.get("equivocations"));
    println!(
        "evidence: {} in which a leader proposed twice, with both of its votes in the nodes' logs",
        counted(seen.max().unwrap_or(0) as u32, "view")
    );
    let mut problems = problems(network, arguments, run, &chains, &votes);
    if let Some(file) = svg {
        let (nodes, faulty, kills) = (arguments.nodes, arguments.faulty, run.kills.len());
        let caption = format!("{nodes} nodes, {faulty} faulty, {}: the last views", counted(kills as u32, "kill"));
        if let Err(error) = replace(file, &grid(VIEWS_SHOWN.1).svg(&caption)) {
            problems.push(format!("the picture was not written: {error}"));
        }
    }
    println!("\n{} votes seen", votes.len());
    problems.iter().for_each(|it| println!("  {it}"));
    println!("{}", verdict(&problems));
    Ok(problems.is_empty())
}

fn grid(network: &Network, chains: &[Vec<Link>], votes: &[Line], kills: &[Kill], views: usize) -> Grid {
    let (nodes, honest) = (network.lives.len() as u32, network.honest());
    let finalized = chains.iter().flatten().map(|it| it.view).collect();
    let faulty = (0..nodes).filter(|index| !honest.contains(index)).collect();
    let kills: Vec<(u32, u64)> = kills.iter().map(|it| (it.node, it.view)).collect();
    Grid::new(nodes, faulty, votes, &kills, finalized, views)
}

/// Puts a text in place of what a file holds.
fn replace(file: &mut File, text: &str) -> io::Result<()> {
    if file.metadata()?.is_file() {
        file.set_len(0)?;
    }
    file.write_all(text.as_bytes())
}

/// Returns what is not as it has to be.
fn problems(network: &Network, arguments: &Arguments, run: &Run, chains: &[Vec<Link>], votes: &[Line]) -> Vec<String> {
    let honest = network.honest();
    let of_honest = votes.iter().filter(|vote| honest.contains(&vote.signer));
    let mut problems = disagreements(chains);
    problems.extend(contradictions(of_honest, u64::from(arguments.term.get())));
    problems.extend(
        run.left
            .iter()
            .map(|index| format!("node {index} ended by itself: {}", network.log(*index).display())),
    );
    match run.ended {
        Ended::Reached => {}
        Ended::StoodStill => problems.push(format!("nothing was finalized for {} s", STANDSTILL.as_secs())),
        Ended::Signalled => problems.push("stopped by a signal".to_owned()),
    }
    problems
}

fn verdict(problems: &[String]) -> String {
    match problems {
        [] => "OK: chains agree, and no honest node signed two votes that contradict each other".to_owned(),
        [one] => format!("FAILED: {one}"),
        [first, others @ ..] => format!("FAILED: {first}, and {} more", others.len()),
    }
}

/// How a node's thread spent its last lifetime; `None` where the node did not count that.
fn shares(metrics: &Metrics) -> Option<String> {
    let lifetime = metrics.get("life_us")?.max(1) as f64;
    let share = |name| Some(100.0 * metrics.get(name)? as f64 / lifetime);
    Some(format!(
        "{:.1} % in the core, {:.1} % signing, {:.1} % waiting for the disk ({} times), {:.1} % for the application, {:.1} % for events; record of {} entries, {} kB",
        share("core_us")?,
        share("sign_us")?,
        share("sync_us")?,
        metrics.get("syncs")?,
        share("reply_us")?,
        share("idle_us")?,
        metrics.get("record_entries")?,
        metrics.get("resident_kb")?,
    ))
}

/// Returns what a view of its last lifetime cost a node; `None` where the node did not count that.
fn costs(metrics: &Metrics) -> Option<String> {
    let views = metrics.get("current_view")?.max(1) as f64;
    let of_a_view = |name| Some(metrics.get(name)? as f64 / views);
    Some(format!(
        "{:.1} signatures verified, {:.0} bytes sent, {:.1} certificates sent",
        of_a_view("signatures")?,
        of_a_view("sent_bytes")?,
        of_a_view("sent_certificates")?,
    ))
}

fn row(index: usize, chain: &[Link], lives: u32, took: Duration) -> String {
    let (median, high) = latencies(chain.iter());
    format!(
        "node {index}: {}, the last of view {}, {:.0} a second, {median:.1} ms (median), {high:.1} ms (99 %), {}",
        counted(chain.len() as u32, "block"),
        chain.last().map_or(0, |it| it.view),
        chain.len() as f64 / took.as_secs_f64(),
        counted(lives, "lifetime"),
    )
}

/// The median of the latencies and what 99 of 100 are below, in milliseconds.
fn latencies<'a>(links: impl Iterator<Item = &'a Link>) -> (f64, f64) {
    let mut sorted: Vec<u64> = links.map(|it| it.latency_us).collect();
    sorted.sort_unstable();
    (quantile(&sorted, 0.5) as f64 / 1000.0, quantile(&sorted, 0.99) as f64 / 1000.0)
}

/// So many things, in words.
fn counted(count: u32, thing: &str) -> String {
    format!("{count} {thing}{}", if count == 1 { "" } else { "s" })
}

#[cfg(test)]
mod tests {
    use super::*;

    #[test]
    fn the_verdict_begins_with_ok_only_where_nothing_is_wrong() {
        let problems = ["chains part".to_owned(), "stopped by a signal".to_owned()];
        assert!(verdict(&[]).starts_with("OK: chains agree"));
        assert_eq!(verdict(&problems[..1]), "FAILED: chains part");
        assert_eq!(verdict(&problems), "FAILED: chains part, and 1 more");
    }
}
