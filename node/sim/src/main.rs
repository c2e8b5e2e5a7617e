//! Plays a network of engines in simulated time.

use clap::Parser;
use simplex_sim::rounds::{Measured, measure};
use simplex_sim::search::{shrink, until_disagreement};
use simplex_sim::{Byzantine, Crash, Ended, EngineHost, Host, Log, Outcome, Partition, Plan, Seat, Simulation, Times, words};
use simplex_trace::{Event, Line, TraceFile};
use std::io;
use std::num::NonZeroU32;
use std::ops::RangeInclusive;
use std::path::PathBuf;
use std::process::ExitCode;
use std::time::{Duration, Instant};

type Failed = Box<dyn std::error::Error>;

/// Plays a network of engines in simulated time, and checks that honest members agree and vote once. The same words give the same trace.
/// The last line begins with `OK` or with `FAILED`, and the exit status is 0 or 1.
#[derive(Parser)]
#[command(name = "simplex-sim", version)]
struct Arguments {
    /// How many members.
    #[arg(long, default_value = "4")]
    members: NonZeroU32,
    /// How many of the last members are faulty. More than (n - 1) / 3 may be, to see what follows.
    #[arg(long, default_value_t = 0)]
    faulty: u32,
    /// The fault of the faulty members.
    #[arg(long, value_enum, default_value_t = Byzantine::Equivocate)]
    byzantine: Byzantine,
    /// How long a message is on its way: a range, in milliseconds.
    #[arg(long, default_value = "50..200", value_parser = words::range)]
    latency: RangeInclusive<u64>,
    /// How many messages of a hundred are lost.
    #[arg(long, default_value_t = 0)]
    loss: u64,
    /// When links are cut: `10s..20s`, or with the members of one side `10s..20s:0,1,2`. May be given often.
    #[arg(long)]
    partition: Vec<Partition>,
    /// Whose process ends, and when: `3@15s`, back after 2 s, or `3@15s..25s`. May be given often.
    #[arg(long)]
    crash: Vec<Crash>,
    /// How many views in a row have the same leader.
    #[arg(long, default_value = "1")]
    term: NonZeroU32,
    /// How many views ahead of the current one may be voted for.
    #[arg(long, default_value_t = 0)]
    optimistic: u64,
    /// How many views below the last finalized one are retained.
    #[arg(long, default_value_t = 64)]
    retention: u64,
    /// How long a view waits for its proposal.
    #[arg(long, default_value = "1s", value_parser = words::duration)]
    leader_timeout: Duration,
    /// How long a view waits until it is certified.
    #[arg(long, default_value = "2s", value_parser = words::duration)]
    certification_timeout: Duration,
    /// The view that all honest members are to finalize.
    #[arg(long, default_value_t = 100)]
    views: u64,
    /// The seed of all randomness.
    #[arg(long, default_value_t = 1)]
    seed: u64,
    /// Writes all events into this file, for simplex-view. An earlier trace of simplex-sim is replaced, and any other file refused.
    #[arg(long)]
    trace: Option<PathBuf>,
    /// Leaves out of the trace what comes, what is verified and what is stored: a fifth of the size.
    #[arg(long)]
    brief: bool,
    /// Tries seeds from `--seed` on until honest members disagree or one votes twice. Exits with status 0 where no seed does.
    #[arg(long)]
    until_disagreement: bool,
    /// How many seeds are tried, or measured by `--rounds`.
    #[arg(long, default_value_t = 100)]
    tries: u64,
    /// Prints the least plan that still breaks a promise.
    #[arg(long)]
    shrink: bool,
    /// Measures, of each of `--tries` seeds with a hostile past, after how many rounds of messages all honest members finalize.
    #[arg(long, conflicts_with_all = ["until_disagreement", "shrink", "trace"])]
    rounds: bool,
}

impl Arguments {
    fn plan(&self) -> Plan {
        Plan {
            members: self.members,
            faulty: self.faulty,
            byzantine: self.byzantine,
            latency: self.latency.clone(),
            loss: self.loss,
            partitions: self.partition.clone(),
            crashes: self.crash.clone(),
            term_length: self.term,
            optimistic_views: self.optimistic,
            view_retention: self.retention,
            times: Times {
                leader: self.leader_timeout,
                certification: self.certification_timeout,
                ..Times::default()
            },
            views: self.views,
            seed: self.seed,
        }
    }
}

fn main() -> ExitCode {
    let arguments = Arguments::parse();
    match run(&arguments) {
        Ok(true) => ExitCode::SUCCESS,
        Ok(false) => ExitCode::FAILURE,
        Err(error) => {
            eprintln!("simplex-sim: {error}");
            ExitCode::FAILURE
        }
    }
}

fn host(seat: &Seat) -> Box<dyn Host> {
    Box::new(EngineHost::new(seat, Log::default()))
}

/// Plays what is asked for. Returns whether all went well.
fn run(arguments: &Arguments) -> Result<bool, Failed> {
    let mut plan = arguments.plan();
    plan.test()?;
    if plan.faulty > plan.most_faulty() {
        println!(
            "{} of {} members are faulty: agreement is promised up to {}",
            plan.faulty,
            plan.members,
            plan.most_faulty()
        );
    }
    if arguments.rounds {
        return Ok(measure_all(&plan, arguments.tries));
    }
    if arguments.until_disagreement {
        let Some((found, violation)) = until_disagreement(&plan, arguments.tries, &host) else {
            println!("OK: seeds {} to {} keep all promises", plan.seed, plan.seed + arguments.tries - 1);
            return Ok(true);
        };
        println!("seed {}: {violation}", found.seed);
        plan = found;
    }
    if arguments.shrink {
        if simplex_sim::search::violation(&plan, &host).is_none() {
            return Err("the plan breaks no promise, so there is nothing to shrink: look for a seed with --until-disagreement".into());
        }
        plan = shrink(&plan, &host);
        println!("the least plan found: simplex-sim {plan}");
    }
    play(&plan, arguments)
}

fn play(plan: &Plan, arguments: &Arguments) -> Result<bool, Failed> {
    let file = arguments
        .trace
        .as_ref()
        .map(|path| TraceFile::create(path, &plan.header()))
        .transpose()?;
    let mut writer = Writer {
        file,
        is_brief: arguments.brief,
        failed: Ok(()),
    };
    let begun = Instant::now();
    let outcome = Simulation::new(plan, host).run(&mut |line| writer.write(&line));
    writer.finish()?;
    Ok(report(&outcome, begun.elapsed()))
}

/// Writes lines until the file refuses one.
struct Writer {
    file: Option<TraceFile>,
    is_brief: bool,
    failed: io::Result<()>,
}

impl Writer {
    fn write(&mut self, line: &Line) {
        let is_left_out = self.is_brief && is_detail(&line.event);
        if let (Some(file), false, Ok(())) = (&mut self.file, is_left_out, &self.failed) {
            self.failed = file.write(line);
        }
    }

    fn finish(mut self) -> io::Result<()> {
        self.failed?;
        self.file.as_mut().map_or(Ok(()), TraceFile::flush)
    }
}

/// Returns whether a brief trace leaves an event out.
fn is_detail(event: &Event) -> bool {
    matches!(
        event,
        Event::ProposalReceived { .. }
            | Event::VoteReceived { .. }
            | Event::CertificateAccepted { .. }
            | Event::Verified { .. }
            | Event::Certified { .. }
            | Event::Store { is_replacement: false, .. }
    )
}

/// Prints what came of a simulation. Returns whether all went well.
fn report(outcome: &Outcome, took: Duration) -> bool {
    println!(
        "{} views in {:.1} simulated seconds and {:.2} real ones; {} messages, {} lost",
        outcome.finalized,
        outcome.milliseconds as f64 / 1000.0,
        took.as_secs_f64(),
        outcome.messages,
        outcome.lost
    );
    match (&outcome.violations[..], outcome.ended) {
        ([first, ..], _) => println!("FAILED: {first}"),
        (_, Ended::StoodStill) => println!("FAILED: nothing new was finalized for ten simulated minutes"),
        _ => println!("OK: honest members agree, and each voted once"),
    }
    outcome.ended == Ended::Reached
}

/// Measures a number of seeds, and prints a line for each. Returns whether all finalized.
fn measure_all(plan: &Plan, tries: u64) -> bool {
    println!("seed,last final of the past,rounds,jumps,milliseconds,violations");
    let of_seed = |seed| measure(&Plan { seed, ..plan.clone() }, host, &mut |_| {});
    let mut all = Vec::new();
    for it in (plan.seed..plan.seed.saturating_add(tries)).map(of_seed) {
        let rounds = it.rounds.map_or("stuck".to_owned(), |it| it.to_string());
        println!(
            "{},{},{rounds},{},{},{}",
            it.seed, it.past, it.jumps, it.milliseconds, it.violations
        );
        all.push(it);
    }
    let mut rounds: Vec<u64> = all.iter().filter_map(|it| it.rounds).collect();
    rounds.sort_unstable();
    let at = |share: usize| {
        rounds
            .get((rounds.len() * share / 100).min(rounds.len().saturating_sub(1)))
            .copied()
            .unwrap_or(0)
    };
    println!("rounds: {} median, {} at 99 percent, {} at most", at(50), at(99), at(100));
    let is_good = |it: &Measured| it.rounds.is_some() && it.violations == 0;
    let bad = all.iter().filter(|it| !is_good(it)).count();
    match bad {
        0 => println!("OK: each network finalized a new view, and kept all promises"),
        _ => println!("FAILED: {bad} of {} networks were stuck or broke a promise", all.len()),
    }
    bad == 0
}
