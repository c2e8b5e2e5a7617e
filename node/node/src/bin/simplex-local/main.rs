//! A network of nodes on this machine, to be watched.

mod report;
mod traced;

use clap::Parser;
use report::{Kill, Run};
use signal_hook::consts::{SIGINT, SIGTERM};
use simplex_node::faults::Fault;
use simplex_node::network::{Network, Plan, folder_of, program_beside};
use simplex_node::settings::{Outcome, Protocol};
use simplex_node::version::version;
use std::fs::{self, File, OpenOptions};
use std::num::NonZeroU32;
use std::path::PathBuf;
use std::process::ExitCode;
use std::sync::Arc;
use std::sync::atomic::{AtomicBool, Ordering::Relaxed};
use std::thread::sleep;
use std::time::{Duration, Instant};

/// Starts nodes as processes on this machine, prints a line a second, and compares their finalized chains in the end. The last line begins
/// with `OK` or with `FAILED`, and the exit status is 0 or 1.
#[derive(Parser)]
#[command(name = "simplex-local", version = version())]
struct Arguments {
    /// How many nodes.
    #[arg(long, default_value_t = 4, value_parser = clap::value_parser!(u32).range(1..=100))]
    nodes: u32,
    /// How many views are to be finalized.
    #[arg(long, default_value_t = 200)]
    views: u64,
    /// For how long it runs, in seconds, whatever is finalized; by default until the views are.
    #[arg(long)]
    seconds: Option<u64>,
    /// How many of the last nodes are faulty.
    #[arg(long, default_value_t = 0)]
    faulty: u32,
    /// The fault of the faulty nodes: `equivocates` by default. It needs `--faulty`.
    #[arg(long, value_enum)]
    fault: Option<Fault>,
    /// How often an honest node is killed, and begun again.
    #[arg(long, default_value_t = 0)]
    kill: u32,
    /// How long a killed node is away, in milliseconds.
    #[arg(long, default_value_t = 500)]
    down: u64,
    /// Chooses who is killed, and when.
    #[arg(long, default_value_t = 1)]
    seed: u64,
    /// How many views in a row have the same leader.
    #[arg(long, default_value_t = NonZeroU32::MIN)]
    term: NonZeroU32,
    /// How many views ahead may be voted for.
    #[arg(long, default_value_t = 0)]
    optimistic: u64,
    /// The least time between two blocks of a node, in milliseconds.
    #[arg(long, default_value_t = 0)]
    pace: u64,
    /// How long each message is on its way, in milliseconds.
    #[arg(long, default_value_t = 0)]
    delay: u64,
    /// How many bytes each block holds.
    #[arg(long, value_parser = clap::value_parser!(u32).range(1..=1_000_000))]
    block_bytes: Option<u32>,
    /// Votes do not wait for the disk.
    #[arg(long)]
    no_sync: bool,
    /// Where the nodes store their files, and where they stay: a new folder, an empty one, or that of an earlier run, whose files are
    /// removed. By default a folder that is removed after a run that went well.
    #[arg(long)]
    folder: Option<PathBuf>,
    /// Draws the last views into this file. A file that is there is replaced.
    #[arg(long)]
    svg: Option<PathBuf>,
    /// Traces all events of each node into a file `INDEX.trace` of this folder, for simplex-view.
    #[arg(long)]
    trace: Option<PathBuf>,
    /// Writes a page on which the run can be looked at. A file that is there and is no earlier page is refused.
    #[arg(long)]
    html: Option<PathBuf>,
}

/// How long nothing may be finalized before a run is ended.
const STANDSTILL: Duration = Duration::from_secs(30);

/// Why a run ended.
enum Ended {
    /// Its views are finalized, or its time is over.
    Reached,
    /// Nothing was finalized for [`STANDSTILL`].
    StoodStill,
    /// A signal came.
    Signalled,
}

fn main() -> ExitCode {
    let arguments = Arguments::parse();
    match run(&arguments) {
        Ok(true) => ExitCode::SUCCESS,
        Ok(false) => ExitCode::FAILURE,
        Err(error) => {
            eprintln!("simplex-local: {error}");
            ExitCode::FAILURE
        }
    }
}

/// Runs a network, and reports on it. Returns whether all went well.
fn run(arguments: &Arguments) -> Outcome<bool> {
    test(arguments)?;
    let mut svg = arguments.svg.as_ref().map(open_svg).transpose()?;
    let is_signalled = Arc::new(AtomicBool::new(false));
    for signal in [SIGINT, SIGTERM] {
        signal_hook::flag::register(signal, is_signalled.clone())?;
    }
    let folder = arguments.folder.clone().unwrap_or_else(|| folder_of("run"));
    let mut network = Network::new(plan(arguments, folder.clone())?)?;
    let bytes = arguments.block_bytes.map(|it| it as usize);
    (0..arguments.nodes).try_for_each(|index| network.set(index, |it| it.trial.block_bytes = bytes))?;
    let traces = traced::begin(&mut network, arguments)?;
    network.begin_all()?;
    let (begun, mut kills) = (Instant::now(), Vec::new());
    let ended = watch(&mut network, arguments, &is_signalled, &mut kills)?;
    let took = begun.elapsed();
    let metrics = (0..arguments.nodes).map(|index| network.metrics(index)).collect();
    let left = network
        .honest()
        .into_iter()
        .filter(|index| network.has_ended(*index).unwrap_or(true));
    let run = Run {
        left: left.collect(),
        ended,
        took,
        kills,
        metrics,
    };
    network.stop()?;
    let is_good = report::print(&network, arguments, &run, svg.as_mut())?;
    traced::end(&traces, arguments)?;
    drop(network);
    if arguments.folder.is_none() && is_good {
        fs::remove_dir_all(folder)?;
    } else {
        eprintln!("simplex-local: the nodes' files are in {}", folder.display());
    }
    Ok(is_good)
}

/// Refuses arguments that contradict each other, before anything is written.
fn test(arguments: &Arguments) -> Outcome {
    let most = arguments.nodes.saturating_sub(1) / 3;
    if arguments.faulty > most {
        return Err(format!("of {} nodes at most {most} may be faulty", arguments.nodes).into());
    }
    if arguments.fault.is_some() && arguments.faulty == 0 {
        return Err("--fault says what the faulty nodes do, and no node is faulty: add --faulty 1".into());
    }
    traced::test(arguments)
}

/// Opens the picture's file, so that a path that can't be written is refused before the run. What it holds stays until the run has ended.
fn open_svg(path: &PathBuf) -> Outcome<File> {
    let options = OpenOptions::new().create(true).write(true).truncate(false).open(path);
    options.map_err(|error| format!("--svg {}: {error}", path.display()).into())
}

fn plan(arguments: &Arguments, folder: PathBuf) -> Outcome<Plan> {
    let first_faulty = arguments.nodes - arguments.faulty;
    let fault = arguments.fault.unwrap_or(Fault::Equivocates);
    Ok(Plan {
        nodes: arguments.nodes,
        protocol: Protocol {
            term_length: arguments.term,
            optimistic_views: arguments.optimistic,
            pace_ms: arguments.pace,
            ..Protocol::default()
        },
        sync: !arguments.no_sync,
        faults: (first_faulty..arguments.nodes).map(|index| (index, fault)).collect(),
        delay_ms: arguments.delay,
        program: program_beside()?,
        folder,
    })
}

/// Numbers that follow from a seed: xorshift.
struct Draw(u64);

impl Draw {
    fn below(&mut self, most: u64) -> u64 {
        self.0 ^= self.0 << 13;
        self.0 ^= self.0 >> 7;
        self.0 ^= self.0 << 17;
        self.0 % most.max(1)
    }
}

/// Who is killed, and once which view is finalized: the first one last.
fn drawn_kills(draw: &mut Draw, arguments: &Arguments, honest: &[u32]) -> Vec<Kill> {
    let at = |draw: &mut Draw| 1 + draw.below(arguments.views * 4 / 5);
    let views: Vec<u64> = (0..arguments.kill).map(|_| at(draw)).collect();
    let mut kills: Vec<Kill> = views
        .into_iter()
        .map(|view| Kill {
            view,
            node: honest[draw.below(honest.len() as u64) as usize],
        })
        .collect();
    kills.sort_unstable();
    kills.reverse();
    kills
}

/// Watches until the run is over, and kills nodes. `kills` gets each kill, with the view that was finalized last.
fn watch(network: &mut Network, arguments: &Arguments, is_signalled: &AtomicBool, kills: &mut Vec<Kill>) -> Outcome<Ended> {
    let honest = network.honest();
    let mut draw = Draw(arguments.seed.wrapping_mul(0x9e37_79b9_7f4a_7c15) | 1);
    let mut waiting = drawn_kills(&mut draw, arguments, &honest);
    let (begun, mut printed, mut moved) = (Instant::now(), (Instant::now(), 0), (Instant::now(), 0));
    while !is_signalled.load(Relaxed) {
        sleep(Duration::from_millis(50));
        let highest = network.highest(&honest);
        if highest > moved.1 {
            moved = (Instant::now(), highest);
        }
        while let Some(kill) = waiting.pop_if(|kill| kill.view <= highest) {
            network.kill(kill.node)?;
            network.tear(kill.node, 1 + draw.below(60) as usize)?;
            kills.push(Kill { view: highest, ..kill });
            sleep(Duration::from_millis(arguments.down));
            network.begin(kill.node)?;
        }
        if printed.0.elapsed() >= Duration::from_secs(1) {
            let rate = (highest - printed.1) as f64 / printed.0.elapsed().as_secs_f64();
            println!("{}", report::line(network, begun.elapsed(), highest, rate)?);
            printed = (Instant::now(), highest);
        }
        let is_over = match arguments.seconds {
            Some(seconds) => begun.elapsed() >= Duration::from_secs(seconds),
            None => waiting.is_empty() && network.wait_for(&honest, arguments.views, Duration::from_millis(1)),
        };
        if is_over {
            return Ok(Ended::Reached);
        }
        if moved.0.elapsed() > STANDSTILL {
            return Ok(Ended::StoodStill);
        }
    }
    Ok(Ended::Signalled)
}
