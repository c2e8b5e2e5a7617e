//! One member of a network, as a process, with the sample application.

use clap::{Parser, Subcommand};
use simplex_node::ledger::{Ledger, Options};
use simplex_node::version::version;
use simplex_node::{Outcome, Settings};
use simplex_node::{crypto, evidence, floor, signer};
use simplex_view_state::Namespace;
use std::fs::File;
use std::io::Write;
use std::path::PathBuf;
use std::process::ExitCode;
use tracing_subscriber::EnvFilter;

/// A member of a network that runs the Simplex protocol.
#[derive(Parser)]
#[command(version = version(), args_conflicts_with_subcommands = true)]
struct Arguments {
    /// The settings of the node, a TOML file.
    #[arg(long, required = true)]
    config: Option<PathBuf>,
    /// Traces all events into this file, for simplex-view. A trace that is there is appended to.
    #[arg(long)]
    trace: Option<PathBuf>,
    #[command(subcommand)]
    command: Option<Command>,
}

#[derive(Subcommand)]
enum Command {
    /// Makes a key: writes the secret one to a new file, and prints the public one.
    Keygen {
        /// Where the secret key goes.
        #[arg(long)]
        out: PathBuf,
    },
    /// Makes the folder of a new member's data, which names its key, network, epoch and members. A node begins with such a folder alone.
    Init {
        /// The settings of the node.
        #[arg(long)]
        config: PathBuf,
    },
    /// Prints the namespace that each vote of the network begins with, for a signer.
    Namespace {
        /// The settings of any node of the network.
        #[arg(long)]
        config: PathBuf,
    },
    /// Signs the votes of a member for its node, over a Unix socket, and never two that contradict each other.
    Signer {
        /// The namespace of the network, as `simplex-node namespace` prints it.
        #[arg(long)]
        namespace: Namespace,
        /// The epoch.
        #[arg(long, default_value_t = 1)]
        epoch: u64,
        /// The file of the member's secret key.
        #[arg(long)]
        key: PathBuf,
        /// The file of what was signed. It has to stay as long as the key does.
        #[arg(long)]
        guard: PathBuf,
        /// Where the signer listens.
        #[arg(long)]
        socket: PathBuf,
        /// Begins the file of a key that has signed nothing from this view on.
        #[arg(long)]
        begin_at: Option<u64>,
    },
    /// Verifies the evidence against members that a node collected: says what each line shows, and fails where one shows nothing.
    Evidence {
        /// The settings of any node of the network, for the members' public keys.
        #[arg(long)]
        config: PathBuf,
        /// The file: `evidence` of a node's data.
        file: PathBuf,
    },
    /// Writes the last finalized proposal of a node that does not run, with its certificate: another node can begin there.
    Floor {
        /// The settings of that node.
        #[arg(long)]
        config: PathBuf,
        /// Where the certificate goes.
        #[arg(long)]
        out: PathBuf,
    },
}

fn main() -> ExitCode {
    let arguments = Arguments::parse();
    let filter = EnvFilter::try_from_default_env().unwrap_or_else(|_| EnvFilter::new("info"));
    tracing_subscriber::fmt()
        .with_env_filter(filter)
        .with_writer(std::io::stderr)
        .init();
    let outcome = match (arguments.command, arguments.config) {
        (Some(Command::Keygen { out }), _) => crypto::make_key(&out).map(|public| println!("{public}")),
        (Some(Command::Init { config }), _) => Settings::read(&config).and_then(|it| simplex_node::init(&it)),
        (Some(Command::Namespace { config }), _) => print_namespace(&config),
        (Some(Command::Floor { config, out }), _) => write_floor(&config, &out),
        (Some(Command::Evidence { config, file }), _) => verify_evidence(&config, &file),
        (Some(it @ Command::Signer { .. }), _) => sign(it),
        (None, Some(config)) => run(&config, arguments.trace),
        (None, None) => Err("--config is missing: name the node's settings file".into()),
    };
    match outcome {
        Ok(()) => ExitCode::SUCCESS,
        Err(error) => {
            eprintln!("simplex-node: {error}");
            ExitCode::FAILURE
        }
    }
}

fn sign(command: Command) -> Outcome {
    let Command::Signer {
        namespace,
        epoch,
        key,
        guard,
        socket,
        begin_at,
    } = command
    else {
        return Ok(());
    };
    signer::run(&signer::Settings {
        namespace,
        epoch,
        key,
        guard,
        socket,
        begin_at,
    })
}

fn print_namespace(config: &std::path::Path) -> Outcome {
    println!("{}", Settings::read(config)?.identity()?.namespace());
    Ok(())
}

fn write_floor(config: &std::path::Path, out: &std::path::Path) -> Outcome {
    let bytes = floor::of(&Settings::read(config)?)?;
    let named = |error: std::io::Error| format!("{}: {error}; name a file that is not there yet", out.display());
    let mut file = File::create_new(out).map_err(named)?;
    file.write_all(&bytes).and_then(|()| file.sync_all()).map_err(named)?;
    Ok(())
}

fn verify_evidence(config: &std::path::Path, file: &std::path::Path) -> Outcome {
    let verified = evidence::verify(&Settings::read(config)?, file)?;
    for it in &verified {
        println!("{}", it.as_ref().unwrap_or_else(|why| why));
    }
    match verified.iter().filter(|it| it.is_err()).count() {
        0 => Ok(()),
        wrong => Err(format!("{}: {wrong} of {} lines show nothing", file.display(), verified.len()).into()),
    }
}

fn run(config: &std::path::Path, trace: Option<PathBuf>) -> Outcome {
    let mut settings = Settings::read(config)?;
    settings.events = trace.or(settings.events);
    let options = Options::of(&settings);
    simplex_node::run(settings, |start| Ledger::open(start, options))
}
