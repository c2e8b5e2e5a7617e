//! Makes a page of traces.

use clap::Parser;
use std::path::PathBuf;
use std::process::ExitCode;

/// Makes a page of traces that simplex-sim, simplex-node or simplex-local wrote: one file, which any browser shows and which needs no network.
#[derive(Parser)]
#[command(name = "simplex-view", version)]
struct Arguments {
    /// The traces, all of one network.
    #[arg(required = true)]
    traces: Vec<PathBuf>,
    /// The page: by default the first trace's name with `.html`. A file that is there and is no earlier page is refused.
    #[arg(short, long)]
    out: Option<PathBuf>,
}

fn main() -> ExitCode {
    let arguments = Arguments::parse();
    let out = arguments.out.unwrap_or_else(|| arguments.traces[0].with_extension("html"));
    match simplex_view::write(&arguments.traces, &out) {
        Ok(summary) => {
            println!("{}: {summary}", out.display());
            ExitCode::SUCCESS
        }
        Err(error) => {
            eprintln!("simplex-view: {error}");
            ExitCode::FAILURE
        }
    }
}
