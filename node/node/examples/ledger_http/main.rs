//! A node whose application is a ledger: it takes transactions over HTTP on this machine, and shows balances.
//!
//!     simplex-node init --config node.toml            makes the node's folder, once
//!     cargo run --example ledger_http -- --config node.toml --http 127.0.0.1:8080
//!     curl --data '{"from":"treasury","to":"alice","amount":5,"number":0}' http://127.0.0.1:8080/transactions
//!     curl http://127.0.0.1:8080/balances
//!
//! A transaction waits at the node that it was posted to until that node leads a view. It may be sent again, to any node: it is applied once.
//! Nobody signs transactions here: a ledger of value has each signed by its account's key, which `verify` tests.

mod accounts;
mod endpoint;
mod ledger;

use clap::Parser;
use ledger::Ledger;
use simplex_node::{Outcome, Settings, run};
use std::fs;
use std::net::SocketAddr;
use std::path::PathBuf;

/// A node with a ledger.
#[derive(Parser)]
struct Arguments {
    /// The node's settings: node/node.toml explains them
    #[arg(long)]
    config: PathBuf,
    /// Where transactions are taken, on this machine. The node writes the address to the file `http` in its folder
    #[arg(long, default_value = "127.0.0.1:0")]
    http: SocketAddr,
}

fn main() -> Outcome {
    let asked = Arguments::parse();
    run(Settings::read(&asked.config)?, |start| {
        let ledger = Ledger::open(start)?;
        let at = endpoint::serve(asked.http, &ledger.book())?;
        fs::write(start.folder.join("http"), at.to_string())?;
        println!("transactions are taken at http://{at}");
        Ok(ledger)
    })
}
