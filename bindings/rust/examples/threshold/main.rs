//! Certificates of one threshold signature: four engines finalize twenty views.
//!
//! An engine makes each certificate of n - f votes, and it holds their signatures ([`simplex_view_state::Certificate::signatures`]). The
//! host combines these when it sends the certificate, and verifies the one signature when a certificate comes. The engine never reads a
//! certificate's bytes, so it takes both forms. The scheme is a toy: `scheme.rs` says what is missing.
//!
//!     cargo run --example threshold

mod host;
mod network;
mod scheme;

use host::Outcome;

const VIEWS: usize = 20;

fn main() -> Outcome {
    let run = network::run(VIEWS)?;
    for proposal in &run.chains[0] {
        println!("view {:>3}  block {}", proposal.view(), proposal.payload);
    }
    let longest = run.certificates.iter().map(|it| it.bytes().len()).max().unwrap_or(0);
    println!(
        "{} certificates were sent, of at most {longest} bytes beside their subject",
        run.certificates.len()
    );
    println!("member 0's journal has {} bytes", run.journal);
    Ok(())
}
