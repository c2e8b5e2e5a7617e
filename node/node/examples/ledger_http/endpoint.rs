//! The endpoint: transactions are posted, balances are shown.

use crate::accounts::Transaction;
use crate::ledger::{Book, Posted, locked};
use serde_json::json;
use simplex_node::Outcome;
use simplex_node::http::{self, Reply, Request};
use std::net::SocketAddr;
use std::sync::{Arc, Mutex};

/// The longest body of a request, in bytes.
const LONGEST: usize = 1024;

/// Serves requests on threads of its own, for as long as the process runs. Returns where.
pub fn serve(at: SocketAddr, book: &Arc<Mutex<Book>>) -> Outcome<SocketAddr> {
    if !at.ip().is_loopback() {
        return Err(format!(
            "{at}: anyone who reaches the endpoint spends from any account: name an address of this machine, 127.0.0.1:8080"
        )
        .into());
    }
    let book = book.clone();
    Ok(http::serve(at, move |request| reply(request, &book)).map_err(|error| format!("{at}: {error}"))?)
}

fn reply(request: &Request, book: &Mutex<Book>) -> Reply {
    let (status, text) = match (request.method.as_str(), request.path.as_str()) {
        ("POST", "/transactions") => posted(&request.body, book),
        ("GET", "/balances") => (200, balances(&locked(book))),
        ("GET", "/height") => (200, height(&locked(book))),
        _ => (404, error("POST /transactions, GET /balances, GET /height")),
    };
    Reply {
        status,
        kind: "application/json",
        body: text + "\n",
    }
}

fn posted(body: &[u8], book: &Mutex<Book>) -> (u16, String) {
    if body.len() > LONGEST {
        return (413, error("a transaction has at most 1024 bytes"));
    }
    let it: Transaction = match serde_json::from_slice(body) {
        Ok(it) => it,
        Err(fault) => {
            return (
                400,
                error(&format!(
                    r#"{fault}: a transaction is {{"from": .., "to": .., "amount": .., "number": ..}}"#
                )),
            );
        }
    };
    if let Some(fault) = it.fault() {
        return (400, error(fault));
    }
    match locked(book).post(it) {
        Posted::Pending => (202, json!({"state": "pending"}).to_string()),
        Posted::Used => (
            409,
            error("this number was used, by this transaction or another: look at the account's `next`"),
        ),
        Posted::Taken => (409, error("another transaction with this number waits")),
        Posted::Full => (503, error("too many transactions wait: send it again later, or to another node")),
    }
}

fn height(book: &Book) -> String {
    json!({"height": book.state.height, "view": book.state.view}).to_string()
}

fn balances(book: &Book) -> String {
    let state = &book.state;
    json!({"height": state.height, "view": state.view, "pending": book.pending(), "accounts": state.accounts}).to_string()
}

fn error(what: &str) -> String {
    json!({"error": what}).to_string()
}
