//! The ledger: accounts after the last final block, and the transactions that wait for a block of this node.

use crate::accounts::{Accounts, Transaction};
use serde::{Deserialize, Serialize};
use simplex_node::{Ancestors, Application, Cancelled, Outcome, Start};
use simplex_view_state::{Context, Digest, View};
use simplex_wire::Block;
use std::fs::{self, File};
use std::io::{self, Write};
use std::path::PathBuf;
use std::sync::{Arc, Mutex, MutexGuard};

const MOST_OF_A_BLOCK: usize = 500;
const MOST_PENDING: usize = 1000;

/// The state after a block, as it is stored: in one step, so the accounts are always those of the block.
#[derive(Clone, Serialize, Deserialize)]
pub struct State {
    pub height: u64,
    pub view: u64,
    payload: [u8; 32],
    pub accounts: Accounts,
}

/// The book that the endpoint and the application share.
pub struct Book {
    pub state: State,
    pending: Vec<Transaction>,
}

/// The result of posting a transaction.
#[derive(Clone, Copy, PartialEq, Eq, Debug)]
pub enum Posted {
    /// It waits until this node leads. Lost where the process ends before: send it again.
    Pending,
    /// Its number was used, by this transaction or by another one.
    Used,
    /// Another transaction with its number waits.
    Taken,
    /// Too many wait.
    Full,
}

impl Book {
    /// Notes a transaction. One that waits already is noted once.
    pub fn post(&mut self, it: Transaction) -> Posted {
        if it.number < self.state.accounts.get(&it.from).next {
            return Posted::Used;
        }
        match self.pending.iter().find(|other| other.from == it.from && other.number == it.number) {
            Some(same) if *same == it => return Posted::Pending,
            Some(_) => return Posted::Taken,
            None if self.pending.len() >= MOST_PENDING => return Posted::Full,
            None => self.pending.push(it),
        }
        Posted::Pending
    }

    pub fn pending(&self) -> usize {
        self.pending.len()
    }
}

/// The application of a node.
pub struct Ledger {
    path: PathBuf,
    book: Arc<Mutex<Book>>,
    durable: u64,
}

impl Ledger {
    /// Continues from the state in the node's folder, or from genesis. A node that begins at a floor has no state of it, and is refused.
    pub fn open(start: &Start) -> Outcome<Ledger> {
        let path = start.folder.join("ledger.json");
        let state = match fs::read(&path) {
            Ok(bytes) => serde_json::from_slice(&bytes).map_err(|error| {
                let path = path.display();
                format!("{path}: {error}: move the file away, and the node applies all blocks again from its archive")
            })?,
            Err(error) if error.kind() == io::ErrorKind::NotFound => at_genesis(start)?,
            Err(error) => return Err(format!("{}: {error}", path.display()).into()),
        };
        let durable = state.height;
        let pending = Vec::new();
        let book = Arc::new(Mutex::new(Book { state, pending }));
        Ok(Ledger { path, book, durable })
    }

    pub fn book(&self) -> Arc<Mutex<Book>> {
        self.book.clone()
    }

    /// The accounts before a block: those after the last final one, and all transactions of the ancestors after that.
    fn accounts_after(&self, ancestors: &Ancestors) -> Accounts {
        let mut accounts = locked(&self.book).state.accounts.clone();
        for it in ancestors.iter().filter_map(transactions).flatten() {
            accounts.apply(&it);
        }
        accounts
    }
}

fn at_genesis(start: &Start) -> Outcome<State> {
    let (view, payload) = start.block;
    if view != View::GENESIS {
        return Err("this ledger begins at genesis: begin the node without a floor".into());
    }
    Ok(State {
        height: 0,
        view: view.get(),
        payload: *payload.bytes(),
        accounts: Accounts::at_genesis(),
    })
}

pub fn locked(book: &Mutex<Book>) -> MutexGuard<'_, Book> {
    book.lock().unwrap_or_else(|it| it.into_inner())
}

/// The transactions in a block; `None` where what it holds is none that a node builds.
fn transactions(block: &Block) -> Option<Vec<Transaction>> {
    let all: Vec<Transaction> = serde_json::from_slice(block.content()).ok()?;
    (all.len() <= MOST_OF_A_BLOCK && all.iter().all(|it| it.fault().is_none())).then_some(all)
}

impl Application for Ledger {
    fn build(&mut self, _: &Context, ancestors: &Ancestors, _: &Cancelled) -> Option<Vec<u8>> {
        let mut accounts = self.accounts_after(ancestors);
        let book = locked(&self.book);
        let mut pending: Vec<&Transaction> = book.pending.iter().collect();
        pending.sort_by_key(|it| it.number); // a sender's transactions are applied in order
        let fits: Vec<&Transaction> = pending.into_iter().filter(|it| accounts.apply(it)).take(MOST_OF_A_BLOCK).collect();
        serde_json::to_vec(&fits).ok()
    }

    /// All transactions of a block have an effect: no ancestor has one of them, and no account pays more than it has.
    fn verify(&mut self, block: &Block, ancestors: &Ancestors, _: &Cancelled) -> Option<bool> {
        let mut accounts = self.accounts_after(ancestors);
        Some(transactions(block).is_some_and(|all| all.iter().all(|it| accounts.apply(it))))
    }

    fn certify(&mut self, block: &Block, ancestors: &Ancestors, cancelled: &Cancelled) -> Option<bool> {
        self.verify(block, ancestors, cancelled)
    }

    fn finalized(&mut self, block: &Block) -> io::Result<()> {
        let mut book = locked(&self.book);
        let Book { state, pending } = &mut *book;
        for it in transactions(block).unwrap_or_default() {
            if !state.accounts.apply(&it) {
                return Err(io::Error::other(format!(
                    "the final block of view {} has a transaction without effect",
                    block.view
                )));
            }
        }
        pending.retain(|it| it.number >= state.accounts.get(&it.from).next);
        (state.height, state.view, state.payload) = (state.height + 1, block.view.get(), *block.payload().bytes());
        Ok(())
    }

    fn last(&self) -> (View, Digest) {
        let state = &locked(&self.book).state;
        (View::new(state.view), Digest::new(state.payload))
    }

    fn height(&self) -> u64 {
        locked(&self.book).state.height
    }

    /// Stores the state in place of the one before. After a crash the node gets the blocks behind it again.
    fn durable(&mut self) -> io::Result<u64> {
        let state = locked(&self.book).state.clone();
        if state.height > self.durable {
            let new = self.path.with_extension("json.new");
            let mut file = File::create(&new)?;
            file.write_all(&serde_json::to_vec(&state)?)?;
            file.sync_all()?;
            fs::rename(&new, &self.path)?;
            self.path.parent().map_or(Ok(()), |folder| File::open(folder)?.sync_all())?;
            self.durable = state.height;
        }
        Ok(self.durable)
    }
}
