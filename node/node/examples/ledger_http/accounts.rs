//! Accounts, and the transactions that move amounts between them.

use serde::{Deserialize, Serialize};
use std::collections::BTreeMap;

/// The account that has everything at genesis, and how much that is.
const TREASURY: (&str, u64) = ("treasury", 1_000_000);
const LONGEST_NAME: usize = 32;

/// Moves an amount. A sender's transactions are numbered from 0: each number is applied once, in order, however often it is sent.
#[derive(Clone, Debug, PartialEq, Eq, Serialize, Deserialize)]
#[serde(deny_unknown_fields)]
pub struct Transaction {
    pub from: String,
    pub to: String,
    pub amount: u64,
    pub number: u64,
}

impl Transaction {
    /// Says why this can't be a transaction, in any state.
    pub fn fault(&self) -> Option<&'static str> {
        let is_name = |it: &str| {
            (1..=LONGEST_NAME).contains(&it.len())
                && it
                    .bytes()
                    .all(|byte| byte.is_ascii_lowercase() || byte.is_ascii_digit() || byte == b'-')
        };
        if !is_name(&self.from) || !is_name(&self.to) {
            return Some("`from` and `to` are names of 1 to 32 small letters, digits and hyphens");
        }
        (self.amount == 0).then_some("`amount` is 1 at least")
    }
}

/// An account's balance, and the number of its next transaction.
#[derive(Clone, Copy, Debug, Default, PartialEq, Eq, Serialize, Deserialize)]
pub struct Account {
    pub balance: u64,
    pub next: u64,
}

/// All accounts that ever had something.
#[derive(Clone, Debug, PartialEq, Eq, Serialize, Deserialize)]
pub struct Accounts(BTreeMap<String, Account>);

impl Accounts {
    pub fn at_genesis() -> Accounts {
        let (balance, next) = (TREASURY.1, 0);
        Accounts(BTreeMap::from([(TREASURY.0.to_owned(), Account { balance, next })]))
    }

    pub fn get(&self, name: &str) -> Account {
        self.0.get(name).copied().unwrap_or_default()
    }

    /// Applies a transaction where its number is the sender's next and the sender has the amount; else nothing changes. Returns whether it
    /// is applied. All nodes apply the same transactions in the same order, so they agree on this.
    pub fn apply(&mut self, it: &Transaction) -> bool {
        let sender = self.get(&it.from);
        if it.number != sender.next || it.amount > sender.balance {
            return false;
        }
        let (balance, next) = (sender.balance - it.amount, sender.next + 1);
        self.0.insert(it.from.clone(), Account { balance, next });
        let receiver = self.get(&it.to);
        let balance = receiver.balance + it.amount; // the sum of all balances does not grow
        self.0.insert(it.to.clone(), Account { balance, ..receiver });
        true
    }
}
