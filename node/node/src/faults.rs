//! How a node is made to misbehave in trials: faults of its own, slow links, and links that are cut.

use serde::{Deserialize, Serialize};
use std::collections::BTreeSet;
use std::fs;
use std::path::PathBuf;

/// A fault of a node.
#[derive(Clone, Copy, PartialEq, Eq, Debug, Deserialize, Serialize, clap::ValueEnum)]
#[serde(rename_all = "lowercase")]
pub enum Fault {
    /// As leader it signs two blocks in a view, and sends one half of the members the one, and the others the other.
    Equivocates,
    /// As leader it proposes nothing.
    Silent,
    /// It sends bytes that are no message, and frames that claim to be huge.
    Garbage,
    /// It sends old votes again.
    Replays,
    /// It sends votes in the names of others, which it can't sign.
    Forges,
    /// Its clock jumps an hour ahead, again and again.
    Jumps,
}

/// How far a snapshot is installed.
#[derive(Clone, Copy, PartialEq, Eq, Debug, Deserialize, Serialize)]
#[serde(rename_all = "lowercase")]
pub enum Stage {
    /// All its pieces are on the disk.
    Fetched,
    /// The application has it.
    Restored,
    /// The old archive was set aside.
    Aside,
}

/// A trial of a node.
#[derive(Clone, Debug, Default, Deserialize, Serialize)]
#[serde(deny_unknown_fields, default)]
pub struct Trial {
    /// The node's fault.
    pub fault: Option<Fault>,
    /// How long each frame that it sends is on its way, in milliseconds.
    pub delay_ms: u64,
    /// How long the application takes to build, to verify and to judge each block, in milliseconds.
    pub application_ms: u64,
    /// How many bytes a block of the ledger holds; the same for all members.
    pub block_bytes: Option<usize>,
    /// Where the process ends at once, as by SIGKILL, amid the installation of a snapshot.
    pub dies_at: Option<Stage>,
    /// A file with the members whose links are cut, by index: to `3` nothing is sent, and nothing is taken from it; to `>3` nothing is
    /// sent. While the file is there, this holds.
    pub cut: Option<PathBuf>,
}

/// The members whose links are cut.
#[derive(Clone, Debug, Default, PartialEq, Eq)]
pub struct Cuts {
    /// Nothing is sent to them.
    pub to: BTreeSet<u32>,
    /// Nothing is taken from them.
    pub from: BTreeSet<u32>,
}

impl Cuts {
    fn parse(text: &str) -> Cuts {
        let mut cuts = Cuts::default();
        for word in text.split_whitespace() {
            let one_way = word.strip_prefix('>');
            let Ok(member) = one_way.unwrap_or(word).parse() else { continue };
            cuts.to.insert(member);
            cuts.from.extend(one_way.is_none().then_some(member));
        }
        cuts
    }
}

impl Trial {
    /// Ends the process where it is to end at this stage.
    pub fn reached(&self, stage: Stage) {
        if self.dies_at == Some(stage) {
            std::process::abort();
        }
    }

    /// The links that are cut now.
    pub fn cuts(&self) -> Cuts {
        let text = self.cut.as_ref().and_then(|path| fs::read_to_string(path).ok()).unwrap_or_default();
        Cuts::parse(&text)
    }
}

#[cfg(test)]
mod tests {
    use super::*;

    #[test]
    fn links_are_cut_both_ways_or_one_way() {
        let cuts = Cuts::parse("1 >3 x\n");
        assert_eq!((cuts.to, cuts.from), ([1, 3].into(), [1].into()));
    }
}
