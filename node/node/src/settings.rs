//! The settings of a node: a TOML file. `node/node.toml` is one, with reasons.

use crate::crypto::raw_key;
use crate::faults::Trial;
use crate::pace::Pace;
use serde::{Deserialize, Serialize};
use simplex_identity::{Identity, NetworkName, members_digest};
use simplex_net::Address;
use simplex_view_state::{Config, Digest, Epoch, Floor, Participant, Skip, Terms, View, ViewDelta};
use std::fs;
use std::net::SocketAddr;
use std::num::NonZeroU32;
use std::path::{Path, PathBuf};
use std::time::Duration;

/// A result whose error is printed to whoever started the process.
pub type Outcome<T = ()> = Result<T, Box<dyn std::error::Error>>;

/// The settings of one node.
#[derive(Clone, Debug, Deserialize, Serialize)]
#[serde(deny_unknown_fields)]
pub struct Settings {
    /// The network's name. The namespace of each vote is drawn from it, so it has to be the same for all members, and another one for each
    /// network.
    pub network: NetworkName,
    /// Which of the members this node is: its place in `members`, from 0.
    pub index: u32,
    /// The folder of its journal, blocks and chain. A relative path is taken from the folder of the settings file.
    pub data: PathBuf,
    /// The file of its secret key, as `simplex-node keygen` makes it.
    pub key: PathBuf,
    /// The socket of the process that signs this member's votes, `simplex-node signer`; by default the node signs them itself. With it
    /// `key` is the secret key of the node's links, whose public one is the member's `link`.
    pub signer: Option<PathBuf>,
    /// Where this node listens; by default at its own address among the members. It differs where others dial it by another one.
    pub listen: Option<Address>,
    /// Where metrics are served, by HTTP, to whoever asks; nowhere by default.
    pub metrics: Option<SocketAddr>,
    /// True if a vote waits until the disk has it. Without it, a machine that loses power may vote twice.
    #[serde(default = "yes")]
    pub sync: bool,
    /// Has no effect: each node refuses to begin without a journal. Settings of earlier releases name it.
    #[serde(default)]
    pub has_journal: bool,
    /// Where all votes that are sent or received are written down, for audits; nowhere by default.
    pub trace: Option<PathBuf>,
    /// Where all events are traced, for `simplex-view`; nowhere by default. A process lifetime is appended.
    pub events: Option<PathBuf>,
    /// How final blocks are stored.
    #[serde(default)]
    pub archive: Archived,
    /// How the protocol is run: the same for all members.
    #[serde(default)]
    pub protocol: Protocol,
    /// All members, in the same order for all of them.
    pub members: Vec<Peer>,
    /// The certificate of a finalized proposal from which a node begins that has no journal: `floor` of another node's folder. Genesis by
    /// default.
    pub floor: Option<PathBuf>,
    /// Where more final views than these are missing, or blocks that peers have pruned, the node takes the application's state of its peers
    /// in place of the blocks. By default it never does.
    pub state_sync: Option<u64>,
    /// The trial of this node; by default there is none.
    #[serde(default)]
    pub trial: Trial,
}

/// How final blocks are stored.
#[derive(Clone, Debug, Deserialize, Serialize)]
#[serde(deny_unknown_fields, default)]
pub struct Archived {
    /// Above how many bytes the oldest segments are removed, once the application has their blocks on the disk. By default none is.
    pub most_bytes: Option<u64>,
    /// How long a segment gets, in bytes.
    pub segment_bytes: u64,
}

impl Default for Archived {
    fn default() -> Archived {
        Archived {
            most_bytes: None,
            segment_bytes: 16 << 20,
        }
    }
}

/// A member as the others reach it.
#[derive(Clone, Debug, Deserialize, Serialize)]
#[serde(deny_unknown_fields)]
pub struct Peer {
    /// Where the others dial it: a host's address or name, and a port. A name is resolved each time.
    pub address: Address,
    /// Its public key, in hexadecimal digits.
    pub key: String,
    /// The public key of its links, where another process than the node has the key of its votes; by default it is `key`.
    pub link: Option<String>,
}

impl Peer {
    /// The public key of its links.
    pub fn link_key(&self) -> &str {
        self.link.as_deref().unwrap_or(&self.key)
    }
}

/// The settings that all members must share, and the times of a member.
#[derive(Clone, Debug, Deserialize, Serialize)]
#[serde(deny_unknown_fields, default)]
pub struct Protocol {
    /// The epoch. Votes of another one are ignored.
    pub epoch: u64,
    /// How many views in a row have the same leader.
    pub term_length: NonZeroU32,
    /// How many views ahead of the current one, in its term, may be voted for.
    pub optimistic_views: u64,
    /// How long a view waits for its leader's proposal. Some round trips between the farthest members, and the time of a build.
    pub leader_timeout_ms: u64,
    /// How long a view waits until its proposal is certified; above the leader's timeout by a round trip and the time to verify.
    pub certification_timeout_ms: u64,
    /// After how long a vote to nullify is sent again: a lost message costs so much.
    pub timeout_retry_ms: u64,
    /// After how long without a message a leader counts as absent, so that its views are skipped; above the other times.
    pub inactivity_ms: u64,
    /// How many views below the last finalized one are kept: what peers that are so far behind are still served.
    pub view_retention: u64,
    /// The least time between two blocks that this node builds, in milliseconds; 0 builds as soon as one is asked for.
    pub pace_ms: u64,
    /// How long a build in a handoff waits: of the first view of this member's term, before the last view of the term before is certified.
    /// 0 builds at once. A leader before this one that proposes two blocks costs this member its view, if it has built on the wrong one.
    pub handoff_wait_ms: u64,
    /// After how many blocks the ledger has another snapshot for peers, the same for all members; 0 makes none.
    pub snapshot_blocks: u64,
}

impl Default for Protocol {
    fn default() -> Protocol {
        Protocol {
            epoch: 1,
            term_length: NonZeroU32::MIN,
            optimistic_views: 0,
            leader_timeout_ms: 1000,
            certification_timeout_ms: 2000,
            timeout_retry_ms: 500,
            inactivity_ms: 3000,
            view_retention: 64,
            pace_ms: 0,
            handoff_wait_ms: 0,
            snapshot_blocks: 1000,
        }
    }
}

fn yes() -> bool {
    true
}

impl Settings {
    /// Reads a settings file. Relative paths in it are taken from its folder.
    pub fn read(path: &Path) -> Outcome<Settings> {
        let text = fs::read_to_string(path).map_err(|error| format!("{}: {error}", path.display()))?;
        let mut settings: Settings = toml::from_str(&text).map_err(|error| format!("{}: {error}", path.display()))?;
        let folder = path.parent().unwrap_or(Path::new("."));
        settings.data = folder.join(&settings.data);
        settings.key = folder.join(&settings.key);
        settings.signer = settings.signer.map(|signer| folder.join(signer));
        settings.trace = settings.trace.map(|trace| folder.join(trace));
        settings.events = settings.events.map(|events| folder.join(events));
        settings.floor = settings.floor.map(|floor| folder.join(floor));
        settings.trial.cut = settings.trial.cut.map(|cut| folder.join(cut));
        settings.test().map_err(|error| format!("{}: {error}", path.display()))?;
        Ok(settings)
    }

    fn test(&self) -> Result<(), String> {
        if self.index as usize >= self.members.len() {
            return Err(format!(
                "there are {} members, and this is member {}",
                self.members.len(),
                self.index
            ));
        }
        if self.signer.is_some() && self.members[self.index as usize].link.is_none() {
            return Err(format!(
                "`signer` and the `link` of member {} go together: a process that signs votes has the member's key, and the node that of its links",
                self.index
            ));
        }
        self.test_members()
    }

    /// Each member has a key and an address of its own: two with one key would vote against each other.
    fn test_members(&self) -> Result<(), String> {
        for (index, member) in self.members.iter().enumerate() {
            for key in [&member.key, member.link_key()] {
                raw_key(key).map_err(|error| format!("member {index}: {error}"))?;
            }
            if member.link.as_ref().is_some_and(|it| it.eq_ignore_ascii_case(&member.key)) {
                return Err(format!(
                    "member {index} has one key for its votes and its links: leave `link` away, or give it another key"
                ));
            }
            for (other, earlier) in self.members[..index].iter().enumerate() {
                let keys = [&member.key, member.link_key()];
                if keys
                    .iter()
                    .any(|it| it.eq_ignore_ascii_case(&earlier.key) || it.eq_ignore_ascii_case(earlier.link_key()))
                {
                    return Err(format!("members {other} and {index} have one key: give each a key of its own"));
                }
                if earlier.address == member.address {
                    return Err(format!(
                        "members {other} and {index} have one address, {}: give each its own",
                        member.address
                    ));
                }
            }
        }
        Ok(())
    }

    /// Where this node listens.
    pub fn listens_at(&self) -> &Address {
        self.listen.as_ref().unwrap_or(&self.members[self.index as usize].address)
    }

    /// This node's index.
    pub fn me(&self) -> Participant {
        Participant::new(self.index)
    }

    /// Who this node is. A public key that is none is an error.
    pub fn identity(&self) -> Outcome<Identity> {
        let keys = self.members.iter().map(|it| raw_key(&it.key)).collect::<Outcome<Vec<_>>>()?;
        Ok(Identity {
            network: self.network.clone(),
            key: keys[self.index as usize],
            epoch: self.protocol.epoch,
            term_length: self.protocol.term_length.get(),
            members: members_digest(&keys),
        })
    }

    /// How many members there are.
    pub fn count(&self) -> NonZeroU32 {
        NonZeroU32::new(self.members.len() as u32).expect("this node is one of them")
    }

    /// The settings of its member in the library, from a floor. A public key that is none is an error.
    pub fn config(&self, floor: Floor) -> Outcome<Config> {
        let it = &self.protocol;
        let stall = (it.optimistic_views > 0).then(|| Duration::from_millis(it.certification_timeout_ms));
        let (namespace, epoch) = (self.identity()?.namespace(), Epoch::new(it.epoch));
        let mut config = Config::new(namespace, self.count(), Some(self.me()), epoch, Digest::default());
        config.terms = Terms {
            length: it.term_length,
            optimistic_views: ViewDelta::new(it.optimistic_views),
            stall_timeout: stall,
        };
        config.floor = floor;
        config.leader_timeout = Duration::from_millis(it.leader_timeout_ms);
        config.certification_timeout = Duration::from_millis(it.certification_timeout_ms);
        config.timeout_retry = Duration::from_millis(it.timeout_retry_ms);
        config.view_retention = ViewDelta::new(it.view_retention);
        config.skip = Some(Skip {
            timeout: Duration::from_millis(it.inactivity_ms),
            budget: None,
        });
        Ok(config)
    }

    /// Who leads which views.
    pub fn turns(&self) -> Turns {
        Turns::new(self.count(), self.protocol.term_length)
    }

    /// How long builds wait.
    pub(crate) fn pace(&self) -> Pace {
        let (least, handoff) = (self.protocol.pace_ms, self.protocol.handoff_wait_ms);
        Pace::new(Duration::from_millis(least), Duration::from_millis(handoff), self.turns())
    }

    /// After how long without a message a leader counts as absent.
    pub fn inactivity(&self) -> Duration {
        Duration::from_millis(self.protocol.inactivity_ms)
    }
}

/// The turns of the members, a term each. The engine knows them of the views that it tracks; this is for all views, and for threads that
/// don't own the engine.
#[derive(Clone, Copy, Debug)]
pub struct Turns {
    members: NonZeroU32,
    term_length: NonZeroU32,
}

impl Turns {
    /// The turns of so many members, with this many views a term.
    pub fn new(members: NonZeroU32, term_length: NonZeroU32) -> Turns {
        Turns { members, term_length }
    }

    /// Returns whether a view is the first one of its term.
    pub fn begins_term(&self, view: View) -> bool {
        view.get() % u64::from(self.term_length.get()) == 1 % u64::from(self.term_length.get())
    }

    /// Who leads a view.
    pub fn leader(&self, view: View) -> Participant {
        let term = view.get().saturating_sub(1) / u64::from(self.term_length.get());
        Participant::new((term % u64::from(self.members.get())) as u32)
    }
}

#[cfg(test)]
mod tests {
    use super::*;

    const EXAMPLE: &str = include_str!("../../node.toml");

    #[test]
    fn the_example_names_each_default() {
        let all: Settings = toml::from_str(EXAMPLE).expect("settings");
        let is_asked = |line: &&str| {
            ["network", "index", "data", "key", "[[members]]", "address"]
                .iter()
                .any(|it| line.starts_with(it))
        };
        let least: Settings = toml::from_str(&EXAMPLE.lines().filter(is_asked).collect::<Vec<_>>().join("\n")).expect("settings");
        assert_eq!(format!("{all:?}"), format!("{least:?}"));
        assert_eq!((all.members.len(), all.test()), (4, Ok(())));
    }

    #[test]
    fn what_is_unknown_or_no_member_is_refused() {
        assert!(toml::from_str::<Settings>(&format!("indices = 3\n{EXAMPLE}")).is_err());
        let mut settings: Settings = toml::from_str(EXAMPLE).expect("settings");
        settings.index = 4;
        assert!(settings.test().is_err());
        for text in ["27100", "a b:27100", "10.0.0.300:27100"] {
            let said = toml::from_str::<Settings>(&EXAMPLE.replacen("127.0.0.1:27100", text, 1)).expect_err("it is refused");
            assert!(said.to_string().contains("a colon, and its port"), "{said}");
        }
    }

    #[test]
    fn names_are_taken_and_a_node_listens_at_the_given_address() {
        let text = EXAMPLE.replacen("127.0.0.1:27100", "node-0.example.org:27100", 1);
        let mut settings: Settings = toml::from_str(&text).expect("settings");
        assert_eq!(settings.test(), Ok(()));
        assert_eq!(settings.listens_at().to_string(), "node-0.example.org:27100");
        settings.listen = Some("0.0.0.0:27100".to_owned().try_into().expect("an address"));
        settings.metrics = Some("0.0.0.0:9100".parse().expect("an address"));
        assert_eq!(
            (settings.test(), settings.listens_at().to_string()),
            (Ok(()), "0.0.0.0:27100".to_owned())
        );
    }

    #[test]
    fn the_keys_of_links_are_given_where_a_signer_has_the_other_and_are_nobody_elses() {
        let mut settings: Settings = toml::from_str(EXAMPLE).expect("settings");
        let (own, others) = (settings.members[0].key.clone(), settings.members[3].key.clone());
        let refused = |it: &Settings| it.test().expect_err("it is refused");
        settings.signer = Some("0.sock".into());
        assert!(refused(&settings).contains("`signer` and the `link` of member 0 go together"));
        settings.members[0].link = Some(others);
        assert!(refused(&settings).contains("members 0 and 3 have one key"));
        settings.members[0].link = Some(own.to_uppercase());
        assert!(refused(&settings).contains("member 0 has one key for its votes and its links"));
        settings.members[0].link = Some("26e8958fc2b227b045c3f489f2ef98f0d5dfac05d3c63339b13802886d53fc05".into());
        assert!(refused(&settings).contains("small order"));
        settings.members[0].link = Some(format!("02{}", "00".repeat(31)));
        assert_eq!(settings.test(), Ok(()));
        settings.signer = None;
        assert_eq!(settings.test(), Ok(()), "the host may have a signer of its own");
    }

    #[test]
    fn members_with_one_key_or_one_address_are_refused_by_name() {
        let settings = || toml::from_str::<Settings>(EXAMPLE).expect("settings");
        let (mut of_one_key, mut of_one_address, mut weak) = (settings(), settings(), settings());
        of_one_key.members[2].key = of_one_key.members[0].key.to_uppercase();
        of_one_address.members[3].address = of_one_address.members[1].address.clone();
        weak.members[1].key = format!("01{}", "00".repeat(31));
        let refused = [of_one_key, of_one_address, weak].map(|it| it.test().expect_err("it is refused"));
        assert!(refused[0].contains("members 0 and 2 have one key"), "{}", refused[0]);
        assert!(refused[1].contains("members 1 and 3 have one address"), "{}", refused[1]);
        assert!(
            refused[2].contains("member 1") && refused[2].contains("small order"),
            "{}",
            refused[2]
        );
    }
}
