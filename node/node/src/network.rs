//! A network of nodes on this machine, each a process: how it is made, watched, disturbed and looked at afterwards.

use crate::crypto;
use crate::faults::{Fault, Trial};
use crate::ledger::{self, Link};
use crate::metrics::Counters;
use crate::run_folder::RunFolder;
use crate::settings::{Archived, Outcome, Peer, Protocol, Settings};
use crate::trace::{self, Line};
use simplex_identity::NetworkName;
use std::fs::{self, File, OpenOptions};
use std::io::{Read, Write};
use std::net::{Ipv4Addr, SocketAddr, TcpListener, TcpStream};
use std::path::{Path, PathBuf};
use std::process::{Child, Command, Stdio};
use std::sync::atomic::{AtomicU16, Ordering};
use std::thread::sleep;
use std::time::{Duration, Instant};

/// How long a node has to end when it is asked to.
const ENDS_WITHIN: Duration = Duration::from_secs(60);
/// How long a node has to reply with what it counts, on a machine that does much else.
const REPLIES_WITHIN: Duration = Duration::from_secs(5);

/// How a network is made.
#[derive(Clone, Debug)]
pub struct Plan {
    /// How many nodes.
    pub nodes: u32,
    /// How the protocol is run.
    pub protocol: Protocol,
    /// True if votes wait for the disk.
    pub sync: bool,
    /// The faults of the nodes of these indices.
    pub faults: Vec<(u32, Fault)>,
    /// How long each frame is on its way, in milliseconds.
    pub delay_ms: u64,
    /// The program of a node.
    pub program: PathBuf,
    /// The folder of all that is written: new, empty, or of an earlier run, whose files are removed ([`RunFolder`]).
    pub folder: PathBuf,
}

/// Nodes that run.
pub struct Network {
    plan: Plan,
    /// While it exists, no other run uses the folder.
    _folder: RunFolder,
    settings: Vec<Settings>,
    children: Vec<Option<Child>>,
    /// How often each was begun.
    pub lives: Vec<u32>,
}

impl Network {
    /// Makes keys and settings in the plan's folder, and begins no node. A folder that is not a run's is refused, and left as it is.
    pub fn new(plan: Plan) -> Outcome<Network> {
        let folder = RunFolder::take(&plan.folder)?;
        let addresses = free_addresses(2 * plan.nodes as usize)?;
        let members = make_members(&plan, &addresses)?;
        let name = NetworkName::try_from("local".to_owned())?;
        let settings_of = |index: u32| Settings {
            network: name.clone(),
            index,
            data: PathBuf::from(index.to_string()),
            key: PathBuf::from(format!("{index}.pem")),
            signer: None,
            listen: None,
            metrics: Some(addresses[2 * index as usize + 1]),
            sync: plan.sync,
            has_journal: false,
            trace: Some(PathBuf::from(format!("{index}.votes"))),
            events: None,
            floor: None,
            state_sync: None,
            archive: Archived::default(),
            protocol: plan.protocol.clone(),
            trial: Trial {
                fault: plan.faults.iter().find(|it| it.0 == index).map(|it| it.1),
                delay_ms: plan.delay_ms,
                cut: Some(PathBuf::from(format!("{index}.cut"))),
                ..Trial::default()
            },
            members: members.clone(),
        };
        let network = Network {
            settings: (0..plan.nodes).map(settings_of).collect(),
            children: (0..plan.nodes).map(|_| None).collect(),
            lives: vec![0; plan.nodes as usize],
            _folder: folder,
            plan,
        };
        (0..network.plan.nodes).try_for_each(|index| network.write_settings(index))?;
        Ok(network)
    }

    fn write_settings(&self, index: u32) -> Outcome {
        let text = toml::to_string(&toml::Value::try_from(&self.settings[index as usize])?)?;
        Ok(fs::write(self.config(index), text)?)
    }

    /// The folder of all that is written.
    pub fn folder(&self) -> &Path {
        &self.plan.folder
    }

    /// The settings file of a node.
    pub fn config(&self, index: u32) -> PathBuf {
        self.plan.folder.join(format!("{index}.toml"))
    }

    /// The folder of a node's data.
    pub fn data(&self, index: u32) -> PathBuf {
        self.plan.folder.join(index.to_string())
    }

    /// Changes a node's settings, for its next lifetime.
    pub fn set(&mut self, index: u32, change: impl FnOnce(&mut Settings)) -> Outcome {
        change(&mut self.settings[index as usize]);
        self.write_settings(index)
    }

    /// Begins a node.
    pub fn begin(&mut self, index: u32) -> Outcome {
        let config = self.config(index);
        let mut command = Command::new(&self.plan.program);
        command.arg("--config").arg(config);
        self.begin_by(index, command)
    }

    /// Begins a node whose files can't grow beyond so many blocks of 512 bytes: as on a disk that gets full.
    pub fn begin_on_small_disk(&mut self, index: u32, blocks: u32) -> Outcome {
        self.begin_limited(index, &format!("trap '' XFSZ; ulimit -f {blocks}"))
    }

    /// Begins a node that has no more than so many file descriptors.
    pub fn begin_with_few_files(&mut self, index: u32, files: u32) -> Outcome {
        self.begin_limited(index, &format!("ulimit -n {files}"))
    }

    /// Begins a node with these variables in its environment.
    pub fn begin_with_variables(&mut self, index: u32, variables: &[(&str, String)]) -> Outcome {
        let mut command = Command::new(&self.plan.program);
        command.arg("--config").arg(self.config(index));
        command.envs(variables.iter().map(|(name, value)| (name, value)));
        self.begin_by(index, command)
    }

    fn begin_limited(&mut self, index: u32, limit: &str) -> Outcome {
        let script = format!("{limit}; exec \"$0\" --config \"$1\"");
        let mut command = Command::new("sh");
        command.arg("-c").arg(script).arg(&self.plan.program).arg(self.config(index));
        self.begin_by(index, command)
    }

    /// Makes the folder of a node's data. A node that begins for the first time does so by itself.
    pub fn init(&self, index: u32) -> Outcome {
        crate::init(&Settings::read(&self.config(index))?)
    }

    /// Makes the folder of a node that never began.
    fn prepare(&self, index: u32) -> Outcome {
        if self.lives[index as usize] == 0 && !self.data(index).exists() {
            self.init(index)?;
        }
        Ok(())
    }

    fn begin_by(&mut self, index: u32, mut command: Command) -> Outcome {
        self.prepare(index)?;
        let log: File = OpenOptions::new().create(true).append(true).open(self.log(index))?;
        let child = command.stdin(Stdio::null()).stdout(log.try_clone()?).stderr(log).spawn()?;
        self.children[index as usize] = Some(child);
        self.lives[index as usize] += 1;
        Ok(())
    }

    /// The file of a node's messages.
    pub fn log(&self, index: u32) -> PathBuf {
        self.plan.folder.join(format!("{index}.log"))
    }

    /// Begins all nodes, about at once: their folders, which wait for the disk, are made before the first one runs. Else the last one may
    /// begin behind all that the others keep.
    pub fn begin_all(&mut self) -> Outcome {
        (0..self.plan.nodes).try_for_each(|index| self.prepare(index))?;
        (0..self.plan.nodes).try_for_each(|index| self.begin(index))
    }

    /// Kills a node at once, by SIGKILL.
    pub fn kill(&mut self, index: u32) -> Outcome {
        if let Some(mut child) = self.children[index as usize].take() {
            child.kill()?;
            child.wait()?;
        }
        Ok(())
    }

    /// Leaves a beginning of a piece at the end of a node's journal, as a crash in the midst of writing does. The node must not run.
    pub fn tear(&self, index: u32, bytes: usize) -> Outcome {
        let path = simplex_journal::path(&self.data(index));
        let stored = fs::read(&path)?;
        let last = stored.len().saturating_sub(bytes.max(1));
        // The first piece is whole: a beginning of it after the end is a piece that was cut off.
        let first = stored.get(simplex_journal::HEAD..last).unwrap_or_default();
        let begun = &first[..bytes.min(first.len()).min(40)];
        let mut file = OpenOptions::new().append(true).open(path)?;
        Ok(file.write_all(begun)?)
    }

    /// The process of a node that runs.
    pub fn process(&self, index: u32) -> Option<u32> {
        self.children[index as usize].as_ref().map(Child::id)
    }

    /// Returns whether a node has ended by itself.
    pub fn has_ended(&mut self, index: u32) -> Outcome<bool> {
        match &mut self.children[index as usize] {
            None => Ok(false),
            Some(child) => Ok(child.try_wait()?.is_some()),
        }
    }

    /// Cuts the links between two groups of nodes, or joins them again.
    pub fn cut(&self, groups: Option<(&[u32], &[u32])>) -> Outcome {
        let all = |indices: &[u32]| indices.iter().map(u32::to_string).collect::<Vec<_>>().join(" ");
        let Some((one, other)) = groups else {
            for index in 0..self.plan.nodes {
                let _ = fs::remove_file(self.plan.folder.join(format!("{index}.cut")));
            }
            return Ok(());
        };
        for (here, there) in [(one, other), (other, one)] {
            for index in here {
                fs::write(self.plan.folder.join(format!("{index}.cut")), all(there))?;
            }
        }
        Ok(())
    }

    /// Cuts the link from one node to another, one way, until links are joined again.
    pub fn cut_one_way(&self, from: u32, to: u32) -> Outcome {
        Ok(fs::write(self.plan.folder.join(format!("{from}.cut")), format!(">{to}"))?)
    }

    /// Returns what a node counts, at one moment; `None` where it does not reply.
    pub fn metrics(&self, index: u32) -> Option<Metrics> {
        get_metrics(self.settings[index as usize].metrics?).map(Metrics)
    }

    /// Returns what a node counts under a name; `None` where it does not reply.
    pub fn metric(&self, index: u32, name: &str) -> Option<u64> {
        self.metrics(index)?.get(name)
    }

    /// Waits until these nodes have all finalized a view, or the time is over. Whether they have.
    pub fn wait_for(&self, nodes: &[u32], view: u64, within: Duration) -> bool {
        self.wait_until(nodes, "last_finalized", view, within)
    }

    /// Waits until these nodes all count so much under a name, or the time is over. Whether they do.
    pub fn wait_until(&self, nodes: &[u32], name: &str, least: u64, within: Duration) -> bool {
        let begun = Instant::now();
        while begun.elapsed() < within {
            if nodes.iter().all(|index| self.metric(*index, name).is_some_and(|it| it >= least)) {
                return true;
            }
            sleep(Duration::from_millis(50));
        }
        false
    }

    /// The highest view that one of these nodes has finalized.
    pub fn highest(&self, nodes: &[u32]) -> u64 {
        nodes
            .iter()
            .filter_map(|index| self.metric(*index, "last_finalized"))
            .max()
            .unwrap_or(0)
    }

    /// Tells all nodes to stop, and waits until they have.
    pub fn stop(&mut self) -> Outcome {
        for child in self.children.iter().flatten() {
            let _ = Command::new("kill").arg("-TERM").arg(child.id().to_string()).status()?;
        }
        let begun = Instant::now();
        for (index, child) in self.children.iter_mut().enumerate() {
            let Some(mut child) = child.take() else { continue };
            while child.try_wait()?.is_none() {
                if begun.elapsed() > ENDS_WITHIN {
                    child.kill()?;
                    child.wait()?;
                    return Err(format!("node {index} does not stop").into());
                }
                sleep(Duration::from_millis(10));
            }
        }
        Ok(())
    }

    /// The finalized chain of each node.
    pub fn chains(&self) -> Outcome<Vec<Vec<Link>>> {
        Ok((0..self.plan.nodes)
            .map(|index| ledger::read_chain(&self.data(index)))
            .collect::<Result<_, _>>()?)
    }

    /// All votes that a node sent or was sent.
    pub fn votes(&self) -> Outcome<Vec<Line>> {
        let all = (0..self.plan.nodes).map(|index| trace::read(&self.plan.folder.join(format!("{index}.votes"))));
        Ok(all.collect::<Result<Vec<_>, _>>()?.concat())
    }

    /// The nodes that do nothing wrong.
    pub fn honest(&self) -> Vec<u32> {
        let is_faulty = |index: &u32| self.plan.faults.iter().any(|it| it.0 == *index && it.1 != Fault::Jumps);
        (0..self.plan.nodes).filter(|index| !is_faulty(index)).collect()
    }
}

/// The members of a network, each with a key that is made in the plan's folder.
fn make_members(plan: &Plan, addresses: &[SocketAddr]) -> Outcome<Vec<Peer>> {
    let member = |index: u32| -> Outcome<Peer> {
        Ok(Peer {
            address: addresses[2 * index as usize].into(),
            key: crypto::make_key(&plan.folder.join(format!("{index}.pem")))?,
            link: None,
        })
    };
    (0..plan.nodes).map(member).collect()
}

/// The counters of a node, all read at one moment.
pub struct Metrics(String);

impl Metrics {
    /// The count under a name of [`Counters`], in its units; `None` where nothing is counted so.
    pub fn get(&self, name: &str) -> Option<u64> {
        let exported = Counters::exported(name)?;
        let line = self
            .0
            .lines()
            .find_map(|line| line.strip_prefix(&exported.name)?.strip_prefix(' '))?;
        Some((line.parse::<f64>().ok()? / exported.scale).round() as u64)
    }
}

impl Drop for Network {
    fn drop(&mut self) {
        for child in self.children.iter_mut().flatten() {
            let _ = child.kill();
            let _ = child.wait();
        }
    }
}

/// Where the search for free ports continues in this process.
static NEXT_PORT: AtomicU16 = AtomicU16::new(0);

/// An address of this machine that is this process's own: networks of other processes take other ones, so a node that begins late finds
/// its port free. Connections begin at 127.0.0.1.
fn own_address() -> Ipv4Addr {
    let [_, high, middle, low] = std::process::id().to_be_bytes();
    Ipv4Addr::new(127, 128 | high, middle, low)
}

/// Addresses of this machine that nobody listens at, each returned once.
fn free_addresses(count: usize) -> Outcome<Vec<SocketAddr>> {
    let mut addresses = Vec::new();
    for _ in 0..20_000 {
        if addresses.len() == count {
            return Ok(addresses);
        }
        let port = 10_000 + NEXT_PORT.fetch_add(1, Ordering::Relaxed) % 20_000;
        let address = SocketAddr::from((own_address(), port));
        if TcpListener::bind(address).is_ok() {
            addresses.push(address);
        }
    }
    Err("no port is free".into())
}

fn get_metrics(address: SocketAddr) -> Option<String> {
    let mut stream = TcpStream::connect_timeout(&address, REPLIES_WITHIN).ok()?;
    stream.set_read_timeout(Some(REPLIES_WITHIN)).ok()?;
    stream.write_all(b"GET /metrics HTTP/1.1\r\n\r\n").ok()?;
    let mut text = String::new();
    stream.read_to_string(&mut text).ok()?;
    Some(text)
}

/// The program of a node, beside this one.
pub fn program_beside() -> Outcome<PathBuf> {
    let program = std::env::current_exe()?.with_file_name("simplex-node");
    if !program.exists() {
        return Err(format!("{} is not built: `cargo build --release` builds both programs", program.display()).into());
    }
    Ok(program)
}

/// A folder for a run, under the machine's folder for such.
pub fn folder_of(name: &str) -> PathBuf {
    std::env::temp_dir().join(Path::new(&format!("simplex-local-{}-{name}", std::process::id())))
}
