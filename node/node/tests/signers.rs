//! A node whose votes another process signs, or a signer of its host's own.

use openssl::pkey::PKey;
use simplex_node::crypto::{hex, make_key, raw_key};
use simplex_node::inbox::Event;
use simplex_node::ledger::{Ledger, Options};
use simplex_node::network::{Network, Plan, folder_of};
use simplex_node::settings::Protocol;
use simplex_node::signer::guard::Owner;
use simplex_node::signer::{Local, Remote};
use simplex_node::{Outcome, Settings, Signature, Signer, Start, open_with_signer, run_with_signer};
use simplex_view_state::{Digest, Epoch, Namespace, Proposal, Round, Subject, View};
use std::fs;
use std::path::PathBuf;
use std::process::{Child, Command, Stdio};
use std::sync::Arc;
use std::sync::atomic::{AtomicUsize, Ordering::Relaxed};
use std::sync::mpsc::channel;
use std::thread::{self, sleep};
use std::time::{Duration, Instant};

const SOON: Duration = Duration::from_secs(120);

/// Four nodes, of which the first has a signer.
struct Signed {
    network: Network,
    key: String,
    signer: Option<Child>,
}

impl Signed {
    fn new(name: &str) -> Signed {
        let plan = Plan {
            nodes: 4,
            protocol: Protocol {
                pace_ms: 5,
                ..Protocol::default()
            },
            sync: true,
            faults: Vec::new(),
            delay_ms: 0,
            program: env!("CARGO_BIN_EXE_simplex-node").into(),
            folder: folder_of(name),
        };
        let mut network = Network::new(plan).expect("keys and settings");
        let link = make_key(&network.folder().join("link.pem")).expect("a key");
        let key = Settings::read(&network.config(0)).expect("settings").members[0].key.clone();
        for index in 0..4 {
            let change = |it: &mut Settings| {
                it.members[0].link = Some(link.clone());
                if index == 0 {
                    (it.key, it.signer) = ("link.pem".into(), Some("sock".into()));
                }
            };
            network.set(index, change).expect("a disk");
        }
        Signed {
            network,
            key,
            signer: None,
        }
    }

    fn namespace(&self) -> Namespace {
        let settings = Settings::read(&self.network.config(0)).expect("settings");
        settings.identity().expect("keys").namespace()
    }

    fn path(&self, name: &str) -> PathBuf {
        self.network.folder().join(name)
    }

    fn command(&self, socket: &str, more: &[&str]) -> Command {
        let mut command = Command::new(env!("CARGO_BIN_EXE_simplex-node"));
        command.args(["signer", "--namespace", &self.namespace().to_string(), "--key"]);
        command.arg(self.path("0.pem"));
        command
            .arg("--guard")
            .arg(self.path("guard"))
            .arg("--socket")
            .arg(self.path(socket));
        command.args(more).stdin(Stdio::null()).stdout(Stdio::null());
        command
    }

    fn begin(&mut self, more: &[&str]) {
        let begun = self.command("sock", more).stderr(Stdio::null()).spawn();
        self.signer = Some(begun.expect("a process"));
    }

    fn kill(&mut self) {
        if let Some(mut signer) = self.signer.take() {
            signer.kill().expect("it runs");
            signer.wait().expect("it ends");
        }
    }

    /// The signer, as anybody who can open the socket reaches it.
    fn remote(&self) -> Remote {
        let owner = Owner {
            namespace: self.namespace(),
            epoch: 1,
            key: raw_key(&self.key).expect("a key"),
        };
        Remote::connect(&self.path("sock"), owner).expect("it listens")
    }
}

impl Drop for Signed {
    fn drop(&mut self) {
        self.kill();
    }
}

/// Returns what a process says that has to end with an error.
fn refusal(mut command: Command) -> String {
    let mut child = command.stderr(Stdio::piped()).spawn().expect("a process");
    let begun = Instant::now();
    while child.try_wait().expect("a process").is_none() && begun.elapsed() < SOON {
        sleep(Duration::from_millis(20));
    }
    let _ = child.kill();
    let output = child.wait_with_output().expect("it ended");
    assert_eq!(output.status.code(), Some(1), "it does not end by itself");
    String::from_utf8_lossy(&output.stderr).into_owned()
}

fn round(view: u64) -> Round {
    let (epoch, view) = (Epoch::new(1), View::new(view));
    Round { epoch, view }
}

fn proposal(view: u64, payload: u8) -> Proposal {
    Proposal {
        round: round(view),
        parent: View::GENESIS,
        payload: Digest::new([payload; 32]),
    }
}

#[test]
fn a_node_votes_by_its_signer_also_where_that_is_killed_and_begun_again() {
    let mut signed = Signed::new("signed");
    signed.begin(&["--begin-at", "1"]);
    signed.network.begin_all().expect("processes");
    let network = &signed.network;
    assert!(network.wait_until(&[0], "finalizes", 5, SOON), "it does not vote");
    for _ in 0..2 {
        signed.kill();
        signed.begin(&[]);
        let votes = signed.network.metric(0, "finalizes").expect("it replies");
        assert!(signed.network.wait_until(&[0], "finalizes", votes + 5, SOON), "it votes no more");
    }
    signed.network.stop().expect("they stop");
    let guard = fs::read_to_string(signed.path("guard")).expect("a file");
    assert!(guard.lines().count() > 15 && guard.starts_with(&format!("simplex-signer 2 {} 1 ", signed.namespace())));
    assert!(simplex_node::audit::disagreements(&signed.network.chains().expect("chains")).is_empty());
    signed.kill();
    fs::remove_dir_all(signed.network.folder()).expect("a folder");
}

/// Whoever has the socket, with the node's settings and without its journal, gets no contradiction signed, before or after a restart.
#[test]
fn a_signer_signs_no_two_votes_that_contradict_each_other() {
    let mut signed = Signed::new("contradicts");
    signed.begin(&["--begin-at", "10"]);
    let namespace = signed.namespace();
    let sign = |remote: &Remote, subject: Subject| remote.sign(&subject, &subject.text(&namespace)).map_err(|it| it.to_string());
    for _ in 0..2 {
        let remote = signed.remote();
        let first = sign(&remote, Subject::Notarize(proposal(12, 7))).expect("it signs");
        assert_eq!(
            sign(&remote, Subject::Notarize(proposal(12, 7))).map(|it| hex(&it)),
            Ok(hex(&first))
        );
        let refused = |subject| sign(&remote, subject).expect_err("it is refused");
        assert!(refused(Subject::Notarize(proposal(12, 8))).contains("another vote of this kind"));
        sign(&remote, Subject::Finalize(proposal(12, 7))).expect("it signs");
        assert!(refused(Subject::Nullify(round(12))).contains("never both"));
        assert!(refused(Subject::Nullify(round(9))).contains("nothing below view 10"));
        let other = Subject::Nullify(round(13));
        for text in [
            &b"a handshake, or any text"[..],
            &other.encode(),
            &other.text(&Namespace::new([1; 32])),
        ] {
            let text = remote.sign(&other, text).map_err(|it| it.to_string());
            assert!(text.expect_err("it is refused").contains("no vote of this network"));
        }
        signed.kill();
        signed.begin(&[]);
    }
    // (it makes its socket there, unless it listens already)
    drop(signed.remote());
    signed.kill();
    fs::remove_dir_all(signed.network.folder()).expect("a folder");
}

#[test]
fn what_does_not_fit_is_refused_by_name_and_with_what_to_do() {
    let mut signed = Signed::new("unfit");
    let lost = refusal(signed.command("sock", &[]));
    assert!(lost.contains("guard: ") && lost.contains("--begin-at 1"), "{lost}");
    signed.begin(&["--begin-at", "1"]);
    drop(signed.remote());
    let second = refusal(signed.command("sock", &[]));
    assert!(second.contains("sock: another signer listens there"), "{second}");
    let second = refusal(signed.command("sock-2", &[]));
    assert!(second.contains("guard: another signer has this file"), "{second}");
    // A node of another network than its signer's, and one whose signer is not there.
    let node = |name: &str, signed: &mut Signed| {
        let name = name.to_owned().try_into().expect("a name");
        signed.network.set(0, |it| it.network = name).expect("a disk");
        let mut node = Command::new(env!("CARGO_BIN_EXE_simplex-node"));
        node.arg("--config").arg(signed.network.config(0));
        refusal(node)
    };
    let other = node("other", &mut signed);
    assert!(other.contains("sock: it is of another network, epoch or key"), "{other}");
    signed.kill();
    let lacking = node("local", &mut signed);
    assert!(lacking.contains("sock: ") && lacking.contains("simplex-node signer"), "{lacking}");
    fs::remove_dir_all(signed.network.folder()).expect("a folder");
}

/// A signer of the host's own, which counts what it signs.
struct Counted {
    local: Local,
    signed: Arc<AtomicUsize>,
}

impl Signer for Counted {
    fn sign(&self, subject: &Subject, text: &[u8]) -> Outcome<Signature> {
        self.signed.fetch_add(1, Relaxed);
        self.local.sign(subject, text)
    }
}

/// Node 0 in this process, by a signer with the key of a file. It has the key of its links alone.
fn hosted(signed: &Signed, key: &str, count: &Arc<AtomicUsize>) -> (Settings, Counted) {
    let mut settings = Settings::read(&signed.network.config(0)).expect("settings");
    settings.signer = None;
    let pem = fs::read(signed.path(key)).expect("a key");
    let secret = PKey::private_key_from_pem(&pem).expect("a key");
    let local = Local::new(secret);
    (
        settings,
        Counted {
            local,
            signed: count.clone(),
        },
    )
}

#[test]
fn a_host_runs_a_node_by_a_signer_of_its_own() {
    let mut signed = Signed::new("hosted");
    signed.network.init(0).expect("a folder");
    (1..4).for_each(|index| signed.network.begin(index).expect("a process"));
    let count = Arc::new(AtomicUsize::new(0));
    let (settings, signer) = hosted(&signed, "0.pem", &count);
    // (a replica stays on its thread)
    let (opened, inbox) = channel();
    let running = thread::spawn(move || {
        let ledger = |start: &Start| Ledger::open(start, Options::default());
        let (replica, inbox) = open_with_signer(settings, signer, ledger).expect("good settings");
        opened.send(inbox).expect("the test waits");
        replica.run().map_err(|error| error.to_string())
    });
    let inbox = inbox.recv_timeout(SOON).expect("it begins");
    assert!(signed.network.wait_until(&[0], "finalizes", 5, SOON), "it does not vote");
    inbox.tell(Event::Stop);
    running.join().expect("no panic").expect("it stops");
    assert!(count.load(Relaxed) >= 10, "{} votes", count.load(Relaxed));
    signed.network.stop().expect("they stop");
    assert!(simplex_node::audit::disagreements(&signed.network.chains().expect("chains")).is_empty());
    fs::remove_dir_all(signed.network.folder()).expect("a folder");
}

/// Votes under another key, which all others would take for forgeries, do not leave.
#[test]
fn a_hosts_signer_with_another_key_and_two_signers_at_once_are_refused() {
    let signed = Signed::new("other-key");
    signed.network.init(0).expect("a folder");
    let count = Arc::new(AtomicUsize::new(0));
    let run = |change: fn(&mut Settings)| {
        let (mut settings, signer) = hosted(&signed, "1.pem", &count);
        settings.protocol.leader_timeout_ms = 10;
        change(&mut settings);
        let (ended, end) = channel();
        thread::spawn(move || {
            let done = run_with_signer(settings, signer, |start| Ledger::open(start, Options::default()));
            ended.send(done.expect_err("it is refused").to_string())
        });
        end.recv_timeout(SOON).expect("it ends by itself")
    };
    let twice = run(|it| it.signer = Some("sock".into()));
    assert!(twice.contains("leave one of them away"), "{twice}");
    let other = run(|_| ());
    assert!(other.contains("another key than that of member 0"), "{other}");
    assert_eq!(count.load(Relaxed), 1, "the first vote ends it");
    let (settings, _) = hosted(&signed, "0.pem", &count);
    let none = simplex_node::run(settings, |start| Ledger::open(start, Options::default())).expect_err("it is refused");
    assert!(none.to_string().contains("name its process as `signer`"), "{none}");
    fs::remove_dir_all(signed.network.folder()).expect("a folder");
}
