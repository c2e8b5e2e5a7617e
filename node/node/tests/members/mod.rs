//! Members that a test plays.

use simplex_net::{Address, Credentials, HEARTBEAT, Session};
use simplex_node::crypto::Keys;
use simplex_node::network::Network;
use simplex_node::peers;
use simplex_node::settings::Settings;
use simplex_view_state::{Context, Digest, Epoch, Participant, Proposal, Round, View};
use simplex_wire::{Block, HEARTBEAT_FRAME, Message, read_frame};
use std::fs;
use std::io::{self, BufReader, Write};
use std::net::{TcpListener, TcpStream};
use std::path::Path;
use std::sync::mpsc::Sender;
use std::sync::{Arc, Mutex};
use std::thread::{self, sleep};
use std::time::{Duration, Instant};

/// Within what time something has to be seen, on a machine that does much else.
#[allow(dead_code, reason = "some tests alone need it")]
pub const SOON: Duration = Duration::from_secs(60);

/// A member's connection to the node, which several threads write to.
#[derive(Clone)]
pub struct Link(Arc<Mutex<Session>>);

impl Link {
    /// A connection that was begun.
    #[allow(dead_code, reason = "some tests alone need it")]
    pub fn of(session: Session) -> Link {
        Link(Arc::new(Mutex::new(session)))
    }

    /// Begins a connection of a member to the node at an address.
    #[allow(dead_code, reason = "some tests alone need it")]
    pub fn begin(credentials: &Credentials, address: &Address) -> Link {
        let begun = Instant::now();
        // (a greeting has two seconds, which may be over on a slow machine)
        loop {
            match credentials.connect(Participant::new(0), address) {
                Ok(session) => return Link(Arc::new(Mutex::new(session))),
                Err(error) => assert!(begun.elapsed() < SOON, "it does not greet: {error}"),
            }
        }
    }

    /// Writes bytes as they are.
    #[allow(dead_code, reason = "some tests alone need it")]
    pub fn write_all(&self, bytes: &[u8]) -> io::Result<()> {
        self.0.lock().expect("nobody panics with it").write_all(bytes)
    }

    /// The connection below the encryption: to see when it ends.
    #[allow(dead_code, reason = "some tests alone need it")]
    pub fn tcp(&self) -> TcpStream {
        self.0
            .lock()
            .expect("nobody panics with it")
            .tcp()
            .try_clone()
            .expect("a connection")
    }

    /// Writes heartbeats until the connection ends.
    #[allow(dead_code, reason = "some tests alone need it")]
    pub fn show_life(&self) {
        let link = self.clone();
        thread::spawn(move || {
            while link.write_all(&HEARTBEAT_FRAME).is_ok() {
                sleep(HEARTBEAT / 5);
            }
        });
    }
}

/// How many bytes of blocks of proposals a node has on the disk.
#[allow(dead_code, reason = "some tests alone need it")]
pub fn stored_blocks(data: &Path) -> u64 {
    let segments = fs::read_dir(data.join("blocks")).expect("a folder").flatten();
    segments
        .map(|it| it.metadata().expect("a file").len() - simplex_node::segments::HEAD)
        .sum()
}

/// A chain of blocks of these views on genesis, whose contents have so many bytes each, with the proposal of each.
#[allow(dead_code, reason = "some tests alone need it")]
pub fn chain(genesis: Digest, views: std::ops::Range<u64>, bytes: usize) -> Vec<(Block, Proposal)> {
    let (mut parent, mut chain) = ((View::GENESIS, genesis), Vec::new());
    for view in views {
        let context = Context {
            round: Round {
                epoch: Epoch::new(1),
                view: View::new(view),
            },
            leader: Participant::new(0),
            parent: parent.0,
            parent_payload: parent.1,
        };
        let block = Block::new(&context, &vec![view as u8; bytes]);
        let proposal = Proposal {
            round: context.round,
            parent: context.parent,
            payload: block.payload(),
        };
        parent = (block.view, block.payload());
        chain.push((block, proposal));
    }
    chain
}

/// The settings of all members of a network.
pub fn settings_of(network: &Network) -> Vec<Settings> {
    let read = |index| Settings::read(&network.config(index)).expect("settings");
    (0..network.lives.len() as u32).map(read).collect()
}

/// The keys of these members, and what they begin and take connections with.
pub fn played(settings: &[Settings]) -> (Vec<Arc<Keys>>, Vec<Credentials>) {
    let keys: Vec<_> = settings.iter().map(|it| Arc::new(Keys::read(it).expect("a key"))).collect();
    let credentials = settings
        .iter()
        .zip(&keys)
        .map(|(it, keys)| peers::credentials(it, keys).expect("a certificate"));
    (keys.clone(), credentials.collect())
}

/// Takes the node's connections to a member, sends heartbeats, and returns what it sends there.
#[allow(dead_code, reason = "some tests alone need it")]
pub fn hear(listener: &TcpListener, member: u32, credentials: &Credentials, told: &Sender<(u32, Message)>) {
    for stream in listener.incoming().flatten() {
        let Ok((_, session)) = credentials.accept(stream) else { continue };
        let mut session = BufReader::new(session);
        while let Ok(frame) = read_frame(&mut session) {
            let message = frame.and_then(|it| Message::decode(&it).ok());
            if message.is_some_and(|it| told.send((member, it)).is_err()) {
                return;
            }
            if session.get_mut().write_all(&[0]).is_err() {
                break;
            }
        }
    }
}
