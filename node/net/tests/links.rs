//! Members over links of this machine: frames arrive, strangers and other settings are refused, the newest connection counts, forgers wait.

use openssl::pkey::{Id, PKey};
use simplex_net::{Address, Connection, Credentials, Greeting, Members, Peers, Places, Receiver, Watch};
use simplex_view_state::Participant;
use std::io::{self, Read, Write};
use std::net::TcpListener;
use std::sync::atomic::{AtomicU64, Ordering::Relaxed};
use std::sync::mpsc::{self, Sender, channel};
use std::sync::{Arc, Mutex};
use std::thread::sleep;
use std::time::{Duration, Instant};

/// Within what time something has to be seen, on a machine that does much else.
const SOON: Duration = Duration::from_secs(60);
const SETTINGS: [(&str, &str); 2] = [("network", "test"), ("epoch", "1")];

type Received = (Participant, Vec<u8>);

/// Passes frames on; those that begin with an `x` are forged.
struct Inbox(Participant, Sender<Received>);

impl Connection for Inbox {
    type Message = Vec<u8>;

    fn verify(&mut self, frame: &[u8]) -> io::Result<Option<Vec<u8>>> {
        match frame.first() {
            Some(b'x') => Err(io::ErrorKind::PermissionDenied.into()),
            _ => Ok(Some(frame.to_vec())),
        }
    }

    fn take(&mut self, frame: Vec<u8>, _: usize) -> bool {
        self.1.send((self.0, frame)).is_ok()
    }
}

struct Inboxes(Mutex<Sender<Received>>);

impl Receiver for Inboxes {
    type Connection = Inbox;

    fn connection(&self, from: Participant) -> Inbox {
        Inbox(from, self.0.lock().expect("nobody panics with it").clone())
    }
}

#[derive(Default)]
struct Counts {
    refused_greetings: AtomicU64,
    offences: AtomicU64,
    connected: AtomicU64,
}

impl Watch for Counts {
    fn connected(&self, _: Participant) {
        self.connected.fetch_add(1, Relaxed);
    }

    fn refused_greeting(&self) {
        self.refused_greetings.fetch_add(1, Relaxed);
    }

    fn offended(&self, _: Participant) {
        self.offences.fetch_add(1, Relaxed);
    }
}

/// A network of three, whose members a test begins as it likes.
struct Network {
    secrets: Vec<[u8; 32]>,
    public: Vec<[u8; 32]>,
    places: Vec<Address>,
}

/// A member that runs.
struct Endpoint {
    peers: Peers,
    received: mpsc::Receiver<Received>,
    counts: Arc<Counts>,
}

fn public_of(secret: &[u8; 32]) -> [u8; 32] {
    let key = PKey::private_key_from_raw_bytes(secret, Id::ED25519).expect("a key");
    key.raw_public_key().expect("32 bytes").try_into().expect("32 bytes")
}

fn member(index: u32) -> Participant {
    Participant::new(index)
}

fn framed(text: &str) -> Vec<u8> {
    [&(text.len() as u32).to_be_bytes()[..], text.as_bytes()].concat()
}

impl Network {
    fn new() -> Network {
        let secrets: Vec<[u8; 32]> = (1..=3).map(|it| [it; 32]).collect();
        let held: Vec<TcpListener> = (0..3).map(|_| TcpListener::bind("127.0.0.1:0").expect("a port")).collect();
        let port = |it: &TcpListener| it.local_addr().expect("an address").port();
        Network {
            public: secrets.iter().map(public_of).collect(),
            places: held
                .iter()
                .map(|it| format!("localhost:{}", port(it)).try_into().expect("a name"))
                .collect(),
            secrets,
        }
    }

    fn credentials(&self, index: u32, settings: &[(&str, &str)]) -> Credentials {
        let me = Members::of_raw_key(member(index), &self.secrets[index as usize], &self.public).expect("its key");
        Credentials::new(me, Greeting::new(settings)).expect("a certificate")
    }

    fn begin(&self, index: u32) -> Endpoint {
        let (to, received) = channel();
        let counts = Arc::new(Counts::default());
        let places = Places {
            listen: self.places[index as usize].clone(),
            members: self.places.clone(),
            delay: Duration::ZERO,
        };
        let inboxes = Inboxes(Mutex::new(to));
        let peers = Peers::start(&places, self.credentials(index, &SETTINGS), inboxes, counts.clone()).expect("a free port");
        Endpoint { peers, received, counts }
    }

    /// Connects as a member by hand, until that succeeds.
    fn connected(&self, index: u32, to: u32) -> simplex_net::Session {
        let credentials = self.credentials(index, &SETTINGS);
        comes(|| credentials.connect(member(to), &self.places[to as usize]).ok())
    }
}

/// Waits until there is something.
fn comes<T>(mut it: impl FnMut() -> Option<T>) -> T {
    let begun = Instant::now();
    loop {
        if let Some(it) = it() {
            return it;
        }
        assert!(begun.elapsed() < SOON, "it does not come");
        sleep(Duration::from_millis(10));
    }
}

/// The other side ends a connection, though this one sends heartbeats.
fn ends(session: &mut simplex_net::Session) {
    session.tcp().set_read_timeout(Some(Duration::from_millis(100))).expect("a timeout");
    comes(|| {
        let _ = session.write_all(&[0; 4]);
        match session.read(&mut [0; 64]) {
            Ok(0) => Some(()),
            Ok(_) => None,
            Err(error) => (error.kind() != io::ErrorKind::WouldBlock).then_some(()),
        }
    });
}

#[test]
fn frames_arrive_in_order_from_the_member_that_sent_them() {
    let network = Network::new();
    let endpoints: Vec<Endpoint> = (0..3).map(|index| network.begin(index)).collect();
    let texts: Vec<String> = (0..100).map(|it| format!("frame {it}")).collect();
    // (a frame is stored for a second, so the link has to be there)
    comes(|| (endpoints[0].counts.connected.load(Relaxed) == 2).then_some(()));
    for text in &texts {
        endpoints[0].peers.send(member(1), Arc::new(framed(text)));
    }
    for text in &texts {
        let received = endpoints[1].received.recv_timeout(SOON).expect("it comes");
        assert_eq!(received, (member(0), text.as_bytes().to_vec()));
    }
    assert!(endpoints[2].received.try_recv().is_err(), "it was not sent to others");
    endpoints[0].peers.send(member(0), Arc::new(framed("to itself")));
    endpoints[0].peers.send(member(7), Arc::new(framed("to nobody")));
}

/// A member's request is counted where it is sent, however fast the machine is.
#[test]
fn a_member_is_served_16_megabytes_at_once_and_8_a_second() {
    let endpoint = Network::new().begin(0);
    let begun = Instant::now();
    let served = (0..400).filter(|_| endpoint.peers.serve(member(1), vec![7; 1_000_000])).count() as u64;
    let most = 17 + 8 * (begun.elapsed().as_secs() + 1);
    assert!((16..=most).contains(&served), "{served} of at most {most}");
    assert!(!endpoint.peers.serve(member(0), vec![7]), "nothing is served to itself");
}

#[test]
fn a_stranger_and_a_member_with_other_settings_are_refused() {
    let mut network = Network::new();
    let endpoint = network.begin(0);
    let other = network.credentials(1, &[SETTINGS[0], ("epoch", "2")]);
    let refused = comes(|| {
        other
            .connect(member(0), &network.places[0])
            .err()
            .filter(|it| it.kind() == io::ErrorKind::InvalidInput)
    });
    assert!(refused.to_string().contains("`epoch` is 1 there and 2 here"), "{refused}");
    comes(|| (endpoint.counts.refused_greetings.load(Relaxed) >= 1).then_some(()));
    let before = endpoint.counts.refused_greetings.load(Relaxed);
    // Member 1 has another key now, which member 0 does not know.
    network.secrets[1] = [9; 32];
    network.public[1] = public_of(&[9; 32]);
    let stranger = network.credentials(1, &SETTINGS);
    if let Ok(mut session) = stranger.connect(member(0), &network.places[0]) {
        let _ = session.write_all(&framed("from a stranger"));
        while session.read(&mut [0; 64]).is_ok_and(|it| it > 0) {}
    }
    comes(|| (endpoint.counts.refused_greetings.load(Relaxed) > before).then_some(()));
    assert!(endpoint.received.try_recv().is_err(), "nothing is taken of it");
    assert!(
        Members::of_raw_key(member(2), &[9; 32], &network.public).is_err(),
        "another member's key"
    );
}

/// Member 1, which is played, has other settings: member 0 dials it again, more and more rarely.
#[test]
fn who_is_refused_knocks_about_once_a_second() {
    let network = Network::new();
    let other = network.credentials(1, &[SETTINGS[0], ("epoch", "2")]);
    let listener = TcpListener::bind(&network.places[1]).expect("a free address");
    let _endpoint = network.begin(0);
    let (mut knocked, mut begun) = (0, None::<Instant>);
    listener.set_nonblocking(true).expect("a listener");
    while begun.is_none_or(|it| it.elapsed() < Duration::from_secs(5)) {
        match listener.accept() {
            Ok((stream, _)) => {
                begun.get_or_insert_with(Instant::now);
                knocked += 1;
                stream.set_nonblocking(false).expect("a connection");
                assert!(other.accept(stream).is_err(), "its settings differ");
            }
            Err(_) => sleep(Duration::from_millis(5)),
        }
    }
    assert!((3..=16).contains(&knocked), "{knocked} times in five seconds");
}

#[test]
fn the_newest_connection_of_a_member_counts() {
    let network = Network::new();
    let endpoint = network.begin(0);
    let mut older = network.connected(2, 0);
    let mut newer = network.connected(2, 0);
    ends(&mut older);
    newer.write_all(&framed("here")).expect("it is read");
    assert_eq!(endpoint.received.recv_timeout(SOON), Ok((member(2), b"here".to_vec())));
}

#[test]
fn a_member_that_sends_forgeries_is_refused_and_may_come_back() {
    let network = Network::new();
    let endpoint = network.begin(0);
    let mut forger = network.connected(1, 0);
    forger.write_all(&framed("x")).expect("it is read");
    comes(|| (endpoint.counts.offences.load(Relaxed) == 1).then_some(()));
    ends(&mut forger);
    // For a second its connections are ended. Other members are heard meanwhile.
    network.connected(2, 0).write_all(&framed("another")).expect("it is read");
    assert_eq!(endpoint.received.recv_timeout(SOON), Ok((member(2), b"another".to_vec())));
    let received = comes(|| {
        let _ = network.connected(1, 0).write_all(&framed("back"));
        endpoint.received.recv_timeout(Duration::from_millis(200)).ok()
    });
    assert_eq!(received, (member(1), b"back".to_vec()));
}

/// A member ends and begins again: the others dial it again by themselves.
#[test]
fn a_link_is_begun_anew_once_its_member_is_back() {
    let network = Network::new();
    let first = network.begin(0);
    for number in 1..=2 {
        comes(|| first.peers.connection(member(1)).is_none().then_some(()));
        // (it is played by hand, as a process that ends lets its port go)
        let listener = comes(|| TcpListener::bind(&network.places[1]).ok());
        let credentials = network.credentials(1, &SETTINGS);
        let mut session = comes(|| {
            let (stream, _) = listener.accept().ok()?;
            credentials.accept(stream).ok().map(|(_, session)| session)
        });
        let mut bytes = [0; 8];
        // (heartbeats have no bytes behind their length)
        comes(|| {
            first.peers.send(member(1), Arc::new(framed("four")));
            session.read_exact(&mut bytes[..4]).expect("it is open");
            (bytes[..4] == [0, 0, 0, 4]).then_some(())
        });
        assert_eq!(first.peers.connection(member(1)), Some(number));
    }
    comes(|| first.peers.connection(member(1)).is_none().then_some(()));
    assert_eq!([0, 7].map(|it| first.peers.connection(member(it))), [None; 2], "itself, and nobody");
}

#[test]
fn a_peer_at_a_members_address_with_another_key_is_refused() {
    let network = Network::new();
    let mut others = Network::new();
    others.secrets[1] = [9; 32];
    others.public[1] = public_of(&[9; 32]);
    let listener = TcpListener::bind(&network.places[1]).expect("a free address");
    let stranger = others.credentials(1, &SETTINGS);
    let answering = std::thread::spawn(move || {
        let (stream, _) = listener.accept().expect("it connects");
        stranger.accept(stream).is_err()
    });
    let refused = network.credentials(0, &SETTINGS).connect(member(1), &network.places[1]);
    assert_eq!(refused.err().map(|it| it.kind()), Some(io::ErrorKind::PermissionDenied));
    assert!(answering.join().expect("it ends"), "nothing was said to it");
}

#[test]
fn a_silent_connection_is_ended() {
    let network = Network::new();
    let _endpoint = network.begin(0);
    let mut silent = network.connected(1, 0);
    silent.tcp().set_read_timeout(Some(Duration::from_millis(100))).expect("a timeout");
    comes(|| match silent.read(&mut [0; 64]) {
        Ok(0) => Some(()),
        Ok(_) => None,
        Err(error) => (error.kind() != io::ErrorKind::WouldBlock).then_some(()),
    });
}
