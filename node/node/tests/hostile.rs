//! One node against members and strangers that attack it, whom the test plays: what they do costs the others nothing that matters.

mod members;

use members::{Link, SOON, chain, played, settings_of, stored_blocks};
use simplex_net::{Address, Credentials, SILENCE};
use simplex_node::crypto::Keys;
use simplex_node::network::{Network, Plan, folder_of};
use simplex_node::peers;
use simplex_node::settings::{Protocol, Settings};
use simplex_view_state::{Certificate, Context, Digest, Epoch, FetchKind, Participant, Proposal, Round, Subject, View, Vote};
use simplex_wire::{Block, HEARTBEAT_FRAME, Message, Range};
use std::fs;
use std::io::{Read, Write};
use std::net::{TcpListener, TcpStream};
use std::sync::Arc;
use std::sync::atomic::{AtomicBool, Ordering::Relaxed};
use std::thread::{self, sleep};
use std::time::{Duration, Instant};

/// A node under attack has no more memory than this, in kilobytes.
const MOST_KB: u64 = 64 << 10;

/// Node 0 of four, and the keys of the others.
struct Attacked {
    network: Network,
    settings: Vec<Settings>,
    keys: Vec<Arc<Keys>>,
    credentials: Vec<Credentials>,
    addresses: Vec<Address>,
    genesis: Digest,
}

impl Attacked {
    fn begin(name: &str) -> Attacked {
        Attacked::begin_by(name, |network| network.begin(0))
    }

    fn begin_by(name: &str, begin: impl FnOnce(&mut Network) -> simplex_node::Outcome) -> Attacked {
        let plan = Plan {
            nodes: 4,
            protocol: Protocol {
                leader_timeout_ms: 60_000,
                certification_timeout_ms: 120_000,
                inactivity_ms: 240_000,
                ..Protocol::default()
            },
            sync: true,
            faults: Vec::new(),
            delay_ms: 0,
            program: env!("CARGO_BIN_EXE_simplex-node").into(),
            folder: folder_of(name),
        };
        let mut network = Network::new(plan).expect("keys and settings");
        let settings = settings_of(&network);
        let (keys, credentials) = played(&settings);
        let addresses = settings[0].members.iter().map(|it| it.address.clone()).collect();
        begin(&mut network).expect("a process");
        assert!(network.wait_until(&[0], "current_view", 1, SOON), "it does not begin");
        let genesis = settings[0].identity().expect("keys").genesis();
        Attacked {
            network,
            settings,
            keys,
            credentials,
            addresses,
            genesis,
        }
    }

    /// A connection of a member to the node.
    fn link(&self, member: usize) -> Link {
        Link::begin(&self.credentials[member], &self.addresses[0])
    }

    fn vote(&self, signer: usize, subject: Subject) -> Vote {
        Vote {
            subject,
            signer: Participant::new(signer as u32),
            signature: self.keys[signer].sign(&subject).expect("a signature").to_vec(),
        }
    }

    /// The nullification of a view, by the three others.
    fn nullification(&self, view: u64) -> Message {
        Message::Certificate(self.certificate(Subject::Nullify(round(view))))
    }

    /// The certificate that the votes of the three others make.
    fn certificate(&self, subject: Subject) -> Certificate {
        let mut bytes = Vec::new();
        for vote in (1..4).map(|signer| self.vote(signer, subject)) {
            bytes.extend_from_slice(&vote.signer.get().to_be_bytes());
            bytes.extend_from_slice(&(vote.signature.len() as u64).to_be_bytes());
            bytes.extend_from_slice(&vote.signature);
        }
        Certificate::of(subject, bytes)
    }

    /// Returns whether the node goes from view to view while a member sends certificates.
    fn goes_through(&self, link: &Link, views: std::ops::Range<u64>) {
        let last = views.end;
        for view in views {
            let frame = self.nullification(view).frame();
            link.write_all(&frame).expect("it reads");
        }
        self.comes_to("current_view", last);
    }

    fn counts(&self, name: &str) -> u64 {
        self.network.metric(0, name).expect("a reply")
    }

    fn comes_to(&self, name: &str, least: u64) {
        let is_there = self.network.wait_until(&[0], name, least, SOON);
        assert!(is_there, "{name} is {} in place of {least}", self.counts(name));
    }

    fn end(mut self) {
        self.network.stop().expect("it stops");
        fs::remove_dir_all(self.network.folder()).expect("a folder");
    }
}

fn round(view: u64) -> Round {
    let (epoch, view) = (Epoch::new(1), View::new(view));
    Round { epoch, view }
}

/// The node ends a connection in time.
fn ends_within(mut stream: &TcpStream, within: Duration) {
    let begun = Instant::now();
    stream.set_read_timeout(Some(within)).expect("a timeout");
    let mut bytes = [0; 256];
    loop {
        match stream.read(&mut bytes) {
            Ok(0) => return,
            Ok(_) if begun.elapsed() < within => {}
            Err(error) if error.kind() == std::io::ErrorKind::ConnectionReset => return,
            other => panic!("it is open after {:?}: {other:?}", begun.elapsed()),
        }
    }
}

#[test]
fn strangers_that_do_not_greet_keep_no_member_out() {
    let attacked = Attacked::begin("strangers");
    let strangers: Vec<TcpStream> = (0..120)
        .map(|_| TcpStream::connect(&attacked.addresses[0]).expect("it listens"))
        .collect();
    let link = attacked.link(1);
    attacked.goes_through(&link, 1..3);
    assert!(attacked.counts("refused_connections") >= 60, "the room for greetings is small");
    strangers.iter().for_each(|it| ends_within(it, SOON));
    attacked.end();
}

/// How long a process, or a thread, has had a processor, by its folder in `/proc`.
fn processor_time(of: &str) -> Duration {
    let stat = fs::read_to_string(format!("/proc/{of}/stat")).expect("it runs");
    let ticks = stat.rsplit(')').next().expect("fields").split(' ').skip(12).take(2);
    Duration::from_millis(10 * ticks.map(|it| it.parse::<u64>().expect("a number")).sum::<u64>())
}

/// Strangers take all file descriptors of the process: it waits, in place of trying without end, and continues once they are gone.
#[test]
fn a_node_without_file_descriptors_waits_and_takes_members_again() {
    let attacked = Attacked::begin_by("descriptors", |network| network.begin_with_few_files(0, 50));
    let metrics = attacked.settings[0].metrics.expect("an address");
    let process = attacked.network.process(0).expect("it runs").to_string();
    let (begun, until) = (Instant::now(), Duration::from_secs(4));
    let mut strangers = Vec::new();
    let before = processor_time(&process);
    // What a thread gets here that tries without end, on a machine that does much else.
    let trying = thread::spawn(move || {
        while begun.elapsed() < until {
            std::hint::spin_loop();
        }
        processor_time("thread-self")
    });
    while begun.elapsed() < until {
        // (those that do not greet are ended after two seconds)
        strangers.extend((0..20).filter_map(|_| TcpStream::connect(&attacked.addresses[0]).ok()));
        strangers.extend((0..5).filter_map(|_| TcpStream::connect(metrics).ok()));
        strangers.drain(..strangers.len().saturating_sub(150));
        sleep(Duration::from_millis(200));
    }
    let (spent, most) = (processor_time(&process) - before, trying.join().expect("it ends"));
    assert!(4 * spent < most, "{spent:?} of a processor, where one without end has {most:?}");
    drop(strangers);
    let link = attacked.link(1);
    attacked.goes_through(&link, 1..5);
    attacked.end();
}

#[test]
fn a_greeting_has_two_seconds_as_a_whole() {
    let attacked = Attacked::begin("drips");
    let mut stream = TcpStream::connect(&attacked.addresses[0]).expect("it listens");
    // As if a long handshake came, byte by byte.
    stream.write_all(&[22, 3, 1, 16, 0]).expect("it reads");
    let dripping = thread::spawn({
        let mut stream = stream.try_clone().expect("a connection");
        move || {
            while stream.write_all(&[0]).is_ok() {
                sleep(Duration::from_millis(300));
            }
        }
    });
    ends_within(&stream, SOON);
    dripping.join().expect("it ends");
    attacked.end();
}

#[test]
fn a_member_has_one_connection_and_the_newest_one() {
    let attacked = Attacked::begin("holds");
    let held: Vec<Link> = (0..40).map(|_| attacked.link(3)).collect();
    let link = attacked.link(1);
    attacked.goes_through(&link, 1..3);
    let (newest, older) = held.split_last().expect("some");
    for it in older {
        ends_within(&it.tcp(), SOON);
    }
    let frame = attacked.nullification(3).frame();
    newest.write_all(&frame).expect("the newest one is read");
    attacked.comes_to("current_view", 4);
    attacked.end();
}

#[test]
fn a_connection_that_is_silent_is_ended_and_one_with_heartbeats_is_not() {
    let attacked = Attacked::begin("silent");
    let (silent, alive) = (attacked.link(1), attacked.link(2));
    // Heartbeats come on while the silent one is waited for.
    let tcp = silent.tcp();
    let ending = thread::spawn(move || ends_within(&tcp, SOON));
    let begun = Instant::now();
    while begun.elapsed() < 2 * SILENCE.min(Duration::from_secs(2)) || !ending.is_finished() {
        alive.write_all(&HEARTBEAT_FRAME).expect("it is open");
        sleep(Duration::from_millis(100));
    }
    ending.join().expect("the silent one is ended");
    attacked.goes_through(&alive, 1..3);
    attacked.end();
}

#[test]
fn a_link_without_heartbeats_is_begun_anew() {
    let attacked = Attacked::begin("anew");
    let listener = TcpListener::bind(&attacked.addresses[1]).expect("a free address");
    listener.set_nonblocking(true).expect("a listener");
    let (mut accepted, begun) = (Vec::new(), Instant::now());
    while accepted.len() < 2 && begun.elapsed() < SOON {
        match listener.accept() {
            Ok((stream, _)) => {
                stream.set_nonblocking(false).expect("a connection");
                // (a greeting has two seconds, which may be over on a slow machine)
                accepted.extend(attacked.credentials[1].accept(stream).ok());
            }
            Err(_) => sleep(Duration::from_millis(10)),
        }
    }
    assert_eq!(accepted.len(), 2, "nobody replied on the first one");
    attacked.end();
}

#[test]
fn blocks_that_nobody_asked_for_cost_little() {
    let attacked = Attacked::begin("blocks");
    let (flood, is_over) = (attacked.link(3), Arc::new(AtomicBool::new(false)));
    let flooding = thread::spawn({
        let is_over = is_over.clone();
        move || {
            let frame = Message::Block(vec![7; 1_000_000]).frame();
            while !is_over.load(Relaxed) && flood.write_all(&frame).is_ok() {}
        }
    });
    let link = attacked.link(1);
    for view in 1..40 {
        attacked.goes_through(&link, view..view + 1);
        assert!(attacked.counts("resident_kb") < MOST_KB, "{} kB", attacked.counts("resident_kb"));
    }
    attacked.comes_to("slowed_readers", 1);
    is_over.store(true, Relaxed);
    flooding.join().expect("it ends");
    attacked.end();
}

/// A leader signs as many blocks of a MiB for its views as it likes, and sends each again and again.
#[test]
fn proposals_without_end_cost_little() {
    let attacked = Attacked::begin("proposals");
    let frame = |view: u64, content: u8| {
        let context = Context {
            round: round(view),
            leader: Participant::new(3),
            parent: View::GENESIS,
            parent_payload: attacked.genesis,
        };
        let block = Block::new(&context, &vec![content; 1_000_000]);
        let proposal = Proposal {
            round: context.round,
            parent: context.parent,
            payload: block.payload(),
        };
        let vote = attacked.vote(3, Subject::Notarize(proposal));
        Message::Proposal(vote, block.bytes().to_vec()).frame()
    };
    let frames: Vec<Vec<u8>> = (1..10).flat_map(|term| [1, 2, 3].map(|content| frame(4 * term, content))).collect();
    let (flood, is_over) = (attacked.link(3), Arc::new(AtomicBool::new(false)));
    let flooding = thread::spawn({
        let is_over = is_over.clone();
        move || {
            let mut frames = frames.iter().cycle();
            while !is_over.load(Relaxed) && frames.next().is_some_and(|it| flood.write_all(it).is_ok()) {}
        }
    });
    let link = attacked.link(1);
    let before = stored_blocks(&attacked.network.data(0));
    for view in 1..40 {
        attacked.goes_through(&link, view..view + 1);
        assert!(attacked.counts("resident_kb") < MOST_KB, "{} kB", attacked.counts("resident_kb"));
    }
    attacked.comes_to("slowed_readers", 1);
    is_over.store(true, Relaxed);
    flooding.join().expect("it ends");
    let stored = stored_blocks(&attacked.network.data(0)) - before;
    assert!(stored <= 10 * 1_001_000, "{stored} bytes: one block of a view");
    attacked.end();
}

#[test]
fn asks_without_end_take_no_memory() {
    let attacked = Attacked::begin("asks");
    let link = attacked.link(1);
    attacked.goes_through(&link, 1..20);
    let flood = attacked.link(3);
    let flooding = thread::spawn(move || {
        let mut frames = Vec::new();
        for view in 0..1000 {
            frames.extend(Message::AskCertificate(FetchKind::Nullification, View::new(1 + view % 19)).frame());
        }
        let begun = Instant::now();
        while begun.elapsed() < Duration::from_secs(4) && flood.write_all(&frames).is_ok() {}
    });
    for view in 20..40 {
        attacked.goes_through(&link, view..view + 1);
        assert!(attacked.counts("resident_kb") < MOST_KB, "{} kB", attacked.counts("resident_kb"));
    }
    flooding.join().expect("it ends");
    assert!(attacked.counts("served") < 20_000, "{} were served", attacked.counts("served"));
    attacked.end();
}

#[test]
fn a_member_that_forges_is_refused_for_a_while() {
    let attacked = Attacked::begin("forges");
    let forger = attacked.link(3);
    let forged = Vote {
        signer: Participant::new(1),
        ..attacked.vote(3, Subject::Nullify(round(1)))
    };
    for _ in 0..50 {
        let _ = forger.write_all(&Message::Vote(forged.clone()).frame());
    }
    attacked.comes_to("offences", 1);
    ends_within(&forger.tcp(), SOON);
    assert!(attacked.counts("forged") < 50, "what follows is not verified");
    let refused = attacked.link(3);
    ends_within(&refused.tcp(), SOON);
    // It is refused for a second, which doubles only with the next offence.
    sleep(Duration::from_secs(1));
    let link = attacked.link(3);
    attacked.goes_through(&link, 1..2);
    attacked.end();
}

#[test]
fn a_block_under_the_name_of_another_is_not_kept() {
    let attacked = Attacked::begin("names");
    let link = attacked.link(1);
    attacked.goes_through(&link, 1..2);
    let context = Context {
        round: round(2),
        leader: Participant::new(1),
        parent: View::GENESIS,
        parent_payload: attacked.genesis,
    };
    let (named, other) = (Block::new(&context, &[1; 256]), Block::new(&context, &[2; 256]));
    let proposal = Proposal {
        round: context.round,
        parent: context.parent,
        payload: named.payload(),
    };
    let bytes = || stored_blocks(&attacked.network.data(0));
    let before = bytes();
    let vote = attacked.vote(1, Subject::Notarize(proposal));
    let message = Message::Proposal(vote, other.bytes().to_vec());
    link.write_all(&message.frame()).expect("it reads");
    attacked.comes_to("forged", 1);
    attacked.goes_through(&link, 2..3);
    assert_eq!(bytes(), before);
    attacked.end();
}

/// The node's log comes to say something so often.
fn logs(attacked: &Attacked, text: &str, times: usize) {
    let begun = Instant::now();
    let log = || fs::read_to_string(attacked.network.log(0)).expect("a log");
    while log().matches(text).count() < times {
        assert!(begun.elapsed() < SOON, "{}", log());
        sleep(Duration::from_millis(20));
    }
}

/// Why an attempt is refused since settings differ. One that took too long on a slow machine is made again.
fn refusal<T, E>(mut attempt: impl FnMut() -> Result<T, E>, error_of: impl Fn(E) -> std::io::Error) -> String {
    let begun = Instant::now();
    loop {
        let refused = attempt().map_err(&error_of).err().expect("it is refused");
        if refused.kind() == std::io::ErrorKind::InvalidInput {
            return refused.to_string();
        }
        assert!(begun.elapsed() < SOON, "{refused}");
    }
}

#[test]
fn a_stranger_with_a_key_of_its_own_is_refused() {
    let attacked = Attacked::begin("key");
    let mut settings = attacked.settings[1].clone();
    settings.key = attacked.network.folder().join("9.pem");
    settings.members[1].key = simplex_node::crypto::make_key(&settings.key).expect("a key");
    let keys = Arc::new(Keys::read(&settings).expect("a key"));
    let stranger = peers::credentials(&attacked.settings[1], &keys).expect("a certificate");
    // Its own handshake may end before the node has looked at its key.
    let session = stranger.connect(Participant::new(0), &attacked.addresses[0]);
    if let Ok(session) = &session {
        ends_within(session.tcp(), SOON);
    }
    attacked.comes_to("refused_greetings", 1);
    logs(&attacked, "a greeting is refused", 1);
    attacked.end();
}

#[test]
fn nothing_is_sent_to_a_peer_at_a_members_address_with_another_key() {
    let attacked = Attacked::begin("answers");
    let mut settings = attacked.settings[1].clone();
    settings.key = attacked.network.folder().join("9.pem");
    settings.members[1].key = simplex_node::crypto::make_key(&settings.key).expect("a key");
    let keys = Arc::new(Keys::read(&settings).expect("a key"));
    let stranger = peers::credentials(&attacked.settings[1], &keys).expect("a certificate");
    let listener = TcpListener::bind(&attacked.addresses[1]).expect("a free address");
    for _ in 0..3 {
        let (stream, _) = listener.accept().expect("it connects");
        assert!(stranger.accept(stream).is_err(), "the node ends the handshake");
    }
    assert_eq!(attacked.counts("connections"), 0);
    logs(&attacked, "a member's greeting is refused", 1);
    attacked.end();
}

#[test]
fn settings_that_differ_are_refused_by_name_at_both_ends() {
    let attacked = Attacked::begin("differ");
    let mut settings = attacked.settings[2].clone();
    settings.protocol.term_length = 4.try_into().expect("not 0");
    let other = peers::credentials(&settings, &attacked.keys[2]).expect("a certificate");
    let refused = refusal(|| other.connect(Participant::new(0), &attacked.addresses[0]), |error| error);
    assert!(refused.contains("`term_length` is 1 there and 4 here"), "{refused}");
    attacked.comes_to("refused_greetings", 1);
    let listener = TcpListener::bind(&attacked.addresses[2]).expect("a free address");
    let refused = refusal(|| other.accept(listener.accept().expect("it connects").0), |(_, error)| error);
    assert!(refused.contains("`term_length`"), "{refused}");
    logs(&attacked, "`term_length` is 4 there and 1 here", 2);
    attacked.end();
}

/// Two final blocks of half a MiB, asked for again and again by one member.
#[test]
fn asks_for_final_blocks_are_served_within_a_share() {
    let attacked = Attacked::begin("share");
    let blocks = chain(attacked.genesis, 1..3, 500_000);
    let certificate = attacked.certificate(Subject::Finalize(blocks[1].1));
    let range = Range {
        after: View::GENESIS,
        certificate: certificate.clone(),
        blocks: blocks.iter().rev().map(|(block, _)| block.clone()).collect(),
    };
    let link = attacked.link(1);
    link.write_all(&Message::Certificate(certificate).frame()).expect("it reads");
    let begun = Instant::now();
    while attacked.counts("height") < 2 {
        assert!(begun.elapsed() < SOON, "the blocks are not taken");
        link.write_all(&Message::Range(range.clone()).frame()).expect("it reads");
        sleep(Duration::from_millis(100));
    }
    let (flood, begun) = (attacked.link(3), Instant::now());
    while begun.elapsed() < Duration::from_secs(3) || attacked.counts("served") <= 8 {
        assert!(begun.elapsed() < SOON, "it serves nothing");
        let asks = (0..50).flat_map(|_| Message::AskRange(View::GENESIS, View::new(2)).frame());
        flood.write_all(&asks.collect::<Vec<u8>>()).expect("it reads");
        sleep(Duration::from_millis(50));
    }
    // 16 MB at once, and 8 MB a second, in replies of 1 MB.
    let (most, served) = (16 + 8 * (begun.elapsed().as_secs() + 1) + 2, attacked.counts("served"));
    assert!(served < most, "{served} of at most {most}");
    assert!(attacked.counts("resident_kb") < MOST_KB, "{} kB", attacked.counts("resident_kb"));
    attacked.end();
}
