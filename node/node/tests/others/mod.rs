//! Members 1 to 3, which a test plays around node 0.

use crate::members::{Link, SOON, hear, played, settings_of};
use simplex_node::crypto::Keys;
use simplex_node::network::{Network, Plan, folder_of};
use simplex_node::peers;
use simplex_node::settings::{Protocol, Settings};
use simplex_view_state::{Certificate, Context, Digest, Epoch, Participant, Proposal, Round, Subject, View, Vote};
use simplex_wire::{Block, Message};
use std::fs;
use std::net::TcpListener;
use std::sync::Arc;
use std::sync::mpsc::{Receiver, Sender, channel};
use std::thread;
use std::time::{Duration, Instant};

/// Members 1 to 3 around node 0, whose views end by what they send alone.
pub struct Others {
    pub network: Network,
    pub keys: Vec<Arc<Keys>>,
    pub links: Vec<Link>,
    pub heard: Receiver<(u32, Message)>,
    pub genesis: Digest,
    told: Sender<(u32, Message)>,
}

fn plan(name: &str) -> Plan {
    Plan {
        nodes: 4,
        protocol: Protocol {
            leader_timeout_ms: 60_000,
            certification_timeout_ms: 120_000,
            inactivity_ms: 240_000,
            ..Protocol::default()
        },
        sync: true,
        faults: Vec::new(),
        delay_ms: 0,
        program: env!("CARGO_BIN_EXE_simplex-node").into(),
        folder: folder_of(name),
    }
}

#[allow(dead_code, reason = "some tests alone need it")]
impl Others {
    pub fn around_a_node(name: &str) -> Others {
        Others::around_a_node_with(name, |_| ())
    }

    pub fn around_a_node_with(name: &str, change: impl FnOnce(&mut Settings)) -> Others {
        Others::around_a_node_begun_by(name, change, |network| network.begin(0).expect("a process"))
    }

    pub fn around_a_node_begun_by(name: &str, change: impl FnOnce(&mut Settings), begin: impl FnOnce(&mut Network)) -> Others {
        Others::listening(&[1, 2, 3], name, change, begin)
    }

    /// These members alone take connections.
    pub fn listening(up: &[u32], name: &str, change: impl FnOnce(&mut Settings), begin: impl FnOnce(&mut Network)) -> Others {
        let mut network = Network::new(plan(name)).expect("keys and settings");
        network.set(0, change).expect("a disk");
        let settings = settings_of(&network);
        let (keys, credentials) = played(&settings);
        let (told, heard) = channel();
        let mut others = Others {
            network,
            links: Vec::new(),
            keys,
            heard,
            genesis: settings[0].identity().expect("keys").genesis(),
            told,
        };
        up.iter().for_each(|member| others.listen(*member));
        begin(&mut others.network);
        others.comes_to("current_view", 1);
        let address = &settings[0].members[0].address;
        others.links = credentials[1..].iter().map(|it| Link::begin(it, address)).collect();
        others.links.iter().for_each(Link::show_life);
        others.comes_to("connections", up.len() as u64);
        others
    }

    /// A member begins to take connections.
    pub fn listen(&self, member: u32) {
        let (settings, told) = (settings_of(&self.network), self.told.clone());
        let (here, keys) = (&settings[member as usize], &self.keys[member as usize]);
        let listener = TcpListener::bind(&here.members[member as usize].address).expect("a free address");
        let its_own = peers::credentials(here, keys).expect("a certificate");
        thread::spawn(move || hear(&listener, member, &its_own, &told));
    }

    pub fn send(&mut self, from: usize, message: &Message) {
        self.links[from - 1].write_all(&message.frame()).expect("it reads");
    }

    pub fn vote(&self, signer: usize, subject: Subject) -> Vote {
        Vote {
            subject,
            signer: Participant::new(signer as u32),
            signature: self.keys[signer].sign(&subject).expect("a signature").to_vec(),
        }
    }

    /// The certificate that these members' votes make.
    pub fn certificate(&self, signers: &[usize], subject: Subject) -> Certificate {
        let mut bytes = Vec::new();
        for vote in signers.iter().map(|signer| self.vote(*signer, subject)) {
            bytes.extend_from_slice(&vote.signer.get().to_be_bytes());
            bytes.extend_from_slice(&(vote.signature.len() as u64).to_be_bytes());
            bytes.extend_from_slice(&vote.signature);
        }
        Certificate::of(subject, bytes)
    }

    /// Sends a certificate on a block, and the block where the node asks for it.
    pub fn gives(&mut self, certificate: &Certificate, block: &Block) {
        self.send(1, &Message::Certificate(certificate.clone()));
        let is_it = |message: &Message| matches!(message, Message::AskBlock(_, payload) if *payload == block.payload());
        assert!(
            self.hears(SOON, |_, message| is_it(message)),
            "it does not ask for the block of view {}",
            block.view
        );
        self.send(1, &Message::Block(block.bytes().to_vec()));
    }

    pub fn nullify(&mut self, view: u64) {
        let certificate = self.certificate(&[1, 2, 3], Subject::Nullify(round(view)));
        self.send(1, &Message::Certificate(certificate));
    }

    /// A block on genesis, and the proposal of it.
    pub fn proposal(&self, view: u64, leader: usize, content: u8) -> (Vote, Block) {
        let context = Context {
            round: round(view),
            leader: Participant::new(leader as u32),
            parent: View::GENESIS,
            parent_payload: self.genesis,
        };
        let block = Block::new(&context, &[content; 256]);
        let proposal = Proposal {
            round: context.round,
            parent: context.parent,
            payload: block.payload(),
        };
        (self.vote(leader, Subject::Notarize(proposal)), block)
    }

    pub fn counts(&self, name: &str) -> u64 {
        self.network.metric(0, name).expect("a reply")
    }

    pub fn comes_to(&self, name: &str, least: u64) {
        let is_there = self.network.wait_until(&[0], name, least, SOON);
        assert!(is_there, "{name} is {} in place of {least}", self.counts(name));
    }

    /// Returns what the node sends until there was enough of it, or for so long.
    pub fn hears(&self, within: Duration, mut is_enough: impl FnMut(u32, &Message) -> bool) -> bool {
        let begun = Instant::now();
        while let Some(left) = within.checked_sub(begun.elapsed()) {
            match self.heard.recv_timeout(left) {
                Ok((member, message)) if is_enough(member, &message) => return true,
                Ok(_) => {}
                Err(_) => return false,
            }
        }
        false
    }

    pub fn end(mut self) {
        self.network.stop().expect("it stops");
        fs::remove_dir_all(self.network.folder()).expect("a folder");
    }
}

pub fn round(view: u64) -> Round {
    let (epoch, view) = (Epoch::new(1), View::new(view));
    Round { epoch, view }
}
