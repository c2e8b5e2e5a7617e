//! The host of one member: a channel for a network, a file for a disk.

use crate::network::Message;
use crate::toys::{MEMBERS, NAMESPACE, block_on, is_good, signature};
use simplex_view_state::{Config, Digest, Engine, Entries, Epoch, Input, Moment, Options, Output, Participant, Proposal, Stored};
use std::fs::{self, File};
use std::io::{ErrorKind, Write};
use std::path::PathBuf;
use std::sync::mpsc::{Receiver, Sender};
use std::time::{Duration, Instant};

pub type Outcome<T = ()> = Result<T, Box<dyn std::error::Error + Send + Sync>>;

/// How many outputs are carried out before messages and time get a turn.
const MOST_OUTPUTS: usize = 100;

pub struct Host {
    me: Participant,
    engine: Engine,
    file: PathBuf,
    journal: Vec<u8>,
    peers: Vec<Sender<(Participant, Message)>>,
    begun: Instant,
    pub finalized: Vec<Proposal>,
}

impl Host {
    /// Starts a member that has no file, and resumes one that has.
    pub fn begin(me: Participant, file: PathBuf, peers: Vec<Sender<(Participant, Message)>>) -> Outcome<Host> {
        let config = Config::new(NAMESPACE, MEMBERS.try_into()?, Some(me), Epoch::new(1), Digest::default());
        let (options, now, mut journal) = (Options::default(), Moment::from_millis(0), Vec::new());
        let engine = match fs::read(&file) {
            Err(error) if error.kind() == ErrorKind::NotFound => Engine::start(&config, &options, now)?,
            held => {
                journal = held?;
                let stored = journal
                    .get(..Stored::SIZE)
                    .and_then(Stored::from_bytes)
                    .ok_or("the file is too short")?;
                journal.drain(..Stored::SIZE);
                Engine::resume(&config, &options, now, &stored, &journal)?
            }
        };
        Ok(Host {
            me,
            engine,
            file,
            journal,
            peers,
            begun: Instant::now(),
            finalized: Vec::new(),
        })
    }

    /// Carries out what the engine returns, and passes it what comes, until enough is done.
    pub fn run(&mut self, inbox: &Receiver<(Participant, Message)>, mut is_enough: impl FnMut(&Host) -> bool) -> Outcome {
        while !is_enough(self) {
            for _ in 0..MOST_OUTPUTS {
                let Some(output) = self.engine.poll(self.now())? else { break };
                self.carry_out(output)?;
            }
            let wait = self.now().until(self.engine.wake()).min(Duration::from_millis(20));
            if let Ok((from, message)) = inbox.recv_timeout(wait) {
                self.receive(from, message)?;
            }
        }
        Ok(())
    }

    /// Carries out one output. The engine returns a vote only after the entries that store it.
    fn carry_out(&mut self, output: Output) -> Outcome {
        match output {
            Output::Store(entries) => self.store(self.journal.len(), entries)?,
            Output::Replace(entries) => self.store(0, entries)?,
            Output::Vote(order) => self.send_to_all(&Message::Vote(order.signed(signature(order.signer, &order.text)))),
            Output::Broadcast(certificate) => self.send_to_all(&Message::Certificate(certificate)),
            Output::Fetch(fetch) => fetch.of.iter().for_each(|to| self.send(*to, Message::Ask(fetch))),
            Output::Build(context) => {
                let payload = block_on(&context);
                self.pass(Input::Built { context, payload })?;
            }
            Output::Verify(context, proposal) => {
                let (view, is_valid) = (proposal.view(), proposal.payload == block_on(&context));
                self.pass(Input::Verified { view, is_valid })?;
            }
            Output::Certify(proposal) => {
                let view = proposal.view();
                self.pass(Input::Certified { view, is_success: true })?;
            }
            Output::Finalized(proposal) => self.finalized.push(proposal),
            Output::StopBuilding(_) | Output::ProposedTwice(..) | Output::Equivocated(..) | Output::Forget(_) => {}
        }
        Ok(())
    }

    /// Puts entries at a place of the journal, and stores it with their numbers in one step: after a crash all of it is there, or nothing.
    fn store(&mut self, at: usize, entries: Entries) -> Outcome {
        self.journal.splice(at.., entries.bytes);
        let fresh = self.file.with_extension("new");
        let mut file = File::create(&fresh)?;
        file.write_all(&entries.stored.to_bytes())?;
        file.write_all(&self.journal)?;
        file.sync_all()?;
        Ok(fs::rename(&fresh, &self.file)?)
    }

    /// Verifies what came, and passes it to the engine. A leader's vote to notarize is its proposal too.
    fn receive(&mut self, from: Participant, message: Message) -> Outcome {
        match message {
            Message::Vote(vote) if vote.signature == signature(vote.signer, &vote.subject.text(&NAMESPACE)) => {
                if let Some(proposal) = vote.proposal() {
                    let from = vote.signer;
                    self.pass(Input::Proposal { from, proposal })?;
                }
                self.pass(Input::Vote(vote))?;
            }
            Message::Certificate(certificate) if is_good(&certificate) => self.pass(Input::Certificate(certificate))?,
            Message::Ask(fetch) => {
                let found = self.engine.certificate_for(fetch.kind, fetch.view)?;
                found.into_iter().for_each(|it| self.send(from, Message::Certificate(it)));
            }
            Message::Vote(_) | Message::Certificate(_) => {}
        }
        Ok(())
    }

    fn pass(&mut self, input: Input) -> Outcome {
        self.engine.handle(input, self.now())?;
        Ok(())
    }

    fn now(&self) -> Moment {
        Moment::from_millis(self.begun.elapsed().as_millis() as u64)
    }

    /// A member that has ended misses what is sent to it.
    fn send(&self, to: Participant, message: Message) {
        self.peers[to.get() as usize].send((self.me, message)).unwrap_or_default();
    }

    /// To this member too: its own votes count.
    fn send_to_all(&self, message: &Message) {
        (0..MEMBERS).for_each(|to| self.send(Participant::new(to), message.clone()));
    }
}
