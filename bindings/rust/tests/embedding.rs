//! The Rust of docs/EMBEDDING.md, as the page has it: it compiles in a host, whose parts are named here alone.

#![allow(
    dead_code,
    unused_variables,
    unused_assignments,
    unreachable_code,
    reason = "the page's code is compiled, and not run"
)]

use simplex_view_state::{
    Certificate, Config, Context, Digest, Engine, Entries, Fetch, Input, Member, Moment, Options, Output, Proposal, Stored, View, Vote,
};
use std::collections::HashMap;
use std::error::Error as StdError;
use std::fmt::Debug;
use std::fs;
use std::ops::Deref;
use std::path::Path;

type Error = Box<dyn StdError>;

const MOST_OUTPUTS: usize = 1000;

struct Disk;

impl Disk {
    fn replace_and_sync(&mut self, _: Entries) -> Result<(), Error> {
        Ok(())
    }
    fn append_and_sync(&mut self, _: Entries) -> Result<(), Error> {
        Ok(())
    }
}

#[derive(Default)]
struct Journal(Vec<u8>);

impl Deref for Journal {
    type Target = [u8];
    fn deref(&self) -> &[u8] {
        &self.0
    }
}

impl Journal {
    fn append_and_sync(&mut self, _: &[u8], _: Stored) -> Result<(), Error> {
        Ok(())
    }
    fn replace(&mut self, _: &[u8], _: Stored) -> Result<(), Error> {
        Ok(())
    }
}

struct Key;

impl Key {
    fn sign(&self, text: &[u8]) -> Vec<u8> {
        text.to_vec()
    }
}

struct Network;

impl Network {
    fn send_to_all(&mut self, _: &Vote) -> Result<(), Error> {
        Ok(())
    }
    fn broadcast(&mut self, _: &Certificate) -> Result<(), Error> {
        Ok(())
    }
    fn ask(&mut self, _: Fetch) -> Result<(), Error> {
        Ok(())
    }
}

struct Application;

impl Application {
    fn build(&mut self, _: Context) {}
    fn verify(&mut self, _: Context, _: Proposal) {}
    fn certify(&mut self, _: Proposal) {}
    fn finalize(&mut self, block: &Block) -> Result<Digest, Error> {
        Ok(block.parent)
    }
}

#[derive(Default)]
struct Inputs(Vec<Input>);

impl Inputs {
    fn push(&mut self, input: Input) {
        self.0.push(input);
    }
    fn next_until(&mut self, _: Moment) -> Option<Input> {
        self.0.pop()
    }
}

struct Clock;

impl Clock {
    fn now(&self) -> Moment {
        Moment::default()
    }
}

struct Block {
    parent: Digest,
}

struct Host {
    blocks: HashMap<Digest, Block>,
    application: Application,
    delivered: Digest,
}

fn deliver(_: Proposal) {}

fn log(_: impl Debug) {}

#[rustfmt::skip]
fn engine_loop(config: Config, mut now: Moment, stored: Stored, journal: Journal, key: Key, mut inputs: Inputs, clock: Clock) -> Result<(), Error> {
    let (mut disk, mut network, mut application) = (Disk, Network, Application);
    let mut engine = Engine::resume(&config, &Options::default(), now, &stored, &journal)?;   // or Engine::start, for one that never voted
    loop {
        let mut is_quiet = false;
        for _ in 0..MOST_OUTPUTS {                                               // 1000, say: then time and other inputs get a turn
            let Some(output) = engine.poll(now)? else { is_quiet = true; break };
            match output {                                                       // carried out in this order, one by one
                Output::Replace(entries) => disk.replace_and_sync(entries)?,     // the bytes and, beside them, entries.stored
                Output::Store(entries) => disk.append_and_sync(entries)?,
                Output::Vote(order) => {
                    let vote = order.signed(key.sign(&order.text));
                    network.send_to_all(&vote)?;
                    inputs.push(Input::Vote(vote));                              // the engine's own vote comes back too
                }
                Output::Broadcast(certificate) => network.broadcast(&certificate)?,
                Output::Fetch(fetch) => network.ask(fetch)?,                     // a peer's reply is a certificate
                Output::Build(context) => application.build(context),            // the application's replies are inputs: Built,
                Output::Verify(context, proposal) => application.verify(context, proposal),     // Verified,
                Output::Certify(proposal) => application.certify(proposal),      // Certified
                Output::Finalized(proposal) => deliver(proposal),                // and its ancestors: see "The finalized chain"
                other => log(other),
            }
        }
        let until = if is_quiet { engine.wake() } else { now };
        let input = inputs.next_until(until);                                    // what came in, verified; nothing where the moment came
        now = clock.now();
        if let Some(input) = input { engine.handle(input, now)?; }
    }
}

impl Host {
    fn ask_for(&self, _: Digest) -> Result<(), Error> {
        Ok(())
    }

    #[rustfmt::skip]
    fn deliver(&mut self, proposal: Proposal) -> Result<(), Error> {
        let (mut fresh, mut digest) = (Vec::new(), proposal.payload);
        while digest != self.delivered {                                         // the last delivered block; genesis at first
            let Some(block) = self.blocks.get(&digest) else { return self.ask_for(digest) };   // deliver again when it has come
            digest = block.parent;
            fresh.push(block);
        }
        for block in fresh.iter().rev() { self.delivered = self.application.finalize(block)?; }
        Ok(())
    }
}

#[rustfmt::skip]
fn after_a_resume(engine: Engine, mut host: Host) -> Result<(), Error> {
    if let Some(proposal) = engine.last_finalization()? {
        host.deliver(proposal)?;                                                 // unless its view is delivered already
    }
    Ok(())
}

/// The page leaves out what else may come.
mod member_loop {
    use super::{Digest, Error, Journal, Proposal, View};
    use simplex_view_state::{Config, Member, Moment, Notarization, Stored};

    enum Certificate {
        Notarization(Notarization),
    }

    enum Event {
        Certificate(Certificate),
        Proposal(Proposal),
        Built(View, Digest),
        Verified(View),
        Certified(View, bool),
    }

    fn wait_until(_: Moment) -> Event {
        unimplemented!("the page's code is compiled, and not run")
    }

    #[rustfmt::skip]
    fn run(config: Config, now: Moment, mut stored: Stored, mut journal: Journal) -> Result<(), Error> {
        let mut member = Member::resume(&config, now, &stored, &journal)?;          // or Member::start, for one that never voted
        loop {
            let event = wait_until(member.next_timeout(now)?.moment);
            match event {                                                            // one call for what came
                Event::Certificate(Certificate::Notarization(it)) => { member.add_notarization(&it)?; }
                Event::Proposal(it) => { member.set_proposal(&it)?; }
                Event::Built(view, payload) => { member.proposed(view, payload, now)?; }
                Event::Verified(view) => { member.verified(view)?; }
                Event::Certified(view, is_good) => { member.certified(view, is_good, now)?; }
                // ..
            }
            // then call these until none returns anything new:
            //   try_propose, try_verify, certify_candidates: work for the application
            //   construct_notarize, construct_finalize of the current views, construct_nullify at the timeout: votes
            //   broadcast_notarization, .._nullification, .._finalization: certificates for all
            //   prune, once a view is finalized
            let grown = member.entries_since(stored.entries)?;
            journal.append_and_sync(&grown.bytes, grown.stored)?;                    // before any vote of this turn is sent
            stored = grown.stored;
            // now sign the texts of the votes, and send them.
        }
    }
}

#[rustfmt::skip]
fn prune(member: &mut Member, journal: &mut Journal, mut stored: Stored) -> Result<(), Error> {
    member.prune()?;
    let left = member.prune_record()?;                                       // all that the record is now
    journal.replace(&left.bytes, left.stored)?;                              // one step: write a new file, sync it, rename it
    stored = left.stored;                                                    // entries_since counts from the shorter record
    Ok(())
}

/// The lines of a text without what they are indented by.
fn lines(text: &str) -> Vec<&str> {
    text.lines().map(str::trim).filter(|it| !it.is_empty()).collect()
}

#[test]
fn the_code_above_is_the_pages() {
    let page = Path::new(env!("CARGO_MANIFEST_DIR")).join("../../docs/EMBEDDING.md");
    let page = fs::read_to_string(page).expect("the page");
    let here = lines(include_str!("embedding.rs"));
    let blocks: Vec<&str> = page.split("```rust\n").skip(1).filter_map(|it| it.split("\n```").next()).collect();
    assert!(blocks.len() >= 5, "{} blocks", blocks.len());
    for block in blocks {
        let block = lines(block);
        assert!(here.windows(block.len()).any(|it| it == block), "not compiled here: {}", block[0]);
    }
}
