//! Hosts that lose blocks, get them late and in any order, end and begin again, and whose applications lag: each delivers one sequence.

mod common;

use common::{Block, GENESIS, certificate, chain, chain_behind, proposal};
use proptest::collection::vec;
use proptest::prelude::*;
use proptest::sample::Index;
use proptest::test_runner::{Config, RngAlgorithm, TestCaseResult, TestRng, TestRunner};
use simplex_chain::{Delivery, FinalChain, Tail};
use simplex_view_state::Digest;
use std::collections::HashMap;

const HOSTS: usize = 3;

/// Tries a property on as many inputs, the same ones in each run. A failure is shrunk, and no file is written.
fn check<S: Strategy>(cases: u32, inputs: &S, property: impl Fn(S::Value) -> TestCaseResult) {
    let config = Config {
        cases,
        failure_persistence: None,
        max_shrink_iters: 20_000,
        ..Config::default()
    };
    let mut runner = TestRunner::new_with_rng(config, TestRng::deterministic_rng(RngAlgorithm::ChaCha));
    if let Err(error) = runner.run(inputs, property) {
        panic!("{error}");
    }
}

/// An event of a host. An index is a place among the blocks that it may have received by then.
#[derive(Clone, Debug)]
enum Event {
    /// A block of the chain comes.
    Block(Index),
    /// A block of a branch that dies comes.
    Branch(Index),
    /// A block is reported as final.
    Final(Index),
    /// A range of final blocks comes, with the finalization of its last one.
    Range(Index, Index),
    /// The application takes what is ready.
    Deliver,
    /// The host needs room: one block in seven is kept no more, whatever waits for it.
    Forget(u8),
    /// The process ends after the application took some blocks, the disk loses one block in seven, and another process begins.
    Restart { taken: usize, lost: u8 },
}

fn event() -> impl Strategy<Value = Event> {
    let index = any::<Index>;
    prop_oneof![
        4 => index().prop_map(Event::Block),
        1 => index().prop_map(Event::Branch),
        3 => index().prop_map(Event::Final),
        1 => (index(), index()).prop_map(|(one, other)| Event::Range(one, other)),
        2 => Just(Event::Deliver),
        1 => (0..7u8).prop_map(Event::Forget),
        1 => (0..3usize, 0..7u8).prop_map(|(taken, lost)| Event::Restart { taken, lost }),
    ]
}

/// The views of a chain, each a few above the one before.
fn views() -> impl Strategy<Value = Vec<u64>> {
    let sums = |steps: Vec<u64>| {
        let next = |view: &mut u64, step| {
            *view += step;
            Some(*view)
        };
        steps.into_iter().scan(0, next).collect()
    };
    vec(1..=3u64, 1..=60).prop_map(sums)
}

/// A host: what it keeps over its lifetimes, and the chain of this one.
struct Host {
    store: HashMap<Digest, Block>,
    /// The blocks that the application has.
    delivered: Vec<Block>,
    chain: FinalChain<Block>,
    /// The last block that was reported as final.
    last: Option<Block>,
}

impl Host {
    fn new() -> Host {
        Host {
            store: HashMap::new(),
            delivered: Vec::new(),
            chain: FinalChain::new(GENESIS),
            last: None,
        }
    }

    fn tail(&self) -> Tail {
        self.delivered.last().map_or(GENESIS, |it| Tail {
            height: self.delivered.len() as u64,
            view: it.view,
            payload: it.digest,
        })
    }

    /// Hands what is ready to the application. It may end before it has all of that.
    fn deliver(&mut self, most: usize) -> TestCaseResult {
        for entry in self.chain.take(&self.store).into_iter().take(most) {
            prop_assert_eq!(entry.height, self.delivered.len() as u64 + 1);
            self.delivered.push(entry.block);
        }
        Ok(())
    }

    /// The process ends, and another one begins: with the application's last block, and the last finalization in the record.
    fn begin_again(&mut self) -> TestCaseResult {
        self.chain = FinalChain::new(self.tail());
        if let Some(last) = self.last.clone() {
            self.chain.finalize(&proposal(&last), Some(certificate(&last)), &self.store)?;
        }
        Ok(())
    }

    fn finalized(&mut self, block: &Block) -> TestCaseResult {
        if self.last.as_ref().is_none_or(|it| it.view < block.view) {
            self.last = Some(block.clone());
        }
        Ok(self.chain.finalize(&proposal(block), Some(certificate(block)), &self.store)?)
    }

    fn got(&mut self, block: &Block) -> TestCaseResult {
        self.store.insert(block.digest, block.clone());
        Ok(self.chain.arrived(block, &self.store)?)
    }

    fn forget(&mut self, lost: u8) {
        self.store.retain(|digest, _| digest.bytes()[7] % 7 != lost);
    }

    fn happens(&mut self, event: &Event, chain: &[Block], branches: &[Block]) -> TestCaseResult {
        // A window that moves up: what is final, and what comes, is about there.
        let reach = (self.delivered.len() + 12).min(chain.len());
        match event {
            Event::Block(at) => self.got(&chain[at.index(reach)]),
            Event::Branch(at) => self.got(at.get(branches)),
            Event::Final(at) => self.finalized(&chain[at.index(reach)]),
            Event::Range(one, other) => {
                let (one, other) = (one.index(reach), other.index(reach));
                let range: Vec<Block> = chain[one.min(other)..=one.max(other)].iter().rev().cloned().collect();
                Ok(self.chain.add(certificate(&range[0]), range, &self.store)?)
            }
            Event::Deliver => self.deliver(usize::MAX),
            Event::Forget(lost) => {
                self.forget(*lost);
                Ok(())
            }
            Event::Restart { taken, lost } => {
                self.deliver(*taken)?;
                self.forget(*lost);
                self.begin_again()
            }
        }
    }

    /// Gives the host what it names, until nothing is missing.
    fn heal(&mut self, chain: &[Block]) -> TestCaseResult {
        self.finalized(chain.last().expect("a chain"))?;
        self.deliver(usize::MAX)?;
        let mut asked = 0;
        while let Some((view, digest)) = self.chain.hole() {
            let block = chain.iter().find(|it| it.digest == digest);
            let block = block.ok_or_else(|| TestCaseError::fail("it names a block of a branch"))?;
            prop_assert!(block.view == view && !self.store.contains_key(&digest));
            asked += 1;
            prop_assert!(asked <= chain.len(), "it asks for each once");
            self.got(block)?;
            self.deliver(usize::MAX)?;
        }
        self.deliver(usize::MAX)
    }
}

/// Branches of two blocks, on every fifth block of the chain.
fn branches_of(chain: &[Block]) -> Vec<Block> {
    let branch = |it: &Block| chain_behind((it.view, it.digest), &[it.view.get() + 1, it.view.get() + 2], 2);
    chain.iter().step_by(5).flat_map(branch).collect()
}

#[test]
fn all_hosts_deliver_one_sequence() {
    let runs = (views(), vec((0..HOSTS, event()), 0..=400));
    check(500, &runs, |(views, events)| {
        let chain = chain(&views);
        let branches = branches_of(&chain);
        let mut hosts: [Host; HOSTS] = std::array::from_fn(|_| Host::new());
        for (at, event) in &events {
            let host = &mut hosts[*at];
            host.happens(event, &chain, &branches)?;
            let count = host.delivered.len().min(chain.len());
            prop_assert_eq!(&host.delivered[..], &chain[..count], "not a beginning of the chain");
        }
        for host in &mut hosts {
            host.heal(&chain)?;
            prop_assert_eq!(&host.delivered, &chain);
            prop_assert_eq!((host.chain.fetched_bytes(), host.chain.tail()), (0, host.tail()));
        }
        Ok(())
    });
}

/// An input of a [`Delivery`], with the place of a block.
#[derive(Clone, Debug)]
enum Input {
    Insert(usize),
    Finalize(usize),
}

#[test]
fn a_delivery_returns_one_sequence_whatever_the_order() {
    let with_inputs = |views: Vec<u64>| {
        let count = views.len();
        let twice = (0..2 * count).map(|it| it % count);
        let inputs: Vec<Input> = twice.flat_map(|it| [Input::Insert(it), Input::Finalize(it)]).collect();
        (Just(views), Just(inputs).prop_shuffle())
    };
    check(400, &views().prop_flat_map(with_inputs), |(views, inputs)| {
        let chain = chain(&views);
        let (mut delivery, mut returned) = (Delivery::new(GENESIS), Vec::new());
        for input in inputs {
            returned.extend(match input {
                Input::Insert(at) => delivery.insert(chain[at].clone())?,
                Input::Finalize(at) => delivery.finalize(&proposal(&chain[at]))?,
            });
            let count = returned.len().min(chain.len());
            prop_assert_eq!(&returned[..], &chain[..count], "not a beginning of the chain");
        }
        prop_assert_eq!((&returned, delivery.hole()), (&chain, None));
        Ok(())
    });
}
