//! The finalized chain as it is put together: from its last block that is complete, block on block, up to the last finalized one.
//!
//! A finalization names one block. Its ancestors are found by the links to their parents, in what the host has; where one is missing there
//! is a hole, which is filled by blocks that peers send.

use crate::{Linked, Store};
use simplex_view_state::{Certificate, Digest, Proposal, View};
use std::collections::{BTreeMap, HashMap};

/// The last block of a chain.
#[derive(Clone, Copy, PartialEq, Eq, Debug)]
pub struct Tail {
    /// How many blocks the chain has.
    pub height: u64,
    /// Its last block's view.
    pub view: View,
    /// The digest of that block.
    pub payload: Digest,
}

impl Tail {
    /// The end of a chain without blocks, behind which the first one comes.
    pub fn genesis(payload: Digest) -> Tail {
        Tail {
            height: 0,
            view: View::GENESIS,
            payload,
        }
    }
}

/// A final block in its place.
#[derive(Clone, Debug)]
pub struct Entry<B> {
    /// Its place: 1 for the first block.
    pub height: u64,
    /// The block.
    pub block: B,
    /// Its finalization, where this node has one: later ones finalize the others.
    pub certificate: Option<Certificate>,
}

/// Two final blocks on one parent, or a final block that leaves the chain: more members are faulty than there may be.
#[derive(Debug)]
pub struct Fork(String);

impl std::fmt::Display for Fork {
    fn fmt(&self, f: &mut std::fmt::Formatter<'_>) -> std::fmt::Result {
        f.write_str(&self.0)
    }
}

impl std::error::Error for Fork {}

/// The final blocks that are not passed on yet.
#[derive(Debug)]
pub struct FinalChain<B> {
    tail: Tail,
    /// The last finalized view.
    target: View,
    /// The final block on each, with its view, by that one's digest.
    children: HashMap<Digest, (View, Digest)>,
    /// Final blocks that peers sent in ranges.
    fetched: HashMap<Digest, B>,
    fetched_bytes: usize,
    certificates: BTreeMap<View, Certificate>,
    /// The final blocks that are missing, as the blocks on them name them.
    holes: BTreeMap<View, Digest>,
}

impl<B: Linked + Clone> FinalChain<B> {
    /// Begins behind the last block that the application has.
    pub fn new(tail: Tail) -> FinalChain<B> {
        FinalChain {
            tail,
            target: tail.view,
            children: HashMap::new(),
            fetched: HashMap::new(),
            fetched_bytes: 0,
            certificates: BTreeMap::new(),
            holes: BTreeMap::new(),
        }
    }

    /// The last block that was taken.
    pub fn tail(&self) -> Tail {
        self.tail
    }

    /// The last finalized view.
    pub fn target(&self) -> View {
        self.target
    }

    /// The lowest final block that is known to be missing. There may be more below it.
    pub fn hole(&self) -> Option<(View, Digest)> {
        self.holes.first_key_value().map(|(view, payload)| (*view, *payload))
    }

    /// How many bytes of fetched blocks wait for those below them.
    pub fn fetched_bytes(&self) -> usize {
        self.fetched_bytes
    }

    /// A proposal is final, and so are all its ancestors. Its finalization comes back with its block ([`Entry::certificate`]).
    ///
    /// # Errors
    ///
    /// A fork, where another final block has the same parent or the chain leaves out the tail.
    pub fn finalize(&mut self, proposal: &Proposal, certificate: Option<Certificate>, store: &impl Store<B>) -> Result<(), Fork> {
        if proposal.view() <= self.tail.view {
            return Ok(());
        }
        self.target = self.target.max(proposal.view());
        self.certificates.extend(certificate.map(|it| (proposal.view(), it)));
        self.mark(proposal.view(), proposal.payload, store)
    }

    /// Final blocks of a verified range, the last one first, and that one's finalization.
    ///
    /// # Errors
    ///
    /// A fork, as of [`FinalChain::finalize`].
    pub fn add(&mut self, certificate: Certificate, range: Vec<B>, store: &impl Store<B>) -> Result<(), Fork> {
        let Some((view, payload)) = range.first().map(|it| (it.view(), it.digest())) else {
            return Ok(());
        };
        for block in range.into_iter().filter(|it| it.view() > self.tail.view) {
            self.fetched_bytes += block.size();
            if let Some(older) = self.fetched.insert(block.digest(), block) {
                self.fetched_bytes -= older.size();
            }
        }
        if view <= self.tail.view {
            return Ok(());
        }
        self.certificates.insert(view, certificate);
        self.mark(view, payload, store)?;
        let is_filled = |(view, payload): (&View, &Digest)| self.find(payload, store).map(|_| (*view, *payload));
        let filled: Vec<(View, Digest)> = self.holes.iter().filter_map(is_filled).collect();
        filled.into_iter().try_for_each(|(view, payload)| self.mark(view, payload, store))
    }

    /// A block is in the store now that may have been missing.
    ///
    /// # Errors
    ///
    /// A fork, as of [`FinalChain::finalize`].
    pub fn arrived(&mut self, block: &B, store: &impl Store<B>) -> Result<(), Fork> {
        if self.holes.get(&block.view()) == Some(&block.digest()) {
            self.mark(block.view(), block.digest(), store)?;
        }
        Ok(())
    }

    fn find<'a>(&'a self, payload: &Digest, store: &'a impl Store<B>) -> Option<&'a B> {
        self.fetched.get(payload).or_else(|| store.block(payload))
    }

    /// Walks from a final block down to the last one that was taken, to one that was walked before, or to a hole.
    fn mark(&mut self, mut view: View, mut payload: Digest, store: &impl Store<B>) -> Result<(), Fork> {
        while payload != self.tail.payload {
            if view <= self.tail.view {
                return Err(Fork(format!(
                    "a final chain has a block of view {view} and none of view {}: the chain forks",
                    self.tail.view
                )));
            }
            let Some(parent) = self.find(&payload, store).map(Linked::parent) else {
                self.holes.insert(view, payload);
                return Ok(());
            };
            self.holes.remove(&view);
            match self.children.insert(parent.1, (view, payload)) {
                Some((_, same)) if same == payload => return Ok(()),
                Some(_) => {
                    return Err(Fork(format!(
                        "two final blocks are on the block of view {}: the chain forks",
                        parent.0
                    )));
                }
                None => (view, payload) = parent,
            }
        }
        Ok(())
    }

    /// The blocks behind the last one that was taken, in order, as far as none is missing. They are returned once. A block that the store
    /// has forgotten meanwhile is missing again.
    pub fn take(&mut self, store: &impl Store<B>) -> Vec<Entry<B>> {
        let mut taken = Vec::new();
        while let Some((view, payload)) = self.children.get(&self.tail.payload).copied() {
            let fetched = self.fetched.remove(&payload).inspect(|it| self.fetched_bytes -= it.size());
            let Some(block) = fetched.or_else(|| store.block(&payload).cloned()) else {
                self.holes.insert(view, payload);
                break;
            };
            self.children.remove(&self.tail.payload);
            self.tail = Tail {
                height: self.tail.height + 1,
                view: block.view(),
                payload,
            };
            taken.push(Entry {
                height: self.tail.height,
                certificate: self.certificates.remove(&block.view()),
                block,
            });
        }
        if !taken.is_empty() {
            let next = View::new(self.tail.view.get() + 1);
            self.certificates = self.certificates.split_off(&next);
            self.holes = self.holes.split_off(&next);
            self.drop_taken();
        }
        taken
    }

    /// Drops blocks of ranges that came twice.
    fn drop_taken(&mut self) {
        let (last, bytes) = (self.tail.view, &mut self.fetched_bytes);
        self.fetched.retain(|_, block| {
            let is_above = block.view() > last;
            *bytes -= if is_above { 0 } else { block.size() };
            is_above
        });
    }
}
