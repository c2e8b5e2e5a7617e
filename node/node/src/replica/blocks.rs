//! Blocks: what the application builds, verifies and judges.

use super::Replica;
use crate::application::Ancestors;
use crate::application::ancestors::Branch;
use crate::application::worker::{Answer, Kind, Question};
use crate::missing_blocks::Pending;
use crate::settings::Outcome;
use simplex_view_state::{CertificateKind, Context, Digest, Input, Proposal, Subject, View};
use simplex_wire::{Block, LONGEST_BLOCK};
use std::sync::atomic::Ordering::Relaxed;
use std::time::Instant;
use tracing::error;

impl Replica {
    /// Has the application verify a proposal, now or when its block and its ancestors' have come. Nobody waits for a reply on a view that
    /// the final chain has passed.
    pub(super) fn verify(&mut self, context: Context, proposal: Proposal) -> Outcome {
        let (view, parent) = (context.round.view, (context.parent, context.parent_payload));
        let question = Pending::Verify(context, proposal);
        if view <= self.passed.0 {
            return Ok(());
        }
        let Some(block) = self.parts.blocks.get(&proposal.payload).cloned() else {
            self.wait_for(question, (view, proposal.payload));
            return Ok(());
        };
        let is_its = block.is_of(&proposal) && block.parent == parent;
        match self.branch_to(parent) {
            Branch::Whole(ancestors) if is_its => {
                self.ask_application(Question::Verify(proposal, block, ancestors), proposal.payload);
            }
            Branch::Missing(view, payload) if is_its => self.wait_for(question, (view, payload)),
            _ => {
                self.handle(Input::Verified { view, is_valid: false })?;
            }
        }
        Ok(())
    }

    /// Has the application judge a notarized proposal, now or when its block and its ancestors' have come; of a passed view as above.
    pub(super) fn certify(&mut self, proposal: Proposal) -> Outcome {
        let (view, question) = (proposal.view(), Pending::Certify(proposal));
        if view <= self.passed.0 {
            return Ok(());
        }
        let Some(block) = self.parts.blocks.get(&proposal.payload).cloned() else {
            self.wait_for(question, (view, proposal.payload));
            return Ok(());
        };
        let is_good = block.is_of(&proposal) && self.may_be_parent(block.parent)?;
        match self.branch_to(block.parent) {
            Branch::Whole(ancestors) if is_good => {
                self.ask_application(Question::Certify(proposal, block, ancestors), proposal.payload);
            }
            Branch::Missing(view, payload) if is_good => self.wait_for(question, (view, payload)),
            _ => {
                self.handle(Input::Certified { view, is_success: false })?;
            }
        }
        Ok(())
    }

    /// Returns whether no other block is notarized or final in the view of this one. A notarized block may be on another block than the one
    /// that is notarized in its parent's view, where that view's leader proposed two: no chain can hold both. Whoever judges it has a
    /// certificate of its parent's view, so all honest nodes judge alike.
    fn may_be_parent(&self, block: (View, Digest)) -> Outcome<bool> {
        for kind in [CertificateKind::Notarization, CertificateKind::Finalization] {
            let found = self.parts.engine.certificate(kind, block.0)?;
            if let Some(Subject::Notarize(it) | Subject::Finalize(it)) = found.map(|it| it.subject()) {
                return Ok(it.payload == block.1);
            }
        }
        Ok(true)
    }

    /// The ancestors up to a parent, above the final blocks that the application's thread has.
    fn branch_to(&self, parent: (View, Digest)) -> Branch {
        Ancestors::collect(self.passed, parent, |payload| self.parts.blocks.get(payload))
    }

    /// A question waits for a block, which is asked of its leader first. (Final blocks are asked for by the chain: they come in ranges.)
    fn wait_for(&mut self, question: Pending, block: (View, Digest)) {
        self.missing.wait(question, block);
        if block.0 > self.chain.target() {
            let (leader, now) = (self.turns.leader(block.0), self.parts.clock.now());
            self.missing.want(block.0, block.1, leader, now);
        }
    }

    /// The application's thread has the final blocks up to this one: what waited for one of them is asked.
    pub(super) fn pass(&mut self, last: (View, Digest)) -> Outcome {
        if last.0 <= self.passed.0 {
            return Ok(());
        }
        self.passed = last;
        let ready = self.missing.archived(last.0);
        self.ask_again(ready)
    }

    fn ask_again(&mut self, questions: Vec<Pending>) -> Outcome {
        for question in questions {
            match question {
                Pending::Build(context) => self.pace.ask(context, Instant::now()),
                Pending::Verify(context, proposal) => self.verify(context, proposal)?,
                Pending::Certify(proposal) => self.certify(proposal)?,
            }
        }
        Ok(())
    }

    fn ask_application(&mut self, question: Question, of: Digest) {
        self.asked.insert(question.key(), of);
        self.parts.application.ask(question);
    }

    /// Has the application build the next block that is due, once it has built the one before and the ancestors have come.
    pub(super) fn build_due(&mut self) -> Outcome {
        let current = self.views()?.current;
        self.pace.forget(current);
        self.missing.forget_builds(current);
        if self.building.is_none()
            && let Some(context) = self.pace.due(Instant::now(), current)
        {
            match self.branch_to((context.parent, context.parent_payload)) {
                Branch::Whole(ancestors) => {
                    self.building = Some(context);
                    self.parts.application.ask(Question::Build(context, ancestors));
                }
                Branch::Missing(view, payload) => self.wait_for(Pending::Build(context), (view, payload)),
                Branch::Broken => {}
            }
        }
        Ok(())
    }

    /// Takes a reply of the application. A reply on another block than the one that was asked about last is dropped.
    pub(super) fn take_answer(&mut self, answer: Answer) -> Outcome {
        let mut is_asked =
            |kind, view, payload| self.asked.get(&(kind, view)) == Some(&payload) && self.asked.remove(&(kind, view)).is_some();
        match answer {
            Answer::Verified(view, payload, is_valid) if is_asked(Kind::Verify, view, payload) => {
                self.handle(Input::Verified { view, is_valid })?;
            }
            Answer::Certified(view, payload, is_success) if is_asked(Kind::Certify, view, payload) => {
                self.handle(Input::Certified { view, is_success })?;
            }
            Answer::Built(context, content) => {
                self.building = None;
                self.pace.built(Instant::now());
                content.map_or(Ok(()), |it| self.take_built(context, &it))?;
            }
            Answer::Durable(height) => self.parts.keeper.durable(height),
            Answer::Verified(..) | Answer::Certified(..) => {}
        }
        Ok(())
    }

    fn take_built(&mut self, context: Context, content: &[u8]) -> Outcome {
        let block = Block::new(&context, content);
        let (payload, bytes) = (block.payload(), block.bytes().len());
        if bytes > LONGEST_BLOCK {
            self.parts.counters.oversized_blocks.fetch_add(1, Relaxed);
            error!(
                view = context.round.view.get(),
                bytes,
                most = LONGEST_BLOCK,
                "the application built a block that no peer would take: it is not proposed"
            );
            return Ok(());
        }
        self.parts.blocks.keep(block)?;
        self.handle(Input::Built { context, payload })?;
        Ok(())
    }

    /// A block that a peer sends. Blocks that nobody asked for are not kept.
    pub(super) fn take_block(&mut self, bytes: Vec<u8>) -> Outcome {
        match Block::decode(bytes) {
            Ok(block) if self.missing.wants(&block.payload()) => self.keep_block(block),
            _ => Ok(()),
        }
    }

    /// Stores a block: what waited for it continues.
    pub(super) fn keep_block(&mut self, block: Block) -> Outcome {
        let payload = block.payload();
        self.parts.blocks.keep(block.clone())?;
        self.chain.arrived(&block, &self.parts.blocks)?;
        let ready = self.missing.arrived(&payload);
        self.ask_again(ready)?;
        self.deliver()
    }
}
