//! The facts of each view.

use crate::events::{Code, NOBODY, Seen};
use crate::merge::Run;
use std::collections::BTreeSet;

/// The fate of a view.
#[derive(Clone, Copy, PartialEq, Eq, Debug)]
#[repr(u8)]
pub enum Fate {
    /// Nothing is decided at the end of the trace.
    Open,
    /// Its block is on the finalized chain.
    Finalized,
    /// It has no block on the finalized chain.
    Lost,
}

/// The facts of a view.
#[derive(Clone, Debug)]
pub struct Facts {
    /// Its fate.
    pub fate: Fate,
    /// Which proposal is on the finalized chain, from 1; 0 of none.
    pub final_choice: u8,
    /// Which proposal was notarized, from 1; 0 of none.
    pub notarized: u8,
    /// True if any member has a nullification of just this view.
    pub is_nullified: bool,
    /// True if any member has a finalization of it.
    pub is_finalized: bool,
    /// When a proposal was begun to be built, or was sent, first.
    pub built: Option<u64>,
    /// When any member voted in it, or gave it up, first.
    pub entered: Option<u64>,
    /// Who sent, received or voted for each proposal.
    pub receivers: Vec<BTreeSet<u32>>,
    /// Who voted to notarize each proposal.
    pub notarizers: Vec<BTreeSet<u32>>,
    /// Who voted to nullify.
    pub nullifiers: BTreeSet<u32>,
    /// Who gave it up, and the number of the reason.
    pub timeouts: Vec<(u32, u8)>,
    /// Who withheld its vote to notarize, and the number of the reason.
    pub withheld: Vec<(u32, u8)>,
    /// Who found the proposal invalid.
    pub invalid: BTreeSet<u32>,
    /// Who did not certify it.
    pub not_certified: BTreeSet<u32>,
    /// True if the leader's own process sent a proposal.
    pub is_sent: bool,
    /// The leader's state when the view was entered.
    pub leader: LeaderState,
}

/// How the leader was when a view was entered.
#[derive(Clone, Copy, PartialEq, Eq, Debug)]
pub enum LeaderState {
    /// Its process ran, and no link was cut.
    Up,
    /// Its process had ended.
    Down,
    /// It was cut off from a quorum.
    CutOff,
}

impl Facts {
    fn new() -> Facts {
        Facts {
            fate: Fate::Open,
            final_choice: 0,
            notarized: 0,
            is_nullified: false,
            is_finalized: false,
            built: None,
            entered: None,
            receivers: Vec::new(),
            notarizers: Vec::new(),
            nullifiers: BTreeSet::new(),
            timeouts: Vec::new(),
            withheld: Vec::new(),
            invalid: BTreeSet::new(),
            not_certified: BTreeSet::new(),
            is_sent: false,
            leader: LeaderState::Up,
        }
    }

    fn take(&mut self, seen: &Seen) {
        let member = seen.member;
        match seen.code {
            Code::Build | Code::Handoff => drop(self.built.get_or_insert(seen.at)),
            Code::ProposalSent => {
                self.built.get_or_insert(seen.at);
                self.is_sent = true;
            }
            Code::ProposalReceived => drop(of_choice(&mut self.receivers, seen.choice).insert(member)),
            Code::Notarize => {
                of_choice(&mut self.notarizers, seen.choice).insert(member);
                of_choice(&mut self.receivers, seen.choice).insert(member);
            }
            Code::NotarizeReceived => drop(of_choice(&mut self.notarizers, seen.choice).insert(seen.other)),
            Code::Nullify => drop(self.nullifiers.insert(member)),
            Code::NullifyReceived => drop(self.nullifiers.insert(seen.other)),
            Code::Invalid => drop(self.invalid.insert(member)),
            Code::NotCertified => drop(self.not_certified.insert(member)),
            Code::Timeout if !self.timeouts.iter().any(|it| it.0 == member) => self.timeouts.push((member, seen.choice)),
            Code::NotarizeWithheld if !self.withheld.iter().any(|it| it.0 == member) => self.withheld.push((member, seen.choice)),
            Code::NotarizationMade | Code::NotarizationAccepted => self.notarized = seen.choice,
            Code::NullificationMade | Code::NullificationAccepted => self.is_nullified = true,
            Code::FinalizationMade | Code::FinalizationAccepted | Code::Finalized => {
                self.is_finalized = true;
                self.final_choice = seen.choice;
            }
            _ => {}
        }
    }
}

/// The set of a proposal, from 1. A vote for one is of the first where the trace does not say.
fn of_choice(sets: &mut Vec<BTreeSet<u32>>, choice: u8) -> &mut BTreeSet<u32> {
    let place = usize::from(choice.max(1)) - 1;
    if sets.len() <= place {
        sets.resize(place + 1, BTreeSet::new());
    }
    &mut sets[place]
}

/// Which processes run, and which links are cut, while events are read.
struct Network {
    is_up: Vec<bool>,
    /// The group of each member; empty where no link is cut.
    groups: Vec<usize>,
    quorum: u32,
}

impl Network {
    fn take(&mut self, seen: &Seen, texts: &[String]) {
        match seen.code {
            Code::Crash => self.set_up(seen.member, false),
            Code::Start | Code::Resume => self.set_up(seen.member, true),
            Code::Partition => self.cut(&texts[seen.value as usize]),
            _ => {}
        }
    }

    fn set_up(&mut self, member: u32, is_up: bool) {
        if let Some(it) = self.is_up.get_mut(member as usize) {
            *it = is_up;
        }
    }

    fn cut(&mut self, text: &str) {
        self.groups.clear();
        if text.contains('|') {
            self.groups = vec![0; self.is_up.len()];
            for (group, members) in text.split('|').enumerate() {
                for member in members.split(',').filter_map(|it| it.parse::<usize>().ok()) {
                    if let Some(it) = self.groups.get_mut(member) {
                        *it = group;
                    }
                }
            }
        }
    }

    fn state(&self, leader: u32) -> LeaderState {
        if !self.is_up.get(leader as usize).copied().unwrap_or(true) {
            return LeaderState::Down;
        }
        let group = self.groups.get(leader as usize);
        let reached = self.groups.iter().filter(|it| Some(*it) == group).count();
        match group {
            Some(_) if (reached as u32) < self.quorum => LeaderState::CutOff,
            _ => LeaderState::Up,
        }
    }
}

/// Returns what is known of each view, from 0 on.
pub fn of(run: &Run) -> Vec<Facts> {
    let mut facts = vec![Facts::new(); run.highest() as usize + 1];
    let mut network = Network {
        is_up: vec![true; run.header.members as usize],
        groups: Vec::new(),
        quorum: run.header.quorum(),
    };
    for seen in &run.events {
        network.take(seen, &run.tables.texts);
        let Some(it) = facts.get_mut(seen.view as usize).filter(|_| seen.view > 0) else {
            continue;
        };
        let is_entered = matches!(seen.code, Code::Timeout | Code::Notarize);
        if is_entered && it.entered.is_none() {
            it.entered = Some(seen.at);
            it.leader = network.state(run.header.leader(seen.view));
        }
        if seen.member != NOBODY {
            it.take(seen);
        }
    }
    crate::chain::decide(&mut facts, run);
    facts
}
