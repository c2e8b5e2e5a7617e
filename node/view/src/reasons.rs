//! Why views were lost, in words.

use crate::chain::parent;
use crate::events::REASONS;
use crate::facts::{Facts, Fate, LeaderState};
use crate::merge::Run;
use simplex_trace::{TimeoutReason, Withheld};
use std::collections::{BTreeMap, BTreeSet};

/// Why a view was lost, in words; `None` where it was not.
pub fn reason(run: &Run, facts: &[Facts], view: usize) -> Option<String> {
    let it = &facts[view];
    if it.fate != Fate::Lost {
        return None;
    }
    let proposals = run.tables.proposals.get(&(view as u64)).map_or(0, Vec::len);
    let leader = run.header.leader(view as u64);
    let has_arrived = it.receivers.iter().flatten().any(|it| *it != leader);
    let cause = match proposals {
        1 if it.is_sent && !has_arrived && it.leader == LeaderState::Up => {
            format!("the proposal of leader {leader} reached nobody in time")
        }
        0 => without_proposal(run, facts, view),
        1 if !has_arrived => without_proposal(run, facts, view),
        1 => with_proposal(run, facts, view),
        _ => two_proposals(run, it, view),
    };
    let built_on: Vec<String> = built_on(run, facts, view).iter().map(usize::to_string).collect();
    Some(match &built_on[..] {
        [] => cause,
        [one] => format!("{cause}; view {one} was built on it"),
        several => format!("{cause}; views {} were built on it", several.join(", ")),
    })
}

/// The views soon after one whose proposals name it as their parent.
fn built_on(run: &Run, facts: &[Facts], view: usize) -> Vec<usize> {
    let last = facts.len().min(view + 1 + 2 * run.header.term_length as usize);
    (view + 1..last)
        .filter(|it| {
            let proposals = run.tables.proposals.get(&(*it as u64));
            proposals.is_some_and(|all| all.iter().any(|it| it.parent as usize == view))
        })
        .collect()
}

fn two_proposals(run: &Run, it: &Facts, view: usize) -> String {
    let leader = run.header.leader(view as u64);
    let all = &run.tables.proposals[&(view as u64)];
    let to = |(place, proposal): (usize, &simplex_trace::Proposal)| {
        let mut members = it.receivers.get(place).cloned().unwrap_or_default();
        members.remove(&leader);
        format!("{} to {}", &proposal.payload[..proposal.payload.len().min(4)], named(&members))
    };
    let parts: Vec<String> = all.iter().enumerate().map(to).collect();
    let count = if all.len() == 2 { "two".to_owned() } else { all.len().to_string() };
    format!("leader {leader} sent {count} proposals: {}", parts.join(" and "))
}

fn without_proposal(run: &Run, facts: &[Facts], view: usize) -> String {
    let (it, leader) = (&facts[view], run.header.leader(view as u64));
    if let Some(covering) = covering(run, facts, view) {
        return format!("the nullification of view {covering}, in the same term, covers it");
    }
    let is_inactive = it.timeouts.iter().any(|it| REASONS[usize::from(it.1)] == TimeoutReason::Inactivity);
    match it.leader {
        LeaderState::Down => format!("leader {leader} was down"),
        LeaderState::CutOff => format!("leader {leader} was cut off from a quorum"),
        LeaderState::Up if run.header.faulty.contains(&leader) => format!("leader {leader}, which is faulty, sent no proposal"),
        LeaderState::Up if is_inactive => format!("leader {leader} was not heard of for long, and its view was skipped"),
        LeaderState::Up => format!("leader {leader} sent no proposal in time"),
    }
}

/// An earlier view of the term whose nullification covers a view.
fn covering(run: &Run, facts: &[Facts], view: usize) -> Option<usize> {
    let length = run.header.term_length as usize;
    let first = (view - 1) / length * length + 1;
    (first..view).rev().find(|it| facts[*it].is_nullified)
}

fn with_proposal(run: &Run, facts: &[Facts], view: usize) -> String {
    let (it, leader) = (&facts[view], run.header.leader(view as u64));
    let parent = parent(run, view, 1).unwrap_or(0);
    if parent > 0 && parent < view && facts[parent].fate == Fate::Lost {
        return format!("it was built on view {parent}, which is lost");
    }
    if !it.not_certified.is_empty() {
        return format!("{} did not certify the proposal", named(&it.not_certified));
    }
    if !it.invalid.is_empty() {
        return format!("{} found the proposal invalid", named(&it.invalid));
    }
    let quorum = run.header.quorum() as usize;
    let notarizers = it.notarizers.first().cloned().unwrap_or_default();
    let silent: BTreeSet<u32> = (0..run.header.members).filter(|it| !notarizers.contains(it)).collect();
    let cut = match it.leader {
        LeaderState::CutOff => format!(" (leader {leader} was cut off from a quorum)"),
        LeaderState::Down => format!(" (leader {leader} was down)"),
        LeaderState::Up => String::new(),
    };
    if notarizers.len() < quorum {
        return format!(
            "{} of {quorum} votes to notarize were cast{cut}: {}",
            notarizers.len(),
            silent_words(it, &silent)
        );
    }
    if let Some(covering) = covering(run, facts, view) {
        return format!("the nullification of view {covering}, in the same term, covers it");
    }
    let what = if it.notarized > 0 {
        "it was notarized"
    } else {
        "its votes to notarize did not arrive in time"
    };
    format!("{what}, and {} voted to nullify it{cut}{}", named(&it.nullifiers), reasons(it))
}

/// Why members did not vote to notarize: by their engines, else by why the view was abandoned.
fn silent_words(it: &Facts, silent: &BTreeSet<u32>) -> String {
    let mut of_reason: BTreeMap<u8, BTreeSet<u32>> = BTreeMap::new();
    for (member, reason) in it.withheld.iter().filter(|it| silent.contains(&it.0)) {
        of_reason.entry(*reason).or_default().insert(*member);
    }
    let known: BTreeSet<u32> = of_reason.values().flatten().copied().collect();
    let unknown: BTreeSet<u32> = silent.difference(&known).copied().collect();
    let group = |(reason, members): (&u8, &BTreeSet<u32>)| {
        format!(
            "{} did not vote for it, since {}",
            named(members),
            Withheld::ALL[usize::from(*reason)]
        )
    };
    let mut parts: Vec<String> = of_reason.iter().map(group).collect();
    if !unknown.is_empty() {
        parts.push(format!("{} did not vote for it{}", named(&unknown), reasons(it)));
    }
    parts.join("; ")
}

/// The reasons of those that gave a view up, in brackets.
fn reasons(it: &Facts) -> String {
    let mut words: Vec<String> = it.timeouts.iter().map(|it| REASONS[usize::from(it.1)].to_string()).collect();
    words.sort();
    words.dedup();
    if words.is_empty() {
        String::new()
    } else {
        format!(" ({})", words.join(", "))
    }
}

/// Members in words.
fn named(members: &BTreeSet<u32>) -> String {
    let words: Vec<String> = members.iter().map(u32::to_string).collect();
    match &words[..] {
        [] => "nobody".to_owned(),
        [one] => format!("member {one}"),
        _ => format!("members {}", words.join(", ")),
    }
}
