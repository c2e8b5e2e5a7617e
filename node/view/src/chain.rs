//! Which blocks are on the finalized chain.

use crate::facts::{Facts, Fate};
use crate::merge::Run;

/// Writes into each view what became of it.
pub fn decide(facts: &mut [Facts], run: &Run) {
    let Some(highest) = facts.iter().rposition(|it| it.is_finalized) else {
        return;
    };
    let finals: Vec<usize> = (1..=highest).rev().filter(|it| facts[*it].is_finalized).collect();
    for view in finals {
        mark(facts, run, view);
    }
    for it in &mut facts[1..=highest] {
        if it.fate == Fate::Open {
            it.fate = Fate::Lost;
        }
    }
    for it in &mut facts[highest + 1..] {
        if it.is_nullified {
            it.fate = Fate::Lost;
        }
    }
}

/// Marks a finalized view, and its ancestors up to the first that is marked.
fn mark(facts: &mut [Facts], run: &Run, mut view: usize) {
    while view > 0 && facts[view].fate != Fate::Finalized {
        let it = &mut facts[view];
        it.fate = Fate::Finalized;
        if it.final_choice == 0 {
            it.final_choice = it.notarized.max(1);
        }
        let choice = it.final_choice;
        view = parent(run, view, choice).unwrap_or(0).min(view - 1);
    }
}

/// The parent's view of a proposal, from 1; `None` where the proposal is not known.
pub fn parent(run: &Run, view: usize, choice: u8) -> Option<usize> {
    let all = run.tables.proposals.get(&(view as u64))?;
    all.get(usize::from(choice.max(1)) - 1).map(|it| it.parent as usize)
}
