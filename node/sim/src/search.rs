//! Looks for a seed that breaks a promise, and shrinks its plan.

use crate::checks::Violation;
use crate::host::{Host, Seat};
use crate::network::{Outcome, Simulation};
use crate::plan::Plan;

/// How many seeds [`shrink`] tries for each smaller plan: what is drawn changes with the plan.
const SEEDS: u64 = 8;

/// Returns the first promise that a plan breaks.
pub fn violation(plan: &Plan, host: &dyn Fn(&Seat) -> Box<dyn Host>) -> Option<Violation> {
    played(plan, host).violations.into_iter().next()
}

fn played(plan: &Plan, host: &dyn Fn(&Seat) -> Box<dyn Host>) -> Outcome {
    Simulation::new(plan, host).run(&mut |_| {})
}

/// Tries a number of seeds, from the plan's on, until a promise is broken. Returns the plan with that seed, and what it breaks.
pub fn until_disagreement(plan: &Plan, tries: u64, host: &dyn Fn(&Seat) -> Box<dyn Host>) -> Option<(Plan, Violation)> {
    (plan.seed..plan.seed.saturating_add(tries)).find_map(|seed| {
        let plan = Plan { seed, ..plan.clone() };
        violation(&plan, host).map(|it| (plan, it))
    })
}

/// Returns the least plan that was found to break a promise still: fewer crashes and partitions, no loss, one latency, fewer faulty members,
/// short terms, just the views that it takes, and the least seed of those that were tried. A plan that breaks none is returned as it is.
pub fn shrink(plan: &Plan, host: &dyn Fn(&Seat) -> Box<dyn Host>) -> Plan {
    let mut least = broken(plan, host).unwrap_or_else(|| plan.clone());
    while let Some(smaller) = candidates(&least).iter().find_map(|it| with_some_seed(it, host)) {
        least = smaller;
    }
    let lower = (0..least.seed).take(SEEDS as usize).map(|seed| Plan { seed, ..least.clone() });
    lower.into_iter().find_map(|it| broken(&it, host)).unwrap_or(least)
}

/// The plan, with just the views that it takes until a promise is broken; `None` where it breaks none.
fn broken(plan: &Plan, host: &dyn Fn(&Seat) -> Box<dyn Host>) -> Option<Plan> {
    let outcome = played(plan, host);
    let views = outcome.finalized + 1;
    (!outcome.violations.is_empty()).then(|| Plan { views, ..plan.clone() })
}

/// The plan, with its seed or a low one, if it breaks a promise.
fn with_some_seed(plan: &Plan, host: &dyn Fn(&Seat) -> Box<dyn Host>) -> Option<Plan> {
    let seeds = [plan.seed].into_iter().chain(0..SEEDS);
    let of_seed = |seed| Plan { seed, ..plan.clone() };
    seeds.map(of_seed).find_map(|it| broken(&it, host))
}

/// Plans that are smaller in one way each.
fn candidates(plan: &Plan) -> Vec<Plan> {
    let mut found = Vec::new();
    let mut add = |change: &dyn Fn(&mut Plan)| {
        let mut smaller = plan.clone();
        change(&mut smaller);
        if smaller != *plan {
            found.push(smaller);
        }
    };
    for index in 0..plan.crashes.len() {
        add(&|it| {
            it.crashes.remove(index);
        });
    }
    for index in 0..plan.partitions.len() {
        add(&|it| {
            it.partitions.remove(index);
        });
    }
    add(&|it| it.loss = 0);
    add(&|it| it.faulty = 0);
    add(&|it| it.faulty = it.faulty.saturating_sub(1));
    add(&|it| it.latency = *it.latency.start()..=*it.latency.start());
    add(&|it| it.optimistic_views = 0);
    add(&|it| it.term_length = std::num::NonZeroU32::MIN);
    found
}
