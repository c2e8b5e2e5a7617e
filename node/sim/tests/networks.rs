//! Simulated networks: what they promise, what breaks it, and that the same plan gives the same trace.

#[path = "../examples/forgetful.rs"]
#[allow(dead_code)]
mod forgetful;

use forgetful::Forgetful;
use simplex_sim::rounds::measure;
use simplex_sim::search::{shrink, until_disagreement, violation};
use simplex_sim::{
    Application, Block, Byzantine, Ended, EngineHost, Fault, Host, Insider, Log, Message, Outcome, Plan, Seat, Sent, Simulation, Violation,
};
use simplex_trace::{Event, Line, TimeoutReason, VoteKind, Withheld};
use simplex_view_state::Context;

const ALL: [Byzantine; 6] = [
    Byzantine::Equivocate,
    Byzantine::Silent,
    Byzantine::Mute,
    Byzantine::Withhold,
    Byzantine::Nullify,
    Byzantine::Chaos,
];

fn host(seat: &Seat) -> Box<dyn Host> {
    Box::new(EngineHost::new(seat, Log::default()))
}

fn members(count: u32) -> std::num::NonZeroU32 {
    count.try_into().expect("not 0")
}

fn plan() -> Plan {
    Plan {
        members: members(7),
        faulty: 2,
        loss: 5,
        partitions: vec!["5s..9s".parse().expect("a partition")],
        crashes: vec!["3@2s".parse().expect("a crash")],
        term_length: members(5),
        optimistic_views: 2,
        view_retention: 10,
        views: 60,
        ..Plan::default()
    }
}

fn played(plan: &Plan) -> (Outcome, Vec<Line>) {
    let mut lines = Vec::new();
    let outcome = Simulation::new(plan, host).run(&mut |line| lines.push(line));
    (outcome, lines)
}

fn count(lines: &[Line], is_it: impl Fn(&Event) -> bool) -> usize {
    lines.iter().filter(|it| is_it(&it.event)).count()
}

#[test]
fn the_same_plan_gives_the_same_trace_and_another_seed_another() {
    let (first, again) = (played(&plan()), played(&plan()));
    assert_eq!(first, again);
    assert_ne!(first.1, played(&Plan { seed: 2, ..plan() }).1);
}

#[test]
fn networks_with_few_faulty_members_agree_and_continue_whatever_these_do() {
    for byzantine in ALL {
        for seed in 0..4 {
            let (outcome, _) = played(&Plan { byzantine, seed, ..plan() });
            assert_eq!(
                (outcome.ended, &outcome.violations[..]),
                (Ended::Reached, &[][..]),
                "{byzantine} {seed}"
            );
            assert!(outcome.finalized >= 60 && outcome.lost > 0);
        }
    }
}

#[test]
fn too_many_faulty_members_bring_a_disagreement_that_is_found_and_shrunk() {
    let plan = Plan { faulty: 3, ..plan() };
    let (found, _) = until_disagreement(&plan, 20, &host).expect("three of seven are too many");
    let least = shrink(&found, &host);
    assert!(
        least.crashes.is_empty() && least.partitions.is_empty() && least.loss == 0,
        "{least}"
    );
    assert_eq!(least.faulty, 3, "{least}");
    let broken = violation(&least, &host).expect("it breaks a promise still");
    assert!(
        matches!(broken, Violation::TwoFinalized { .. } | Violation::Fork { .. }),
        "{broken}"
    );
}

#[test]
fn a_host_that_forgets_its_journal_votes_twice_and_one_crash_of_one_cut_off_shows_it() {
    let (found, violation) = until_disagreement(&forgetful::plan(), 100, &Forgetful::host).expect("a vote is cast twice");
    assert!(matches!(violation, Violation::VotedTwice { .. }), "{violation}");
    let least = shrink(&found, &Forgetful::host);
    assert_eq!((least.crashes.len(), least.partitions.len()), (1, 1), "{least}");
    assert_eq!(
        until_disagreement(&forgetful::plan(), 5, &host),
        None,
        "a host that keeps its journal votes once"
    );
}

#[test]
fn a_trace_has_what_was_played() {
    let (_, lines) = played(&plan());
    let is_of = |member: u32| move |line: &&Line| line.member == Some(member);
    let of_3: Vec<&Event> = lines.iter().filter(is_of(3)).map(|it| &it.event).collect();
    let crash = of_3.iter().position(|it| matches!(it, Event::Crash)).expect("it crashes");
    assert!(
        matches!(of_3[crash + 1], Event::Resume { entries } if *entries > 0),
        "{:?}",
        of_3[crash + 1]
    );
    assert_eq!(count(&lines, |it| matches!(it, Event::Partition { .. })), 2);
    assert!(count(&lines, |it| matches!(it, Event::Equivocation { signer: 5 | 6, .. })) > 0);
    assert_eq!(count(&lines, |it| matches!(it, Event::Equivocation { signer: 0..5, .. })), 0);
    assert!(count(&lines, |it| matches!(it, Event::Handoff { .. })) > 0);
    assert!(count(&lines, |it| matches!(it, Event::FetchSettled { .. })) > 0);
    assert!(count(&lines, |it| matches!(it, Event::Store { is_replacement: true, .. })) > 0);
    assert!(lines.is_sorted_by_key(|it| it.at));
}

#[test]
fn a_silent_leader_costs_its_views_alone() {
    let plan = Plan {
        faulty: 1,
        byzantine: Byzantine::Silent,
        views: 40,
        ..Plan::default()
    };
    let (outcome, lines) = played(&plan);
    let lost = |line: &&Line| matches!(line.event, Event::Timeout { reason } if reason != TimeoutReason::Retry);
    let views: std::collections::BTreeSet<u64> = lines.iter().filter(lost).map(|it| it.view).collect();
    assert_eq!(outcome.ended, Ended::Reached);
    assert!(views.len() >= 9 && views.iter().all(|view| view % 4 == 0), "{views:?}");
}

#[test]
fn members_say_why_they_withheld_a_vote() {
    let silent = Plan {
        faulty: 1,
        byzantine: Byzantine::Silent,
        views: 40,
        ..Plan::default()
    };
    let (_, lines) = played(&silent);
    let given_up = |it: &&[Line]| matches!(it[0].event, Event::Timeout { reason } if reason != TimeoutReason::Retry);
    let (kind, reason) = (VoteKind::Notarize, Withheld::NoProposal);
    let is_explained = |it: &[Line]| it[1].event == Event::Withheld { kind, reason } && it[1].view == it[0].view;
    let given_up: Vec<&[Line]> = lines.windows(2).filter(given_up).collect();
    assert!(given_up.len() >= 27 && given_up.iter().all(|it| is_explained(it)));
    let withheld = count(&lines, |it| matches!(it, Event::Withheld { .. }));
    let of_given_up = lines.iter().filter(|it| it.view % 4 == 0);
    assert_eq!(
        withheld,
        of_given_up.filter(|it| matches!(it.event, Event::Withheld { .. })).count()
    );
    let (_, lines) = played(&plan());
    for reason in [
        Withheld::NotVerified,
        Withheld::NotNotarized,
        Withheld::AlreadyFinalized,
        Withheld::ConflictingNullify,
    ] {
        let is_it = |it: &Event| matches!(it, Event::Withheld { reason: it, .. } if *it == reason);
        assert!(count(&lines, is_it) > 0, "{reason}");
    }
}

#[test]
fn networks_with_a_hostile_past_finalize_within_some_rounds() {
    for seed in 0..12 {
        let byzantine = ALL[seed as usize % ALL.len()];
        let plan = Plan {
            faulty: 1,
            byzantine,
            seed,
            ..Plan::default()
        };
        let measured = measure(&plan, host, &mut |_| {});
        assert!(measured.rounds.is_some_and(|it| it > 0 && it < 500), "{measured:?}");
        assert_eq!(measured.violations, 0, "{measured:?}");
    }
}

/// An application that finds the blocks of some views invalid.
struct Strict(Log);

impl Application for Strict {
    fn build(&mut self, context: &Context) -> u64 {
        self.0.build(context)
    }

    fn verify(&mut self, block: &Block) -> bool {
        !block.view.get().is_multiple_of(7)
    }

    fn certify(&mut self, _: &Block) -> bool {
        true
    }

    fn finalized(&mut self, block: &Block) {
        assert!(!block.view.get().is_multiple_of(7), "{block:?} is final");
        self.0.finalized(block);
    }
}

#[test]
fn an_application_of_ones_own_judges_blocks() {
    let plan = Plan {
        views: 30,
        ..Plan::default()
    };
    let mut lines = Vec::new();
    let hosts = |seat: &Seat| -> Box<dyn Host> { Box::new(EngineHost::new(seat, Strict(Log::default()))) };
    let outcome = Simulation::new(&plan, hosts).run(&mut |line| lines.push(line));
    assert_eq!(outcome.ended, Ended::Reached);
    let reason = TimeoutReason::InvalidProposal;
    assert!(count(&lines, |it| *it == Event::Timeout { reason }) > 0);
}

/// A member that sends each message twice.
struct Twice;

impl Fault for Twice {
    fn send(&mut self, sent: Sent, insider: &mut Insider) -> Vec<Sent> {
        let again = insider.to(sent.to, sent.message.clone());
        if matches!(sent.message, Message::AskBlock(_)) {
            vec![sent]
        } else {
            vec![sent, again]
        }
    }
}

#[test]
fn a_fault_of_ones_own_is_played() {
    let plan = Plan {
        faulty: 1,
        ..Plan::default()
    };
    let outcome = Simulation::with_faults(&plan, host, |_| Box::new(Twice)).run(&mut |_| {});
    let healthy = played(&Plan::default()).0;
    assert_eq!(outcome.ended, Ended::Reached);
    assert!(
        outcome.messages > healthy.messages * 11 / 10,
        "{} and {}",
        outcome.messages,
        healthy.messages
    );
}

#[test]
fn members_alone_and_in_large_networks_continue() {
    for (count, views) in [(1, 200), (2, 20), (31, 5)] {
        let plan = Plan {
            members: members(count),
            views,
            ..Plan::default()
        };
        assert_eq!(played(&plan).0.ended, Ended::Reached, "{count} members");
    }
}

#[test]
fn nothing_is_finalized_while_no_side_has_a_quorum() {
    let plan = Plan {
        members: members(5),
        partitions: vec!["3s..8s:0,1".parse().expect("a partition")],
        views: 40,
        ..Plan::default()
    };
    let (outcome, lines) = played(&plan);
    let is_cut = |line: &&Line| (4_000_000..8_000_000).contains(&line.at);
    let cut: Vec<Line> = lines.iter().filter(is_cut).cloned().collect();
    assert_eq!(outcome.ended, Ended::Reached);
    assert_eq!(count(&cut, |it| matches!(it, Event::Finalized { .. })), 0);
    assert!(count(&cut, |it| matches!(it, Event::Timeout { .. })) > 0);
}
