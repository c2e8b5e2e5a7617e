//! Engines through the package: networks of them, their lifetimes, what they show, and what they refuse.

#[path = "../examples/engine/network.rs"]
mod network;

use network::{Disk, Message, NAMESPACE, Network, Node, Sent, is_good, signature};
use simplex_view_state::{
    Certificate, CertificateKind, Config, Context, Digest, Engine, EngineError, EntryCount, Epoch, FetchKind, Finalization, Input, Leaders,
    Member, Moment, Namespace, Notarization, Nullification, OpenError, Options, Output, Participant, Proposal, Round, SettingsError,
    Subject, Terms, TimeoutReason, View, Vote,
};
use std::error::Error;
use std::thread;
use std::time::Duration;

type Tested = Result<(), Box<dyn Error>>;

const START: Moment = Moment::from_millis(0);

/// These settings, but for what is changed.
fn changed<T>(mut settings: T, change: impl FnOnce(&mut T)) -> T {
    change(&mut settings);
    settings
}
const MEMBERS: u32 = 4;

fn config(index: u32) -> Config {
    let members = MEMBERS.try_into().expect("not 0");
    Config::new(NAMESPACE, members, Some(Participant::new(index)), Epoch::new(1), Digest::default())
}

fn engine(index: u32) -> Result<Engine, OpenError> {
    Engine::start(&config(index), &Options::default(), START)
}

fn round(view: u64) -> Round {
    Round {
        epoch: Epoch::new(1),
        view: View::new(view),
    }
}

fn proposal(view: u64, payload: u8) -> Proposal {
    Proposal {
        round: round(view),
        parent: View::new(view.saturating_sub(1)),
        payload: Digest::new([payload; 32]),
    }
}

fn vote(index: u32, subject: Subject) -> Vote {
    let signer = Participant::new(index);
    Vote {
        subject,
        signer,
        signature: signature(signer, &subject.text(&NAMESPACE)),
    }
}

fn nullification(view: u64) -> Certificate {
    Certificate::Nullification(Nullification {
        round: round(view),
        certificate: vec![7; 3000],
    })
}

fn notarization(view: u64) -> Certificate {
    Certificate::Notarization(Notarization {
        proposal: proposal(view, 1),
        certificate: vec![8; 3000],
    })
}

fn finalization(view: u64) -> Certificate {
    Certificate::Finalization(Finalization {
        proposal: proposal(view, 1),
        certificate: vec![9; 3000],
    })
}

/// All outputs until there is none.
fn outputs(engine: &mut Engine, now: Moment) -> Result<Vec<Output>, EngineError> {
    std::iter::from_fn(|| engine.poll(now).transpose()).collect()
}

/// Each member delivered the same blocks in the same order, as far as it has come.
fn agree(nodes: &[Node]) {
    let longest = nodes
        .iter()
        .map(|node| &node.chain)
        .max_by_key(|chain| chain.len())
        .expect("there is one");
    for Node { me, chain, .. } in nodes {
        assert_eq!(chain[..], longest[..chain.len()], "member {me} delivered another chain");
    }
}

fn lowest_final(nodes: &[Node]) -> u64 {
    let last = |node: &Node| node.chain.last().map_or(0, |it| it.view.get());
    nodes.iter().map(last).min().unwrap_or(0)
}

/// Turns a network on until each member knows of so many views that they are final.
fn go_on(network: &mut Network, views: u64) -> Tested {
    for _ in 0..10_000 {
        network.step()?;
        if lowest_final(&network.nodes) >= views {
            return Ok(());
        }
    }
    Err("nothing is finalized any more".into())
}

#[test]
fn networks_that_lose_messages_and_members_agree_and_continue() -> Tested {
    for seed in 1..=6 {
        let mut network = Network::start(MEMBERS.try_into()?, 5 * (seed - 1), seed)?;
        let mut lives = 0;
        for step in 0.. {
            network.step()?;
            let crashed = (step / 400) as usize;
            if step % 400 == 0 && crashed < 12 {
                network.nodes[crashed % 4].engine = None;
            }
            if step % 400 == 150 && crashed < 12 {
                network.begin(crashed % 4)?;
                lives += 1;
            }
            if crashed >= 12 && lowest_final(&network.nodes) >= 40 {
                break;
            }
            assert!(step < 40_000, "nothing is finalized with seed {seed}");
        }
        agree(&network.nodes);
        assert_eq!(lives, 12);
    }
    Ok(())
}

#[test]
fn a_lifetime_that_begins_delivers_what_the_one_before_stored() -> Tested {
    let mut network = Network::start(MEMBERS.try_into()?, 0, 1)?;
    go_on(&mut network, 10)?;
    let node = &mut network.nodes[2];
    let all = node.chain.clone();
    node.engine = None;
    node.chain.truncate(all.len() - 4);
    network.begin(2)?;
    assert_eq!(network.nodes[2].chain, all);
    Ok(())
}

#[test]
fn a_text_begins_with_the_namespace_of_the_settings() -> Tested {
    let subject = Subject::Nullify(round(1));
    for namespace in [NAMESPACE, Namespace::new([8; 32])] {
        let text = [&namespace.bytes()[..], &subject.encode()].concat();
        assert_eq!(subject.text(&namespace), text);
        let settings = changed(config(1), |it| it.namespace = namespace);
        let mut engine = Engine::start(&settings, &Options::default(), START)?;
        engine.handle(
            Input::GivenUp {
                view: View::new(1),
                reason: TimeoutReason::Inactivity,
            },
            START,
        )?;
        let orders = std::iter::from_fn(|| engine.poll(START).transpose());
        let orders = orders.filter_map(|it| {
            it.map(|it| if let Output::Vote(order) = it { Some(order) } else { None })
                .transpose()
        });
        let orders = orders.collect::<Result<Vec<_>, _>>()?;
        assert_eq!(orders.iter().map(|it| &it.text).collect::<Vec<_>>(), [&text]);
    }
    Ok(())
}

/// So a host has to end its turns by itself: see the loop of the example.
#[test]
fn a_lone_member_whose_application_replies_at_once_always_has_outputs() -> Tested {
    let config = Config::new(
        NAMESPACE,
        1.try_into()?,
        Some(Participant::new(0)),
        Epoch::new(1),
        Digest::default(),
    );
    let mut engine = Engine::start(&config, &Options::default(), START)?;
    for _ in 0..20_000 {
        let reply = match engine.poll(START)?.ok_or("it is out of outputs")? {
            Output::Vote(order) => Input::Vote(order.signed(signature(order.signer, &order.text))),
            Output::Build(context) => {
                let payload = Digest::default();
                Input::Built { context, payload }
            }
            Output::Verify(context, _) => Input::Verified {
                view: context.round.view,
                is_valid: true,
            },
            Output::Certify(proposal) => Input::Certified {
                view: proposal.view(),
                is_success: true,
            },
            _ => continue,
        };
        engine.handle(reply, START)?;
    }
    Ok(())
}

#[test]
fn a_member_alone_lets_time_in() -> Tested {
    let mut network = Network::start(1.try_into()?, 0, 1)?;
    for _ in 0..2000 {
        network.step()?;
    }
    assert!(lowest_final(&network.nodes) > 10);
    assert!(network.now > START, "all of it is at one moment");
    Ok(())
}

#[test]
fn certificates_are_made_of_good_signatures_of_a_quorum() -> Tested {
    let mut network = Network::start(MEMBERS.try_into()?, 0, 1)?;
    go_on(&mut network, 5)?;
    let engine = network.nodes[2].engine.as_ref().ok_or("it has failed")?;
    for view in 1..=5 {
        let found = engine
            .certificate(CertificateKind::Finalization, View::new(view))?
            .ok_or("it is final")?;
        assert!(is_good(&found, MEMBERS.try_into()?), "{found:?}");
        assert_eq!(found.signatures().map(|it| it.len()), Some(3));
        assert_eq!(engine.certificate(CertificateKind::Nullification, View::new(view))?, None);
    }
    Ok(())
}

#[test]
fn bytes_that_name_a_signer_twice_or_are_cut_are_no_signatures() {
    let signed = |signer: u8| [&[0, 0, 0, signer][..], &[0, 0, 0, 0, 0, 0, 0, 2], &[7, 7]].concat();
    let signers = |bytes: Vec<u8>| {
        let certificate = Certificate::of(Subject::Nullify(round(1)), bytes);
        certificate.signatures().map(|it| it.len())
    };
    assert_eq!(signers([signed(1), signed(3)].concat()), Some(2));
    assert_eq!(signers([signed(1), signed(1)].concat()), None);
    assert_eq!(signers([signed(3), signed(1)].concat()), None);
    assert_eq!(signers(signed(1)[..13].to_vec()), None);
    assert_eq!(signers(vec![0, 0, 0, 1, 255, 255, 255, 255, 255, 255, 255, 255]), None);
}

#[test]
fn each_lifetime_begins_by_storing_the_whole_record() -> Tested {
    let mut first = engine(1)?;
    let Some(Output::Replace(begun)) = first.poll(START)? else {
        return Err("nothing is stored first".into());
    };
    assert!(begun.bytes.is_empty() && begun.stored.entries.get() == 0);
    first.handle(Input::Certificate(notarization(1)), START)?;
    let (mut journal, mut stored) = (begun.bytes, begun.stored);
    for output in outputs(&mut first, START)? {
        match output {
            Output::Store(entries) => {
                journal.extend(entries.bytes);
                stored = entries.stored;
            }
            Output::Replace(_) => return Err("the record is short".into()),
            _ => {}
        }
    }
    assert_eq!(stored.entries.get(), 1);
    let mut second = Engine::resume(&config(1), &Options::default(), START, &stored, &journal)?;
    let Some(Output::Replace(again)) = second.poll(START)? else {
        return Err("nothing is stored first".into());
    };
    assert_eq!((again.bytes, again.stored), (journal.clone(), stored));
    assert_eq!(Member::resume(&config(1), START, &stored, &journal)?.views(), second.views());
    let cut = Engine::resume(&config(1), &Options::default(), START, &stored, &journal[..journal.len() - 1]);
    assert_eq!(cut.err(), Some(OpenError::Damaged));
    let lost = Engine::resume(&config(1), &Options::default(), START, &stored, &[]);
    assert_eq!(lost.err(), Some(OpenError::EntriesLost));
    Ok(())
}

#[test]
fn a_long_record_is_made_short_when_a_lifetime_begins() -> Tested {
    let mut network = Network::start(MEMBERS.try_into()?, 0, 1)?;
    go_on(&mut network, 60)?;
    let Disk { journal, stored } = &network.nodes[1].disk;
    let stored = stored.ok_or("it has stored")?;
    let all = stored.entries.get();
    let lengths = |long_record| -> Result<Vec<u64>, Box<dyn Error>> {
        let options = changed(Options::default(), |it| it.long_record = EntryCount::new(long_record));
        let mut engine = Engine::resume(&config(1), &options, START, &stored, journal)?;
        let replaced = outputs(&mut engine, START)?.into_iter().filter_map(|output| match output {
            Output::Replace(entries) => Some(entries.stored.entries.get()),
            _ => None,
        });
        Ok(replaced.collect())
    };
    assert_eq!(lengths(all)?, [all]);
    let [begun, pruned] = lengths(all - 1)?[..] else {
        return Err("it is stored, and made short".into());
    };
    assert_eq!(begun, all);
    assert!(pruned < all / 2, "{pruned} of {all}");
    Ok(())
}

#[test]
fn a_record_stays_short_within_a_lifetime() -> Tested {
    let options = changed(Options::default(), |it| it.long_record = EntryCount::new(4));
    let mut engine = Engine::start(&config(1), &options, START)?;
    let (mut longest, mut replaced) = (0, 0);
    for view in 1..=200 {
        engine.handle(Input::Certificate(finalization(view)), START)?;
        for output in outputs(&mut engine, START)? {
            match output {
                Output::Store(entries) => longest = longest.max(entries.stored.entries.get()),
                Output::Replace(_) => replaced += 1,
                _ => {}
            }
        }
    }
    assert!(longest < 60, "{longest} entries");
    // Each time half of its views go, so it is seldom written once more.
    assert!((5..40).contains(&replaced), "{replaced} times");
    Ok(())
}

#[test]
fn a_member_that_contradicts_itself_is_shown_with_both_votes() -> Tested {
    let mut network = Network::start(MEMBERS.try_into()?, 0, 1)?;
    let votes = [1, 2].map(|payload| vote(3, Subject::Notarize(proposal(1, payload))));
    for it in &votes {
        network.sent.push_back(Sent {
            from: Participant::new(3),
            to: Participant::new(1),
            message: Message::Vote(it.clone()),
        });
    }
    go_on(&mut network, 3)?;
    let [one, other] = votes;
    assert!(
        network.nodes[1].equivocations.contains(&(one, other)),
        "{:?}",
        network.nodes[1].equivocations
    );
    agree(&network.nodes);
    Ok(())
}

#[test]
fn a_leader_that_proposes_twice_is_shown() -> Tested {
    let mut engine = engine(1)?;
    engine.handle(Input::Certificate(notarization(1)), START)?;
    let mut other = proposal(1, 2);
    other.parent = View::GENESIS;
    engine.handle(
        Input::Certificate(Certificate::Finalization(Finalization {
            proposal: other,
            certificate: vec![1],
        })),
        START,
    )?;
    let given = outputs(&mut engine, START)?;
    assert!(
        given.contains(&Output::ProposedTwice(View::new(1), Participant::new(0))),
        "{given:?}"
    );
    Ok(())
}

/// Inputs that an engine of member 1 in view 2 has no use for.
fn useless() -> Vec<Input> {
    let mut of_another_epoch = proposal(2, 1);
    of_another_epoch.round.epoch = Epoch::new(2);
    let context = Context {
        round: round(9),
        leader: Participant::new(1),
        parent: View::new(8),
        parent_payload: Digest::default(),
    };
    let payload = Digest::default();
    let proposed = |from, proposal| Input::Proposal {
        from: Participant::new(from),
        proposal,
    };
    let (view, last, is_valid) = (View::new(2), View::new(u64::MAX), true);
    vec![
        proposed(3, proposal(2, 1)),
        proposed(u32::MAX, proposal(u64::MAX, 1)),
        proposed(2, of_another_epoch),
        Input::Vote(vote(2, Subject::Notarize(of_another_epoch))),
        Input::Vote(vote(9, Subject::Notarize(proposal(2, 1)))),
        Input::Vote(vote(u32::MAX, Subject::Nullify(round(2)))),
        Input::Vote(vote(2, Subject::Finalize(proposal(u64::MAX, 1)))),
        Input::Certificate(notarization(1)),
        Input::Certificate(finalization(u64::MAX)),
        Input::Certificate(nullification(u64::MAX)),
        Input::Certificate(Certificate::of(Subject::Notarize(of_another_epoch), Vec::new())),
        Input::Verified { view, is_valid },
        Input::Verified { view: last, is_valid },
        Input::Built { context, payload },
        Input::Certified { view, is_success: true },
    ]
}

#[test]
fn ignored_inputs_change_nothing() -> Tested {
    let mut engine = engine(1)?;
    engine.handle(Input::Certificate(notarization(1)), START)?;
    outputs(&mut engine, START)?;
    let before = engine.views();
    for (place, input) in (1..).zip(useless()) {
        assert!(!engine.handle(input.clone(), START)?, "{input:?} is taken");
        assert_eq!(engine.ignored(), place);
    }
    for view in [View::new(7), View::new(u64::MAX)] {
        let reason = TimeoutReason::Inactivity;
        assert!(!engine.handle(Input::GivenUp { view, reason }, START)?);
        assert!(!engine.handle(Input::Certified { view, is_success: true }, START)?);
    }
    assert!(!engine.is_failed());
    assert_eq!((outputs(&mut engine, START)?, engine.views()), (Vec::new(), before));
    Ok(())
}

/// Member 1 gives view 1 up, and then learns that views 1 and 2 of the term are notarized, and certifies both.
fn gives_up_what_others_certify() -> Result<Engine, Box<dyn Error>> {
    let term = changed(config(1), |it| {
        it.terms = Terms {
            length: 3.try_into().expect("not 0"),
            ..Terms::ONE_VIEW
        }
    });
    let mut engine = Engine::start(&term, &Options::default(), START)?;
    let (view, reason) = (View::new(1), TimeoutReason::Inactivity);
    assert!(engine.handle(Input::GivenUp { view, reason }, START)?);
    assert!(casts(&mut engine, Subject::Nullify(round(1)))?);
    for view in [1, 2] {
        assert!(engine.handle(Input::Certificate(notarization(view)), START)?);
        assert!(!casts(&mut engine, Subject::Finalize(proposal(view, 1)))?);
        let (view, is_success) = (View::new(view), true);
        assert!(engine.handle(Input::Certified { view, is_success }, START)?);
    }
    Ok(engine)
}

/// Returns whether the vote is among all outputs until there is none.
fn casts(engine: &mut Engine, subject: Subject) -> Result<bool, EngineError> {
    let given = outputs(engine, START)?;
    Ok(given.iter().any(|it| matches!(it, Output::Vote(vote) if vote.subject == subject)))
}

#[test]
fn a_finalization_lets_out_the_votes_that_a_vote_to_nullify_forbade() -> Tested {
    let mut engine = gives_up_what_others_certify()?;
    let final_above = Subject::Finalize(proposal(2, 1));
    assert!(!casts(&mut engine, final_above)?);
    assert!(engine.handle(Input::Certificate(finalization(1)), START)?);
    assert!(casts(&mut engine, final_above)?);
    Ok(())
}

#[test]
fn a_block_of_a_past_view_is_abandoned() -> Tested {
    let mut engine = engine(1)?;
    engine.handle(Input::Certificate(nullification(1)), START)?;
    let asked = outputs(&mut engine, START)?.into_iter().find_map(|it| match it {
        Output::Build(context) => Some(context),
        _ => None,
    });
    let context = asked.ok_or("it leads view 2")?;
    assert_eq!(context.round, round(2));
    engine.handle(Input::Certificate(nullification(2)), START)?;
    assert!(outputs(&mut engine, START)?.contains(&Output::StopBuilding(View::new(2))));
    let payload = Digest::default();
    assert!(!engine.handle(Input::Built { context, payload }, START)?);
    Ok(())
}

#[test]
fn a_peer_is_sent_the_certificate_that_it_asks_for_or_one_that_leads_past_the_view() -> Tested {
    let mut engine = engine(1)?;
    assert_eq!(engine.last_finalization()?, None, "genesis");
    for certificate in [notarization(1), nullification(2), finalization(3)] {
        engine.handle(Input::Certificate(certificate), START)?;
        outputs(&mut engine, START)?;
    }
    let past = || Some(finalization(3));
    for (kind, view, expected) in [
        (FetchKind::Notarization, 1, Some(notarization(1))),
        (FetchKind::Notarization, 2, past()),
        (FetchKind::Nullification, 2, past()),
        (FetchKind::Decision, 2, Some(nullification(2))),
        (FetchKind::Decision, 3, past()),
        (FetchKind::Notarization, 4, None),
    ] {
        assert_eq!(engine.certificate_for(kind, View::new(view))?, expected, "{kind:?} of {view}");
    }
    let Certificate::Finalization(last) = finalization(3) else {
        unreachable!()
    };
    assert_eq!(engine.last_finalization()?, Some(last.proposal));
    Ok(())
}

#[test]
fn bytes_of_any_length_come_back_whole() -> Tested {
    let mut engine = engine(1)?;
    for certificate in [notarization(1), nullification(2), finalization(3)] {
        assert!(engine.handle(Input::Certificate(certificate.clone()), START)?);
        let given = outputs(&mut engine, START)?;
        assert!(given.contains(&Output::Broadcast(certificate.clone())), "{given:?}");
        assert_eq!(engine.certificate(certificate.kind(), certificate.round().view)?, Some(certificate));
    }
    assert_eq!(engine.serve(View::new(2))?, Some(finalization(3)));
    assert_eq!(engine.serve(View::new(4))?, None);
    Ok(())
}

#[test]
fn a_fetch_is_asked_of_one_member_after_another_until_it_is_closed() -> Tested {
    let mut engine = engine(1)?;
    engine.handle(Input::Certificate(nullification(2)), START)?;
    let asked = |given: Vec<Output>| {
        let fetches = given.into_iter().filter_map(|output| match output {
            Output::Fetch(fetch) if fetch.view == View::new(1) => Some(fetch),
            _ => None,
        });
        fetches.collect::<Vec<_>>()
    };
    assert_eq!(asked(outputs(&mut engine, START)?), []);
    let mut peers = Vec::new();
    for millis in [25, 275, 525] {
        let now = Moment::from_millis(millis);
        assert!(engine.wake() <= now);
        let [fetch] = asked(outputs(&mut engine, now)?)[..] else {
            return Err(format!("one fetch is asked at {now}").into());
        };
        assert_eq!(fetch.kind, FetchKind::Nullification);
        peers.push(fetch.of.ok_or("there are others")?);
        assert!(
            engine
                .fetches()
                .iter()
                .any(|open| open.view == fetch.view && open.count as usize == peers.len())
        );
    }
    peers.sort();
    assert_eq!(peers, [0, 2, 3].map(Participant::new));
    engine.handle(Input::Certificate(nullification(1)), Moment::from_millis(600))?;
    assert_eq!(engine.fetches(), []);
    Ok(())
}

#[test]
fn votes_make_no_certificate_that_names_a_leader() -> Tested {
    let drawn = changed(config(1), |it| it.leaders = Leaders::Drawn(vec![Participant::new(0)]));
    let mut engine = Engine::start(&drawn, &Options::default(), START)?;
    let told = engine.handle(Input::Vote(vote(2, Subject::Nullify(round(1)))), START);
    assert_eq!(told, Err(EngineError::NotAllowed));
    assert!(engine.handle(
        Input::Certificate(Certificate::of(Subject::Nullify(round(1)), vec![0, 0, 0, 3])),
        START
    )?);
    outputs(&mut engine, START)?;
    assert_eq!(engine.leader(View::new(2)), Some(Participant::new(3)));
    Ok(())
}

#[test]
fn settings_that_break_a_rule_are_refused() {
    let retry = Duration::MAX;
    let refused = Engine::start(&config(0), &changed(Options::default(), |it| it.retry = retry), START);
    assert_eq!(refused.err(), Some(OpenError::Settings(SettingsError::TimeTooLong)));
    assert_eq!(engine(4).err(), Some(OpenError::Settings(SettingsError::NoSuchMember)));
}

#[test]
fn a_table_of_leaders_that_is_not_one_of_these_members_is_refused() {
    let refused = |config: &Config| {
        let engine = Engine::start(config, &Options::default(), START).err();
        assert_eq!(Member::start(config, START).err(), engine);
        match engine {
            Some(OpenError::Settings(error)) => Some(error),
            other => panic!("it is refused for its settings: {other:?}"),
        }
    };
    let of = |leaders: &[u32]| leaders.iter().copied().map(Participant::new).collect::<Vec<_>>();
    let with = |leaders| changed(config(1), |it| it.leaders = leaders);
    for leaders in [&[0, 1, 2, 4][..], &[77], &[u32::MAX, 0, 1, 2]] {
        assert_eq!(refused(&with(Leaders::Table(of(leaders)))), Some(SettingsError::NoSuchLeader));
        assert_eq!(refused(&with(Leaders::Drawn(of(leaders)))), Some(SettingsError::NoSuchLeader));
    }
    for leaders in [&[0, 1, 2][..], &[0], &[0, 1, 2, 3, 0]] {
        assert_eq!(refused(&with(Leaders::Table(of(leaders)))), Some(SettingsError::OtherTable));
    }
    let mut changed = config(1);
    changed.members = 5.try_into().expect("not 0");
    assert_eq!(refused(&changed), Some(SettingsError::OtherTable));
    for leaders in [Leaders::Table(of(&[3, 3, 1, 0])), Leaders::Drawn(of(&[3]))] {
        assert!(Engine::start(&with(leaders), &Options::default(), START).is_ok());
    }
}

#[test]
fn a_fetch_that_would_be_asked_again_at_once_is_refused() {
    for retry in [Duration::ZERO, Duration::from_micros(999)] {
        let options = changed(Options::default(), |it| it.retry = retry);
        let refused = Some(OpenError::Settings(SettingsError::FetchRetryZero));
        assert_eq!(Engine::start(&config(0), &options, START).err(), refused);
        let mut member = Member::start(&config(0), START).expect("good settings");
        let entries = member.entries_since(EntryCount::ZERO).expect("memory");
        let resumed = Engine::resume(&config(0), &options, START, &entries.stored, &entries.bytes);
        assert_eq!(resumed.err(), refused);
    }
}

#[test]
fn an_engine_goes_from_thread_to_thread() -> Tested {
    let engine = engine(1)?;
    let views = thread::spawn(move || engine.views()).join().expect("it does not panic");
    assert_eq!(views.ok_or("it has failed")?.current, View::new(1));
    Ok(())
}

#[test]
fn a_snapshot_admits_what_the_engine_admits() -> Tested {
    for (length, passed) in [(1, 0), (1, 30), (5, 3), (5, 23), (40, 12), (u32::MAX, 7)] {
        let settings = changed(config(0), |it| it.terms.length = length.try_into().expect("not 0"));
        let mut engine = Engine::start(&settings, &Options::default(), START)?;
        if passed > 0 {
            engine.handle(Input::Certificate(finalization(passed)), START)?;
        }
        outputs(&mut engine, START)?;
        let snapshot = engine.snapshot().ok_or(EngineError::Failed)?;
        assert_eq!(Some(snapshot.views), engine.views());
        assert_eq!(snapshot.leader, engine.leader(snapshot.views.current));
        assert_eq!((snapshot.wake, snapshot.ignored), (engine.wake(), engine.ignored()));
        assert_eq!(snapshot.fetches as usize, engine.fetches().len());
        let edge = snapshot.highest_vote.get();
        for view in (0..100).chain(edge.saturating_sub(3)..=edge + 3).map(View::new) {
            assert_eq!(
                snapshot.admits_vote(view),
                engine.admits_vote(view),
                "a vote of {view} in terms of {length}"
            );
            assert_eq!(
                snapshot.admits_certificate(view),
                engine.admits_certificate(view),
                "a certificate of {view}"
            );
        }
    }
    Ok(())
}
