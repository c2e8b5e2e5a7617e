//! One node among members that the test plays: what it asks of them, and what it makes of what they send.

mod members;
mod others;

use members::{SOON, chain, stored_blocks};
use others::{Others, round};
use simplex_node::crypto::{Keys, hex};
use simplex_node::settings::Settings;
use simplex_view_state::{Certificate, Context, Digest, FetchKind, Participant, Proposal, Subject, View, Vote};
use simplex_wire::{Block, Message, Range};
use std::collections::BTreeSet;
use std::fs;
use std::sync::Arc;
use std::thread::sleep;
use std::time::{Duration, Instant};

/// How long it is looked whether something is not done.
const WHILE: Duration = Duration::from_millis(600);

#[test]
fn a_missing_certificate_is_asked_of_each_member_until_it_comes() {
    let mut others = Others::around_a_node("asks");
    others.nullify(4);
    others.comes_to("current_view", 5);
    let mut asked = BTreeSet::new();
    let is_asked = others.hears(SOON, |member, message| {
        if let Message::AskCertificate(FetchKind::Nullification, view) = message {
            asked.insert((member, view.get()));
        }
        asked.len() == 9
    });
    assert!(is_asked, "three views of three members: {asked:?}");
    assert_eq!(asked.iter().map(|it| it.1).collect::<BTreeSet<u64>>(), (1..=3).collect());
    (1..=3).for_each(|view| others.nullify(view));
    others.comes_to("verified", 4);
    let (is_ask, begun) = (|message: &Message| matches!(message, Message::AskCertificate(..)), Instant::now());
    while others.hears(WHILE, |_, message| is_ask(message)) {
        assert!(begun.elapsed() < SOON, "it has them, and asks still");
    }
    others.end();
}

#[test]
fn a_peer_is_served_the_certificate_that_it_asks_for() {
    let mut others = Others::around_a_node("serves");
    others.nullify(1);
    others.comes_to("current_view", 2);
    for view in [1, 2, u64::MAX] {
        others.send(3, &Message::AskCertificate(FetchKind::Nullification, View::new(view)));
    }
    let lacking = Subject::Nullify(round(1));
    let is_served = |member, message: &Message| matches!(message, Message::Certificate(it) if member == 3 && it.subject() == lacking);
    let mut times = 0;
    // Once it is broadcast to all, and once it is served.
    let is_there = others.hears(SOON, |member, message| {
        times += u32::from(is_served(member, message));
        times == 2
    });
    assert!(is_there, "{times} times");
    others.comes_to("served", 1);
    others.end();
}

#[test]
fn too_few_votes_and_those_of_others_move_nothing() {
    let mut others = Others::around_a_node("moves");
    let subject = Subject::Nullify(round(1));
    let too_few = others.certificate(&[1, 3], subject);
    let twice = others.certificate(&[1, 1, 3], subject);
    let on_another = Certificate::of(subject, others.certificate(&[1, 2, 3], Subject::Nullify(round(2))).bytes().to_vec());
    for it in [too_few, twice, on_another] {
        others.send(1, &Message::Certificate(it));
    }
    for signer in [2, 3] {
        let signer = Participant::new(signer);
        others.send(
            1,
            &Message::Vote(Vote {
                signer,
                ..others.vote(1, subject)
            }),
        );
    }
    others.send(1, &Message::Vote(others.vote(1, subject)));
    others.comes_to("forged", 5);
    others.send(2, &Message::Vote(others.vote(2, subject)));
    others.comes_to("verified", 2);
    sleep(WHILE);
    assert_eq!(others.counts("current_view"), 1);
    others.send(3, &Message::Vote(others.vote(3, subject)));
    others.comes_to("current_view", 2);
    others.end();
}

/// The members, with the same keys, have another network too: what they sign there counts nothing here.
#[test]
fn what_is_signed_in_another_network_moves_nothing() {
    let mut others = Others::around_a_node("networks");
    let mut settings = Settings::read(&others.network.config(1)).expect("settings");
    let subject = Subject::Nullify(round(1));
    let good = others.certificate(&[1, 2, 3], subject);
    for (index, keys) in (0..).zip(&mut others.keys) {
        settings.index = index;
        settings.key = others.network.folder().join(format!("{index}.pem"));
        settings.network = "another".to_owned().try_into().expect("a name");
        *keys = Arc::new(Keys::read(&settings).expect("a key"));
    }
    let of_another = others.certificate(&[1, 2, 3], subject);
    others.send(1, &Message::Certificate(of_another));
    for signer in 1..4 {
        others.send(signer, &Message::Vote(others.vote(signer, subject)));
    }
    others.comes_to("forged", 4);
    assert_eq!(others.counts("current_view"), 1);
    others.send(1, &Message::Certificate(good));
    others.comes_to("current_view", 2);
    others.end();
}

#[test]
fn a_proposal_that_comes_two_views_early_is_voted_for_with_its_block() {
    let mut others = Others::around_a_node("early");
    // Another leader signs many, which take nobody's room.
    for content in 0..20 {
        let (vote, block) = others.proposal(4, 3, content);
        others.send(3, &Message::Proposal(vote, block.bytes().to_vec()));
    }
    others.comes_to("verified", 20);
    let (vote, block) = others.proposal(3, 2, 5);
    others.send(2, &Message::Proposal(vote.clone(), block.bytes().to_vec()));
    others.comes_to("verified", 21);
    others.nullify(1);
    others.nullify(2);
    let mut is_asked = false;
    let is_voted = others.hears(SOON, |_, message| {
        is_asked |= matches!(message, Message::AskBlock(..));
        matches!(message, Message::Vote(it) if it.subject == vote.subject)
    });
    assert!(is_voted && !is_asked, "voted: {is_voted}, asked for the block: {is_asked}");
    others.end();
}

#[test]
fn of_a_leader_that_signs_many_blocks_one_is_kept() {
    let mut others = Others::around_a_node("many");
    others.nullify(1);
    others.comes_to("current_view", 2);
    let blocks_of_one = stored_blocks(&others.network.data(0));
    for content in 0..20 {
        let (vote, block) = others.proposal(2, 1, content);
        others.send(1, &Message::Proposal(vote, block.bytes().to_vec()));
    }
    // The second one is evidence; those after it add nothing, and the reader drops them.
    others.comes_to("contradictions", 1);
    assert_eq!(stored_blocks(&others.network.data(0)), 2 * blocks_of_one);
    let log = fs::read_to_string(others.network.log(0)).expect("a log");
    assert!(
        log.contains("first_signature") && log.contains("second_signature"),
        "the evidence is logged"
    );
    others.end();
}

/// A node in view 2, whose leader is member 1, and that leader's votes for two proposals, the first with its block.
fn two_proposals(name: &str) -> (Others, (Vote, Block), Vote) {
    let mut others = Others::around_a_node(name);
    others.nullify(1);
    others.comes_to("current_view", 2);
    let (first, second) = (others.proposal(2, 1, 7), others.proposal(2, 1, 8).0);
    (others, first, second)
}

/// Sends a proposal, and waits until the node has voted for it.
fn propose(others: &mut Others, (vote, block): &(Vote, Block)) {
    others.send(1, &Message::Proposal(vote.clone(), block.bytes().to_vec()));
    let is_vote = |message: &Message| matches!(message, Message::Vote(it) if it.signer.get() == 0 && it.subject == vote.subject);
    assert!(others.hears(SOON, |_, message| is_vote(message)), "it does not vote");
}

/// To which members the node sends this vote, in order, until it was sent so often or for so long.
fn sent_to(others: &Others, vote: &Vote, count: usize, within: Duration) -> Vec<u32> {
    let mut members = Vec::new();
    others.hears(within, |member, message| {
        members.extend(matches!(message, Message::Vote(it) if it == vote).then_some(member));
        members.len() == count
    });
    members.sort_unstable();
    members
}

fn shows_the_evidence(others: Others, first: &Vote, second: &Vote) {
    others.comes_to("equivocations", 1);
    sleep(WHILE);
    assert_eq!(others.counts("equivocations"), 1, "each view counts once");
    let log = fs::read_to_string(others.network.log(0)).expect("a log");
    for vote in [first, second] {
        assert!(
            log.contains(&hex(&vote.signature)),
            "the signature on {:?} is missing: {log}",
            vote.subject
        );
    }
    others.end();
}

#[test]
fn who_votes_for_another_proposal_is_sent_the_leaders_vote_once() {
    let (mut others, first, second) = two_proposals("exchange");
    propose(&mut others, &first);
    others.send(3, &Message::Vote(others.vote(3, first.0.subject)));
    for _ in 0..3 {
        others.send(2, &Message::Vote(others.vote(2, second.subject)));
    }
    assert_eq!(sent_to(&others, &first.0, 1, SOON), [2]);
    assert!(sent_to(&others, &first.0, 1, WHILE).is_empty(), "once a view and peer");
    // Member 2 sends what it has, in return.
    others.send(2, &Message::Vote(second.clone()));
    shows_the_evidence(others, &first.0, &second);
}

#[test]
fn a_vote_for_another_proposal_is_compared_also_where_the_view_is_notarized() {
    let (mut others, first, second) = two_proposals("notarized");
    propose(&mut others, &first);
    let certificate = others.certificate(&[0, 1, 3], first.0.subject);
    others.send(3, &Message::Certificate(certificate));
    others.comes_to("current_view", 3);
    others.send(2, &Message::Vote(others.vote(2, second.subject)));
    assert_eq!(sent_to(&others, &first.0, 1, SOON), [2]);
    others.end();
}

#[test]
fn a_vote_that_comes_before_the_proposal_is_compared_too() {
    let (mut others, first, second) = two_proposals("before");
    others.send(2, &Message::Vote(others.vote(2, second.subject)));
    others.comes_to("verified", 2);
    sleep(WHILE);
    let (vote, block) = &first;
    others.send(1, &Message::Proposal(vote.clone(), block.bytes().to_vec()));
    assert_eq!(sent_to(&others, vote, 1, SOON), [2]);
    others.end();
}

#[test]
fn a_notarization_of_another_proposal_is_evidence_with_the_leaders_vote_in_it() {
    let (mut others, first, second) = two_proposals("certified");
    propose(&mut others, &first);
    let certificate = others.certificate(&[1, 2, 3], second.subject);
    others.send(3, &Message::Certificate(certificate));
    assert_eq!(sent_to(&others, &first.0, 2, SOON), [2, 3], "those that voted for the other");
    assert!(sent_to(&others, &first.0, 1, WHILE).is_empty());
    shows_the_evidence(others, &first.0, &second);
}

#[test]
fn a_leaders_vote_is_evidence_also_where_its_view_is_notarized() {
    let (mut others, first, second) = two_proposals("late");
    propose(&mut others, &first);
    let certificate = others.certificate(&[1, 2, 3], first.0.subject);
    others.send(3, &Message::Certificate(certificate));
    others.comes_to("current_view", 3);
    others.send(2, &Message::Vote(second.clone()));
    shows_the_evidence(others, &first.0, &second);
}

/// The view behind which the node asks for final blocks, and the member that it asks.
fn asked_range(others: &Others) -> (u32, View) {
    let mut asked = None;
    others.hears(SOON, |member, message| {
        if let Message::AskRange(after, _) = message {
            asked = Some((member, *after));
        }
        asked.is_some()
    });
    asked.expect("it asks for ranges")
}

#[test]
fn missing_final_blocks_are_taken_in_a_range_where_they_are_those_that_the_certificate_names() {
    let mut others = Others::around_a_node("range");
    let (blocks, other) = (chain(others.genesis, 1..6, 256), chain(others.genesis, 1..6, 255));
    let proposal = blocks[4].1;
    let certificate = others.certificate(&[1, 2, 3], Subject::Finalize(proposal));
    others.send(1, &Message::Certificate(certificate.clone()));
    let (first, after) = asked_range(&others);
    assert_eq!(after, View::GENESIS);
    let falling: Vec<Block> = blocks.iter().rev().map(|(block, _)| block.clone()).collect();
    let range = |blocks: &[Block], certificate: &Certificate| {
        Message::Range(Range {
            after,
            certificate: certificate.clone(),
            blocks: blocks.to_vec(),
        })
    };
    let mut lying = falling.clone();
    lying[2] = other[2].0.clone();
    others.send(first as usize, &range(&lying, &certificate));
    others.comes_to("forged", 1);
    let forged = others.certificate(&[1, 3], Subject::Finalize(proposal));
    others.send(first as usize, &range(&falling, &forged));
    others.comes_to("forged", 2);
    assert_eq!((others.counts("height"), others.counts("lag_views")), (0, 5));
    // It is asked of another member meanwhile.
    assert_ne!(asked_range(&others).0, first);
    others.send(2, &range(&falling, &certificate));
    others.comes_to("height", 5);
    let begun = Instant::now();
    while others.counts("lag_views") > 0 {
        assert!(begun.elapsed() < SOON, "it lags");
        sleep(Duration::from_millis(20));
    }
    others.end();
}

#[test]
fn a_peer_is_served_the_final_blocks_that_it_asks_for() {
    let mut others = Others::around_a_node("serves-range");
    let blocks = chain(others.genesis, 1..4, 256);
    let certificate = others.certificate(&[1, 2, 3], Subject::Finalize(blocks[2].1));
    others.send(1, &Message::Certificate(certificate.clone()));
    let (first, after) = asked_range(&others);
    let falling: Vec<Block> = blocks.iter().rev().map(|(block, _)| block.clone()).collect();
    let range = Range {
        after,
        certificate,
        blocks: falling.clone(),
    };
    others.send(first as usize, &Message::Range(range));
    others.comes_to("height", 3);
    others.send(3, &Message::AskRange(View::new(1), View::new(3)));
    let is_served = |member, message: &Message| match message {
        Message::Range(it) => member == 3 && it.after == View::new(1) && it.blocks == falling[..2],
        _ => false,
    };
    assert!(others.hears(SOON, is_served), "it does not send blocks 2 and 3");
    others.end();
}

/// A peer that is ahead sends blocks up to a higher view than the node knows to be final. The archive must not be ahead of the journal: the
/// next start would take the journal for an older one, and refuse it.
#[test]
fn blocks_up_to_a_higher_final_view_are_taken_once_the_journal_has_that_view() {
    let mut others = Others::around_a_node("range-ahead");
    let blocks = chain(others.genesis, 1..4, 256);
    let known = others.certificate(&[1, 2, 3], Subject::Finalize(blocks[1].1));
    others.send(1, &Message::Certificate(known));
    let (first, after) = asked_range(&others);
    let range = Range {
        after,
        certificate: others.certificate(&[1, 2, 3], Subject::Finalize(blocks[2].1)),
        blocks: blocks.iter().rev().map(|(block, _)| block.clone()).collect(),
    };
    others.send(first as usize, &Message::Range(range));
    others.comes_to("height", 3);
    others.network.kill(0).expect("a process");
    others.network.begin(0).expect("a process");
    let has = |name| others.network.wait_until(&[0], name, 3, SOON);
    let log = || fs::read_to_string(others.network.log(0)).expect("a log");
    assert!(has("height") && has("last_finalized"), "{}", log());
    others.end();
}

#[test]
fn a_missing_final_block_is_taken_by_its_digest_too() {
    let mut others = Others::around_a_node("digest");
    let blocks = chain(others.genesis, 1..4, 256);
    let certificate = others.certificate(&[1, 2, 3], Subject::Finalize(blocks[2].1));
    others.send(1, &Message::Certificate(certificate));
    for (block, proposal) in blocks.iter().rev() {
        let is_it =
            |message: &Message| matches!(message, Message::AskBlock(view, payload) if *view == block.view && *payload == proposal.payload);
        assert!(others.hears(SOON, |_, message| is_it(message)), "view {}", block.view);
        others.send(2, &Message::Block(block.bytes().to_vec()));
    }
    others.comes_to("height", 3);
    others.end();
}

#[test]
fn a_notarized_block_is_judged_once_its_ancestors_are_here() {
    let mut others = Others::around_a_node("ancestors");
    others.nullify(1);
    let blocks = chain(others.genesis, 2..4, 256);
    let ((parent, first), (block, second)) = (&blocks[0], &blocks[1]);
    let vote = others.vote(2, Subject::Notarize(*second));
    others.send(2, &Message::Proposal(vote, block.bytes().to_vec()));
    for proposal in [second, first] {
        let certificate = others.certificate(&[1, 2, 3], Subject::Notarize(*proposal));
        others.send(1, &Message::Certificate(certificate));
    }
    let is_parent = |message: &Message| matches!(message, Message::AskBlock(_, payload) if *payload == parent.payload());
    assert!(
        others.hears(SOON, |_, message| is_parent(message)),
        "it does not ask for the parent"
    );
    sleep(WHILE);
    assert!(others.counts("current_view") < 4);
    others.send(3, &Message::Block(parent.bytes().to_vec()));
    others.comes_to("current_view", 4);
    others.end();
}

/// The leader of view 2 proposes two blocks, and the one of view 3 builds on the one that is not notarized: no chain can hold it.
#[test]
fn a_notarized_block_on_another_block_than_the_notarized_one_is_refused() {
    let mut others = Others::around_a_node("two-parents");
    others.nullify(1);
    let ((vote, other), (notarized, parent)) = (others.proposal(2, 1, 7), others.proposal(2, 1, 8));
    let is_voted = |message: &Message| matches!(message, Message::Vote(it) if it.subject == vote.subject);
    others.send(1, &Message::Proposal(vote.clone(), other.bytes().to_vec()));
    assert!(others.hears(SOON, |_, message| is_voted(message)), "it does not vote for the first");
    let certificate = others.certificate(&[1, 2, 3], notarized.subject);
    others.gives(&certificate, &parent);
    others.comes_to("current_view", 3);
    let context = Context {
        round: round(3),
        leader: Participant::new(2),
        parent: View::new(2),
        parent_payload: other.payload(),
    };
    let block = Block::new(&context, &[9; 256]);
    let subject = Subject::Notarize(Proposal {
        round: context.round,
        parent: context.parent,
        payload: block.payload(),
    });
    let certificate = others.certificate(&[1, 2, 3], subject);
    others.gives(&certificate, &block);
    let is_refused = |message: &Message| matches!(message, Message::Vote(it) if it.subject == Subject::Nullify(round(3)));
    assert!(others.hears(SOON, |_, message| is_refused(message)), "it takes the block");
    assert_eq!(others.counts("current_view"), 3);
    others.end();
}

/// A nullification of a far view would have the node ask for those of all views below, of which there are a hundred thousand.
#[test]
fn a_certificate_of_a_far_view_waits_for_a_finalization() {
    let mut others = Others::around_a_node("far");
    let far = |view| Proposal {
        round: round(view),
        parent: View::new(view - 1),
        payload: Digest::new([7; 32]),
    };
    let begun = Instant::now();
    others.nullify(100_001);
    let certificate = others.certificate(&[1, 2, 3], Subject::Finalize(far(100_000)));
    others.send(2, &Message::Certificate(certificate));
    others.comes_to("current_view", 100_002);
    // (a second at most; with the fetches half a minute on the same machine)
    assert!(begun.elapsed() < Duration::from_secs(8), "{:?}", begun.elapsed());
    assert_eq!(others.counts("last_finalized"), 100_000);
    // Where nothing is finalized it counts by itself.
    others.nullify(100_801);
    others.comes_to("current_view", 100_802);
    others.end();
}
