//! Asks of a node for a block that it lacks, among members that are down or silent, which the test plays.

mod members;
mod others;

use members::SOON;
use others::{Others, round};
use simplex_view_state::{Digest, Subject};
use simplex_wire::Message;
use std::collections::BTreeMap;
use std::thread::sleep;
use std::time::{Duration, Instant};

/// How long a member is down.
const DOWN: Duration = Duration::from_secs(5);
/// Within what time a member that is back is asked: the node dials it once a second.
const ASKED_WITHIN: Duration = Duration::from_secs(4);

/// A node among these members, which lacks a notarized block.
fn lacking_a_block(up: &[u32], name: &str) -> (Others, Digest) {
    let mut others = Others::listening(up, name, |_| (), |network| network.begin(0).expect("a process"));
    let (vote, block) = others.proposal(1, 0, 7);
    let certificate = others.certificate(&[1, 2, 3], vote.subject);
    others.send(1, &Message::Certificate(certificate));
    (others, block.payload())
}

fn is_ask(message: &Message, of: Digest) -> bool {
    matches!(message, Message::AskBlock(_, payload) if *payload == of)
}

#[test]
fn a_member_that_was_down_is_asked_for_a_missing_block_as_soon_as_it_is_back() {
    let (others, block) = lacking_a_block(&[1, 2], "asks-back");
    assert!(others.hears(SOON, |_, message| is_ask(message, block)), "it does not ask");
    sleep(DOWN);
    others.listen(3);
    let begun = Instant::now();
    let is_asked = others.hears(SOON, |member, message| member == 3 && is_ask(message, block));
    println!("asked after {:?}: {is_asked}", begun.elapsed());
    assert!(is_asked && begun.elapsed() < ASKED_WITHIN, "after {:?}", begun.elapsed());
    others.end();
}

/// How many asks for certificates are heard within a time.
fn asks_for_certificates(others: &Others, within: Duration) -> u64 {
    let mut asks = 0;
    others.hears(within, |_, message| {
        asks += u64::from(matches!(message, Message::AskCertificate(..)));
        false
    });
    asks
}

/// The node counts each ask that it sends.
#[test]
fn a_member_that_is_down_is_asked_for_no_certificate() {
    let mut others = Others::listening(&[1, 2], "asks-down", |_| (), |network| network.begin(0).expect("a process"));
    others.nullify(4);
    let heard = asks_for_certificates(&others, Duration::from_secs(3));
    (1..=3).for_each(|view| others.nullify(view));
    others.comes_to("verified", 4);
    let (heard, asks) = (
        heard + asks_for_certificates(&others, Duration::from_secs(1)),
        others.counts("fetches"),
    );
    assert!(heard >= 9 && heard == asks, "{heard} of {asks}");
    others.end();
}

/// Members 1 to 3 are asked for the fourth time 3 s after the first one, and for the fifth time 6 s after it.
#[test]
fn a_member_that_is_heard_of_again_is_asked_at_once() {
    let (mut others, block) = lacking_a_block(&[1, 2, 3], "asks-heard");
    assert!(others.hears(SOON, |_, message| is_ask(message, block)), "it does not ask");
    others.hears(Duration::from_millis(3500), |_, _| false);
    let vote = others.vote(3, Subject::Nullify(round(2)));
    others.send(3, &Message::Vote(vote));
    let begun = Instant::now();
    let is_asked = others.hears(SOON, |member, message| member == 3 && is_ask(message, block));
    assert!(
        is_asked && begun.elapsed() < Duration::from_millis(1500),
        "after {:?}",
        begun.elapsed()
    );
    others.end();
}

#[test]
fn members_that_are_silent_are_asked_a_few_times() {
    let (others, block) = lacking_a_block(&[1, 2, 3], "asks-silent");
    let (mut of, begun) = (BTreeMap::<u32, u32>::new(), Instant::now());
    others.hears(DOWN, |member, message| {
        *of.entry(member).or_default() += u32::from(is_ask(message, block));
        false
    });
    println!("{of:?} in {:?}", begun.elapsed());
    assert!((1..4).all(|it| (2..=6).contains(&of[&it])), "{of:?}");
    others.end();
}
