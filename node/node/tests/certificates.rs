//! One node among members that the test plays: to whom it sends certificates, and that one of a cut link is taken from another.

mod members;
mod others;

use others::{Others, round};
use simplex_view_state::Subject;
use simplex_wire::Message;
use std::collections::BTreeSet;
use std::fs;
use std::thread::sleep;
use std::time::Duration;

/// How long it is looked whether something is not done: a certificate is held back for 200 milliseconds.
const WHILE: Duration = Duration::from_millis(1500);

/// To which members the node sends the nullification of a view, within a while.
fn sent_to(others: &Others, view: u64) -> BTreeSet<u32> {
    let mut members = BTreeSet::new();
    others.hears(WHILE, |member, message| {
        let is_it = matches!(message, Message::Certificate(it) if it.subject() == Subject::Nullify(round(view)));
        members.extend(is_it.then_some(member));
        false
    });
    members
}

#[test]
fn a_certificate_is_sent_to_the_members_that_miss_it() {
    let mut others = Others::around_a_node("lacks");
    // In view 4 the node sends it at once, in view 1 after a moment.
    for view in [1, 2, 3, 4] {
        others.nullify(view);
        others.comes_to("current_view", view + 1);
        assert_eq!(sent_to(&others, view), BTreeSet::from([2, 3]), "view {view}");
    }
    assert_eq!((others.counts("sent_certificates"), others.counts("spared_certificates")), (8, 4));
    others.end();
}

/// One of four members may be faulty: of two that sent a certificate one is honest, and has sent it to all.
#[test]
fn a_certificate_that_an_honest_member_sent_is_not_sent_again() {
    let mut others = Others::around_a_node("enough");
    let certificate = Message::Certificate(others.certificate(&[1, 2, 3], Subject::Nullify(round(1))));
    others.send(1, &certificate);
    others.send(2, &certificate);
    others.comes_to("current_view", 2);
    assert_eq!(sent_to(&others, 1), BTreeSet::new());
    assert_eq!((others.counts("sent_certificates"), others.counts("spared_certificates")), (0, 3));
    others.end();
}

#[test]
fn a_certificate_that_was_not_taken_is_taken_from_another_member() {
    let mut others = Others::around_a_node("cut");
    fs::write(others.network.folder().join("0.cut"), "1").expect("a disk");
    let certificate = Message::Certificate(others.certificate(&[1, 2, 3], Subject::Nullify(round(1))));
    sleep(Duration::from_millis(500));
    others.send(1, &certificate);
    others.comes_to("verified", 1);
    sleep(Duration::from_millis(500));
    assert_eq!(others.counts("current_view"), 1, "its links are cut");
    others.send(2, &certificate);
    others.comes_to("current_view", 2);
    others.end();
}

/// Whoever sends a forgery goes without the certificate, as it said that it has it: no other member does.
#[test]
fn who_lies_about_a_certificate_harms_itself() {
    let mut others = Others::around_a_node("lies");
    let too_few = others.certificate(&[2, 3], Subject::Nullify(round(1)));
    others.send(3, &Message::Certificate(too_few));
    others.comes_to("forged", 1);
    for signer in [1, 2, 3] {
        others.send(signer, &Message::Vote(others.vote(signer, Subject::Nullify(round(1)))));
    }
    others.comes_to("current_view", 2);
    assert_eq!(sent_to(&others, 1), BTreeSet::from([1, 2]));
    others.end();
}
