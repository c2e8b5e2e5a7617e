//! The members in one process, a queue of messages between them, and a clock.

use crate::host::{Host, Message, Outcome};
use crate::scheme::MEMBERS;
use simplex_view_state::{Certificate, Moment, Participant, Proposal};
use std::collections::VecDeque;

/// The results of a run of the network.
pub struct Run {
    /// The proposals that each member finalized, in order.
    pub chains: Vec<Vec<Proposal>>,
    /// The certificates that were sent.
    pub certificates: Vec<Certificate>,
    /// The bytes in the first member's journal.
    pub journal: usize,
}

/// Runs all members until each has finalized so many proposals.
pub fn run(views: usize) -> Outcome<Run> {
    let mut hosts = (0..MEMBERS).map(|index| Host::start(index.into())).collect::<Outcome<Vec<_>>>()?;
    let (mut now, mut queue, mut certificates) = (Moment::from_millis(0), VecDeque::new(), Vec::new());
    while hosts.iter().any(|host| host.finalized.len() < views) {
        for host in &mut hosts {
            host.poll(now)?;
            for (to, message) in host.sends.drain(..) {
                if let Message::Certificate(certificate) = &message {
                    certificates.push(certificate.clone());
                }
                queue.extend(receivers(to).map(|to| (host.me, to, message.clone())));
            }
        }
        match queue.pop_front() {
            Some((from, to, message)) => hosts[to.get() as usize].receive(from, message, now)?,
            None => now = hosts.iter().map(Host::wake).min().unwrap_or(now).max(now),
        }
    }
    Ok(Run {
        journal: hosts[0].journal.len(),
        chains: hosts.into_iter().map(|host| host.finalized).collect(),
        certificates,
    })
}

/// The members that a message is for.
fn receivers(to: Option<Participant>) -> impl Iterator<Item = Participant> {
    (0..MEMBERS).map(Participant::new).filter(move |it| to.is_none_or(|to| to == *it))
}
