//! The members as threads, and channels between them.

use crate::host::{Host, Outcome};
use crate::toys::MEMBERS;
use simplex_view_state::{Certificate, Fetch, Participant, Proposal, Vote};
use std::path::Path;
use std::sync::atomic::{AtomicU32, Ordering};
use std::sync::mpsc::channel;
use std::thread;

/// A message between members.
#[derive(Clone)]
pub enum Message {
    Vote(Vote),
    Certificate(Certificate),
    Ask(Fetch),
}

/// Runs all members, with a file each in the folder, until each has finalized so many proposals; returns these.
pub fn run(folder: &Path, views: usize) -> Outcome<Vec<Vec<Proposal>>> {
    let (peers, inboxes): (Vec<_>, Vec<_>) = (0..MEMBERS).map(|_| channel()).unzip();
    let done = AtomicU32::new(0);
    thread::scope(|scope| {
        let begin = |(index, inbox)| {
            let (peers, done) = (peers.clone(), &done);
            scope.spawn(move || -> Outcome<Vec<Proposal>> {
                let mut host = Host::begin(Participant::new(index), folder.join(format!("member-{index}")), peers)?;
                let mut is_counted = false;
                host.run(&inbox, |host| {
                    if host.finalized.len() >= views && !std::mem::replace(&mut is_counted, true) {
                        done.fetch_add(1, Ordering::Relaxed);
                    }
                    done.load(Ordering::Relaxed) == MEMBERS
                })?;
                Ok(host.finalized)
            })
        };
        let members: Vec<_> = (0..MEMBERS).zip(inboxes).map(begin).collect();
        members.into_iter().map(|it| it.join().expect("no member panics")).collect()
    })
}
