//! The events for the thread that owns the member: messages of its peers, and events of the process.

use crate::application::requests::Reply;
use crate::application::worker::Answer;
use crate::chain::Entry;
use simplex_view_state::Participant;
use simplex_wire::Message;
use std::time::Duration;

pub use simplex_net::Put;

/// An event for the thread that owns the member.
#[derive(Debug)]
pub enum Event {
    /// A message, verified as far as it can be without the member, and from whom.
    Message(Participant, Message),
    /// The application replied.
    Answered(Answer),
    /// The application replied about snapshots.
    Replied(Reply),
    /// These final blocks are in the archive.
    Archived(Vec<Entry>),
    /// A thread of the process can't continue, and so the process can't.
    Failed(String),
    /// The process is to end.
    Stop,
}

/// The events that wait.
#[derive(Debug)]
pub struct Inbox(simplex_net::Inbox<Event>);

impl Inbox {
    /// An empty one, for this many members.
    pub fn new(members: usize) -> Inbox {
        Inbox(simplex_net::Inbox::new(members))
    }

    /// Puts a message of so many bytes after those of its peer. Where there is no room it waits for a while, and then drops the message.
    pub fn put(&self, from: Participant, message: Message, bytes: usize) -> Put {
        self.0.put(from, Event::Message(from, message), bytes)
    }

    /// Puts an event of the process itself.
    pub fn tell(&self, event: Event) {
        self.0.tell(event);
    }

    /// Returns what comes next, within some time.
    pub fn take(&self, within: Duration) -> Option<Event> {
        self.0.take(within)
    }

    /// The application's next reply, within some time. All else stays.
    pub fn take_answer(&self, within: Duration) -> Option<Answer> {
        match self.0.take_own(within, |it| matches!(it, Event::Answered(_)))? {
            Event::Answered(answer) => Some(answer),
            _ => None,
        }
    }

    /// Returns whether nobody takes messages any more.
    pub fn is_closed(&self) -> bool {
        self.0.is_closed()
    }

    /// Nobody takes messages any more.
    pub fn close(&self) {
        self.0.close();
    }
}

#[cfg(test)]
mod tests {
    use super::*;
    use simplex_view_state::{FetchKind, View};
    use std::sync::Arc;
    use std::thread;

    const NOW: Duration = Duration::ZERO;
    const SOON: Duration = Duration::from_secs(60);

    fn ask(view: u64) -> Message {
        Message::AskCertificate(FetchKind::Decision, View::new(view))
    }

    fn sender(event: Option<Event>) -> Option<u32> {
        match event {
            Some(Event::Message(from, _)) => Some(from.get()),
            _ => None,
        }
    }

    #[test]
    fn a_reply_is_taken_from_the_queue_and_all_else_stays() {
        let inbox = Arc::new(Inbox::new(2));
        inbox.tell(Event::Archived(Vec::new()));
        inbox.put(Participant::new(1), ask(1), 9);
        assert!(inbox.take_answer(NOW).is_none());
        let teller = thread::spawn({
            let inbox = inbox.clone();
            move || inbox.tell(Event::Answered(Answer::Durable(7)))
        });
        assert!(matches!(inbox.take_answer(SOON), Some(Answer::Durable(7))));
        teller.join().expect("it ends");
        assert!(matches!(inbox.take(NOW), Some(Event::Archived(_))));
        assert_eq!(sender(inbox.take(NOW)), Some(1));
    }
}
