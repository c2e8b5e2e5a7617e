//! The thread of the application. What the engine waits for comes first, then what is asked of snapshots, then final blocks, one at a time
//! in between. Where many final blocks wait, a question waits until few do: all of them are ancestors of its block.

use super::requests::{Request, Responder};
use super::{Ancestors, Application, Cancelled};
use crate::chain::Entry;
use crate::inbox::{Event, Inbox};
use crate::metrics::Counters;
use simplex_view_state::{Context, Digest, Proposal, View};
use simplex_wire::Block;
use std::collections::VecDeque;
use std::io;
use std::sync::atomic::{AtomicBool, Ordering::Relaxed};
use std::sync::{Arc, Condvar, Mutex, MutexGuard};
use std::thread::{self, JoinHandle};
use std::time::{Duration, Instant};
use tracing::error;

/// How often the application is asked what it has on the disk.
const DURABLE: Duration = Duration::from_secs(1);
/// How long the engine's thread waits at most for a reply before it waits for the disk: a wait for the disk takes longer, and one serves
/// the votes that follow from the reply too.
pub const REPLY_WITHIN: Duration = Duration::from_micros(500);
/// How many requests of a peer wait at most.
const MOST_REQUESTS: usize = 8;
/// How many final blocks wait at most while the application works on a question.
const MOST_FINALS: usize = 16;

/// A question to the application for which the engine waits: with the ancestors above the final blocks that the worker has.
#[derive(Debug)]
pub enum Question {
    /// To build a block.
    Build(Context, Ancestors),
    /// To verify the block of a proposal.
    Verify(Proposal, Arc<Block>, Ancestors),
    /// To judge the block of a notarized proposal.
    Certify(Proposal, Arc<Block>, Ancestors),
}

/// Which questions a view has: one of each kind.
#[derive(Clone, Copy, PartialEq, Eq, PartialOrd, Ord, Debug)]
pub enum Kind {
    /// To build.
    Build,
    /// To verify.
    Verify,
    /// To judge.
    Certify,
}

impl Question {
    /// Its kind and view.
    pub fn key(&self) -> (Kind, View) {
        match self {
            Question::Build(context, _) => (Kind::Build, context.round.view),
            Question::Verify(proposal, ..) => (Kind::Verify, proposal.view()),
            Question::Certify(proposal, ..) => (Kind::Certify, proposal.view()),
        }
    }
}

/// A reply of the application.
#[derive(Debug)]
pub enum Answer {
    /// The contents of a block that it built; `None` where it built none.
    Built(Context, Option<Vec<u8>>),
    /// True if the block of this digest may be voted for.
    Verified(View, Digest, bool),
    /// True if the notarized block of this digest may be built on.
    Certified(View, Digest, bool),
    /// It has so many blocks on the disk.
    Durable(u64),
}

/// A question, whether it is cancelled, and when it was put.
type Asked = (Question, Cancelled, Instant);

/// The questions that wait for the application.
#[derive(Debug, Default)]
struct Backlog {
    questions: VecDeque<Asked>,
    /// The questions that it could not decide yet: they are put again once it has another final block.
    postponed: Vec<Asked>,
    /// The question that it works on.
    running: Option<((Kind, View), Cancelled)>,
    requests: VecDeque<Request>,
    finals: VecDeque<Arc<Block>>,
    is_closed: bool,
}

#[derive(Debug, Default)]
struct Shared {
    backlog: Mutex<Backlog>,
    arrival: Condvar,
    /// True if the last reply came too late to be waited for.
    is_slow: AtomicBool,
}

impl Shared {
    fn lock(&self) -> MutexGuard<'_, Backlog> {
        self.backlog.lock().unwrap_or_else(|it| it.into_inner())
    }
}

/// The thread that owns the application.
#[derive(Debug)]
pub struct Worker {
    shared: Arc<Shared>,
    thread: Option<JoinHandle<()>>,
}

impl Worker {
    /// Begins the thread. It replies by [`Event::Answered`] and [`Event::Replied`], and reports by [`Event::Failed`] that it can't
    /// continue.
    pub fn begin(application: impl Application, responder: Responder, inbox: Arc<Inbox>, counters: Arc<Counters>) -> io::Result<Worker> {
        let shared = Arc::new(Shared::default());
        counters.height.store(application.height(), Relaxed);
        let mut work = Work {
            application,
            responder,
            shared: shared.clone(),
            counters,
            asked_at: Instant::now(),
        };
        let thread = thread::Builder::new().name("application".into()).spawn(move || {
            let mut end = End { inbox, why: None };
            end.why = Some(work.run(&end.inbox).err().map(|it| it.to_string()));
        })?;
        Ok(Worker {
            shared,
            thread: Some(thread),
        })
    }

    /// Asks the application, in place of the question of the same kind and view.
    pub fn ask(&self, question: Question) {
        self.cancel(question.key());
        let asked = (question, Cancelled::default(), Instant::now());
        self.shared.lock().questions.push_back(asked);
        self.shared.arrival.notify_one();
    }

    /// Returns whether a reply is due that is worth a short wait ([`REPLY_WITHIN`]): a question is open, and the last reply was fast.
    pub fn is_reply_near(&self) -> bool {
        !self.shared.is_slow.load(Relaxed) && {
            let backlog = self.shared.lock();
            backlog.running.is_some() || !backlog.questions.is_empty()
        }
    }

    /// A reply did not come within [`REPLY_WITHIN`]. None is near from then on, until one was fast again.
    pub fn missed(&self) {
        self.shared.is_slow.store(true, Relaxed);
    }

    /// Nobody waits for the reply to a question any more.
    pub fn cancel(&self, key: (Kind, View)) {
        self.cancel_where(|it| it == key);
    }

    /// Nobody waits for what was built or verified below a view, nor for a judgement up to the last finalized one.
    pub fn cancel_passed(&self, current: View, finalized: View) {
        self.cancel_where(|(kind, view)| match kind {
            Kind::Build | Kind::Verify => view < current,
            Kind::Certify => view <= finalized,
        });
    }

    fn cancel_where(&self, is_passed: impl Fn((Kind, View)) -> bool) {
        let mut backlog = self.shared.lock();
        // (a build gets a reply also where it never began)
        let is_kept = |(question, cancelled, _): &Asked| {
            let (is_passed, is_build) = (is_passed(question.key()), matches!(question, Question::Build(..)));
            if is_passed {
                cancelled.cancel();
            }
            is_build || !is_passed
        };
        backlog.questions.retain(is_kept);
        backlog.postponed.retain(is_kept);
        if let Some((_, cancelled)) = backlog.running.as_ref().filter(|(key, _)| is_passed(*key)) {
            cancelled.cancel();
        }
    }

    /// Asks something of snapshots. A peer that asks for too much is not replied to.
    pub fn request(&self, request: Request) {
        let mut backlog = self.shared.lock();
        let of_peer = |it: &&Request| it.peer().is_some() && it.peer() == request.peer();
        if backlog.requests.iter().filter(of_peer).count() < MOST_REQUESTS {
            backlog.requests.push_back(request);
            self.shared.arrival.notify_one();
        }
    }

    /// These blocks are final, and in the archive.
    pub fn finalized(&self, entries: Vec<Entry>) {
        self.shared.lock().finals.extend(entries.into_iter().map(|it| Arc::new(it.block)));
        self.shared.arrival.notify_one();
    }

    /// Waits until the application has all final blocks. Questions get no more replies.
    pub fn stop(&mut self) {
        {
            let mut backlog = self.shared.lock();
            backlog.is_closed = true;
            backlog.questions.clear();
            backlog.postponed.clear();
            backlog.requests.clear();
            backlog.running.iter().for_each(|(_, cancelled)| cancelled.cancel());
        }
        self.shared.arrival.notify_one();
        if let Some(thread) = self.thread.take() {
            let _ = thread.join();
        }
    }
}

/// Tells how the thread ended, also where the application panicked.
struct End {
    inbox: Arc<Inbox>,
    /// None where it did not come to its end, and else why it failed.
    why: Option<Option<String>>,
}

impl Drop for End {
    fn drop(&mut self) {
        let why = match self.why.take() {
            None => "the application panicked".to_owned(),
            Some(Some(why)) => format!("the application: {why}"),
            Some(None) => return,
        };
        self.inbox.tell(Event::Failed(why));
    }
}

/// The next thing to do.
enum Next {
    Question(Asked),
    Request(Box<Request>),
    Final(Arc<Block>),
    End,
}

struct Work<A> {
    application: A,
    responder: Responder,
    shared: Arc<Shared>,
    counters: Arc<Counters>,
    asked_at: Instant,
}

impl<A: Application> Work<A> {
    fn run(&mut self, inbox: &Inbox) -> io::Result<()> {
        loop {
            match self.next() {
                Next::Question((question, cancelled, asked)) => {
                    let answer = self.answer(question, &cancelled);
                    if !cancelled.is_cancelled() {
                        self.shared.is_slow.store(asked.elapsed() > REPLY_WITHIN, Relaxed);
                    }
                    if let Some(it) = answer {
                        inbox.tell(Event::Answered(it));
                    }
                    // (behind that: while a question is open, its reply is waited for)
                    self.shared.lock().running = None;
                }
                Next::Request(request) => {
                    let reply = self.responder.reply(*request, &mut self.application)?;
                    reply.into_iter().for_each(|it| inbox.tell(Event::Replied(it)));
                    self.counters.height.store(self.application.height(), Relaxed);
                }
                Next::Final(block) => self.take(&block)?,
                Next::End => return Ok(()),
            }
            if self.asked_at.elapsed() > DURABLE {
                let durable = self.application.durable()?.min(self.responder.needed_above());
                self.asked_at = Instant::now();
                inbox.tell(Event::Answered(Answer::Durable(durable)));
            }
        }
    }

    fn next(&self) -> Next {
        let mut backlog = self.shared.lock();
        loop {
            let is_behind = backlog.finals.len() > MOST_FINALS && !backlog.questions.is_empty();
            if is_behind && let Some(block) = backlog.finals.pop_front() {
                return Next::Final(block);
            }
            if let Some(asked) = backlog.questions.pop_front() {
                backlog.running = Some((asked.0.key(), asked.1.clone()));
                return Next::Question(asked);
            }
            if let Some(request) = backlog.requests.pop_front() {
                return Next::Request(Box::new(request));
            }
            if let Some(block) = backlog.finals.pop_front() {
                return Next::Final(block);
            }
            if backlog.is_closed {
                return Next::End;
            }
            backlog = self.shared.arrival.wait(backlog).unwrap_or_else(|it| it.into_inner());
        }
    }

    /// The reply; `None` where nobody waits for it. A build always gets one: until then no other build begins.
    fn answer(&mut self, question: Question, cancelled: &Cancelled) -> Option<Answer> {
        match question {
            Question::Build(context, above) => {
                let parent = (context.parent, context.parent_payload);
                let ancestors = self.pending(&above, parent).filter(|_| !cancelled.is_cancelled());
                let content = ancestors.and_then(|it| self.application.build(&context, &it, cancelled));
                Some(Answer::Built(context, content.filter(|_| !cancelled.is_cancelled())))
            }
            Question::Verify(proposal, block, above) => {
                let ancestors = self.pending(&above, block.parent)?;
                let Some(is_valid) = self.application.verify(&block, &ancestors, cancelled) else {
                    self.postpone(Question::Verify(proposal, block, above), cancelled);
                    return None;
                };
                Some(Answer::Verified(proposal.view(), proposal.payload, is_valid))
            }
            Question::Certify(proposal, block, above) => {
                let ancestors = self.pending(&above, block.parent)?;
                let is_success = self.application.certify(&block, &ancestors, cancelled)?;
                Some(Answer::Certified(proposal.view(), proposal.payload, is_success))
            }
        }
    }

    /// Puts a question off that the application can't decide yet, unless nobody waits any more.
    fn postpone(&self, question: Question, cancelled: &Cancelled) {
        if !cancelled.is_cancelled() {
            let asked = (question, cancelled.clone(), Instant::now());
            self.shared.lock().postponed.push(asked);
        }
    }

    /// The ancestors that the application has not taken: final blocks that wait here, and those above. `None` where the application has passed
    /// the parent: nobody waits for the reply then.
    fn pending(&self, above: &Ancestors, parent: (View, Digest)) -> Option<Ancestors> {
        let last = self.application.last();
        let pending = above.after(last, parent, self.shared.lock().finals.iter());
        if pending.is_none() && last.0 <= parent.0 {
            let (last, parent) = (last.0.get(), parent.0.get());
            error!(
                last,
                parent, "a block's ancestors do not have the application's last block: it is not asked about the block"
            );
        }
        pending
    }

    /// (An application may be ahead of an archive whose end was cut off.)
    fn take(&mut self, block: &Block) -> io::Result<()> {
        if block.view > self.application.last().0 {
            self.application.finalized(block)?;
            self.responder.note(block, &mut self.application);
            self.counters.height.store(self.application.height(), Relaxed);
            let mut backlog = self.shared.lock();
            let again = std::mem::take(&mut backlog.postponed);
            backlog.questions.extend(again);
        }
        Ok(())
    }
}

#[cfg(test)]
mod tests {
    use super::*;
    use simplex_view_state::{Epoch, Participant, Round};
    use std::sync::mpsc::{Sender, channel};

    const SOON: Duration = Duration::from_secs(60);

    /// Works on each question until it is cancelled, where its view is odd; and panics in view 100.
    struct Slow {
        taken: Vec<(View, Digest)>,
        begun: Sender<View>,
        /// How many ancestors the last question had, and how many blocks were taken.
        shown: Arc<Mutex<(usize, usize)>>,
    }

    impl Slow {
        fn work(&self, view: View, ancestors: &Ancestors, cancelled: &Cancelled) -> Option<bool> {
            assert_ne!(view.get(), 100);
            *self.shown.lock().expect("no panic") = (ancestors.len(), self.taken.len());
            self.begun.send(view).expect("the test looks");
            while view.get() % 2 == 1 {
                thread::sleep(Duration::from_millis(1));
                if cancelled.is_cancelled() {
                    return None;
                }
            }
            Some(true)
        }
    }

    impl Application for Slow {
        fn build(&mut self, context: &Context, ancestors: &Ancestors, cancelled: &Cancelled) -> Option<Vec<u8>> {
            self.work(context.round.view, ancestors, cancelled).map(|_| vec![1])
        }

        fn verify(&mut self, block: &Block, ancestors: &Ancestors, cancelled: &Cancelled) -> Option<bool> {
            self.work(block.view, ancestors, cancelled)
        }

        fn certify(&mut self, block: &Block, ancestors: &Ancestors, cancelled: &Cancelled) -> Option<bool> {
            self.work(block.view, ancestors, cancelled)
        }

        fn finalized(&mut self, block: &Block) -> io::Result<()> {
            self.taken.push((block.view, block.payload()));
            Ok(())
        }

        fn last(&self) -> (View, Digest) {
            self.taken.last().copied().unwrap_or_default()
        }

        fn height(&self) -> u64 {
            self.taken.len() as u64
        }

        fn durable(&mut self) -> io::Result<u64> {
            Ok(self.height())
        }
    }

    fn context(view: u64) -> Context {
        Context {
            round: Round {
                epoch: Epoch::new(1),
                view: View::new(view),
            },
            leader: Participant::new(0),
            parent: View::GENESIS,
            parent_payload: Digest::default(),
        }
    }

    fn asked(kind: Kind, view: u64) -> Question {
        asked_on(kind, context(view), Ancestors::default())
    }

    fn asked_on(kind: Kind, context: Context, above: Ancestors) -> Question {
        let block = Arc::new(Block::new(&context, &[]));
        let proposal = Proposal {
            round: context.round,
            parent: context.parent,
            payload: block.payload(),
        };
        match kind {
            Kind::Build => Question::Build(context, above),
            Kind::Verify => Question::Verify(proposal, block, above),
            Kind::Certify => Question::Certify(proposal, block, above),
        }
    }

    /// Blocks of the views from 1 on, each on the one before; and the context of the next one in this view.
    fn chain(length: u64, view: u64) -> (Vec<Block>, Context) {
        let (mut blocks, mut next) = (Vec::new(), context(1));
        for height in 1..=length {
            let block = Block::new(&next, &[]);
            next = Context {
                parent: block.view,
                parent_payload: block.payload(),
                ..context(height + 1)
            };
            blocks.push(block);
        }
        next.round.view = View::new(view);
        (blocks, next)
    }

    fn entries(blocks: &[Block]) -> Vec<Entry> {
        let entry = |(height, block): (u64, &Block)| Entry {
            height,
            block: block.clone(),
            certificate: None,
        };
        (1..).zip(blocks).map(entry).collect()
    }

    /// The worker, what it began, and its replies and counts.
    fn worker() -> (Worker, std::sync::mpsc::Receiver<View>, Arc<Inbox>, Arc<Counters>) {
        let (begun, seen) = channel();
        let (inbox, counters) = (Arc::new(Inbox::new(1)), Arc::new(Counters::default()));
        let worker = begin(begun, &inbox, &counters, Default::default());
        (worker, seen, inbox, counters)
    }

    fn begin(begun: Sender<View>, inbox: &Arc<Inbox>, counters: &Arc<Counters>, shown: Arc<Mutex<(usize, usize)>>) -> Worker {
        let taken = Vec::new();
        let slow = Slow { taken, begun, shown };
        Worker::begin(slow, Responder::default(), inbox.clone(), counters.clone()).expect("a thread")
    }

    /// The next reply, but for what it has on the disk.
    fn answer(inbox: &Inbox, within: Duration) -> Option<Answer> {
        loop {
            match inbox.take(within)? {
                Event::Answered(Answer::Durable(_)) => {}
                Event::Answered(it) => return Some(it),
                other => panic!("{other:?}"),
            }
        }
    }

    #[test]
    fn what_is_passed_is_cancelled_while_it_runs_and_while_it_waits() {
        let (worker, begun, inbox, _) = worker();
        worker.ask(asked(Kind::Verify, 3));
        assert_eq!(begun.recv_timeout(SOON), Ok(View::new(3)));
        worker.ask(asked(Kind::Verify, 5));
        worker.ask(asked(Kind::Certify, 6));
        worker.cancel_passed(View::new(6), View::new(4));
        let first = answer(&inbox, SOON);
        assert!(
            matches!(first, Some(Answer::Certified(view, _, true)) if view.get() == 6),
            "{first:?}"
        );
        assert_eq!(begun.try_iter().collect::<Vec<_>>(), [View::new(6)], "view 5 was never begun");
    }

    #[test]
    fn a_stopped_build_returns_no_block() {
        let (worker, begun, inbox, _) = worker();
        worker.ask(asked(Kind::Build, 7));
        assert_eq!(begun.recv_timeout(SOON), Ok(View::new(7)));
        assert!(answer(&inbox, Duration::from_millis(30)).is_none());
        worker.cancel((Kind::Build, View::new(7)));
        let stopped = answer(&inbox, SOON);
        assert!(matches!(stopped, Some(Answer::Built(it, None)) if it == context(7)), "{stopped:?}");
        // Also where it never began.
        worker.ask(asked(Kind::Verify, 9));
        assert_eq!(begun.recv_timeout(SOON), Ok(View::new(9)));
        worker.ask(asked(Kind::Build, 11));
        worker.cancel_passed(View::new(12), View::new(0));
        let stopped = answer(&inbox, SOON);
        assert!(matches!(stopped, Some(Answer::Built(it, None)) if it == context(11)), "{stopped:?}");
        assert!(begun.try_recv().is_err());
    }

    #[test]
    fn final_blocks_are_taken_in_order_after_questions_and_all_of_them_before_the_end() {
        let (mut worker, begun, inbox, counters) = worker();
        worker.ask(asked(Kind::Certify, 1));
        assert_eq!(begun.recv_timeout(SOON), Ok(View::new(1)));
        let (blocks, next) = chain(500, 502);
        worker.finalized(entries(&blocks));
        worker.ask(asked_on(Kind::Verify, next, Ancestors::default()));
        worker.cancel_passed(View::new(1), View::new(1));
        assert!(matches!(answer(&inbox, SOON), Some(Answer::Verified(..))));
        worker.stop();
        assert_eq!(counters.height.load(Relaxed), 500);
    }

    /// Returns what the application is shown for a block in view 1000, while so many final blocks wait and the others above them are
    /// pending: the number of ancestors, and of blocks that it took before.
    fn shown(finals: usize, pending: usize) -> (usize, usize) {
        let (begun, seen) = channel();
        let (inbox, shown) = (Arc::new(Inbox::new(1)), Arc::new(Mutex::new((0, 0))));
        let worker = begin(begun, &inbox, &Arc::default(), shown.clone());
        worker.ask(asked(Kind::Certify, 1));
        assert_eq!(seen.recv_timeout(SOON), Ok(View::new(1)));
        let (blocks, next) = chain((finals + pending) as u64, 1000);
        worker.finalized(entries(&blocks[..finals]));
        worker.ask(asked_on(Kind::Verify, next, blocks[finals..].iter().cloned().collect()));
        worker.cancel_passed(View::new(1), View::new(1));
        assert!(matches!(answer(&inbox, SOON), Some(Answer::Verified(..))));
        *shown.lock().expect("no panic")
    }

    #[test]
    fn final_blocks_that_wait_are_ancestors_and_most_of_many_are_taken_first() {
        assert_eq!(shown(0, 3), (3, 0));
        assert_eq!(shown(5, 2), (7, 0));
        assert_eq!(shown(100, 2), (MOST_FINALS + 2, 100 - MOST_FINALS));
    }

    #[test]
    fn a_block_whose_parent_the_application_has_passed_is_no_question_any_more() {
        let (mut worker, begun, inbox, _) = worker();
        let (blocks, _) = chain(500, 502);
        worker.finalized(entries(&blocks));
        let until = Instant::now() + SOON;
        while !worker.shared.lock().finals.is_empty() {
            assert!(Instant::now() < until);
            thread::sleep(Duration::from_millis(1));
        }
        worker.ask(asked(Kind::Verify, 2));
        worker.ask(asked(Kind::Build, 4));
        let built = answer(&inbox, SOON);
        assert!(matches!(built, Some(Answer::Built(_, None))), "{built:?}");
        worker.stop();
        assert!(begun.try_recv().is_err(), "the application was asked nothing");
    }

    /// Can't tell of any block until it has taken so many.
    struct Behind {
        taken: Vec<(View, Digest)>,
        least: usize,
    }

    impl Application for Behind {
        fn build(&mut self, _: &Context, _: &Ancestors, _: &Cancelled) -> Option<Vec<u8>> {
            None
        }

        fn verify(&mut self, _: &Block, _: &Ancestors, _: &Cancelled) -> Option<bool> {
            (self.taken.len() >= self.least).then_some(true)
        }

        fn certify(&mut self, _: &Block, _: &Ancestors, _: &Cancelled) -> Option<bool> {
            Some(true)
        }

        fn finalized(&mut self, block: &Block) -> io::Result<()> {
            self.taken.push((block.view, block.payload()));
            Ok(())
        }

        fn last(&self) -> (View, Digest) {
            self.taken.last().copied().unwrap_or_default()
        }

        fn height(&self) -> u64 {
            self.taken.len() as u64
        }

        fn durable(&mut self) -> io::Result<u64> {
            Ok(0)
        }
    }

    #[test]
    fn what_the_application_can_not_tell_yet_is_asked_again_once_it_has_another_final_block() {
        let (taken, inbox) = (Vec::new(), Arc::new(Inbox::new(1)));
        let behind = Behind { taken, least: 2 };
        let worker = Worker::begin(behind, Responder::default(), inbox.clone(), Arc::default()).expect("a thread");
        let (blocks, next) = chain(2, 4);
        let passed = Context {
            round: context(3).round,
            ..next
        };
        worker.finalized(entries(&blocks[..1]));
        for (context, above) in [(passed, &blocks[1..]), (next, &blocks[1..])] {
            worker.ask(asked_on(Kind::Verify, context, above.iter().cloned().collect()));
        }
        assert!(answer(&inbox, Duration::from_millis(50)).is_none());
        worker.cancel_passed(View::new(4), View::GENESIS);
        worker.finalized(entries(&blocks).split_off(1));
        let again = answer(&inbox, SOON);
        assert!(
            matches!(again, Some(Answer::Verified(view, _, true)) if view.get() == 4),
            "{again:?}"
        );
        assert!(answer(&inbox, Duration::from_millis(50)).is_none(), "view 3 is passed");
    }

    #[test]
    fn a_reply_that_was_missed_is_not_waited_for_until_one_was_fast() {
        let (worker, begun, inbox, _) = worker();
        assert!(!worker.is_reply_near(), "nothing is asked");
        worker.ask(asked(Kind::Verify, 3));
        assert_eq!(begun.recv_timeout(SOON), Ok(View::new(3)));
        assert!(worker.is_reply_near());
        worker.missed();
        assert!(!worker.is_reply_near());
        worker.cancel((Kind::Verify, View::new(3)));
        let since = Instant::now();
        let is_fast_again = (2..).step_by(2).take_while(|_| since.elapsed() < SOON).any(|view| {
            worker.ask(asked(Kind::Verify, view));
            assert!(answer(&inbox, SOON).is_some());
            worker.ask(asked(Kind::Verify, view + 1));
            let is_near = worker.is_reply_near();
            worker.cancel((Kind::Verify, View::new(view + 1)));
            is_near
        });
        assert!(is_fast_again);
    }

    #[test]
    fn a_panic_of_the_application_is_reported() {
        let (worker, _begun, inbox, _) = worker();
        worker.ask(asked(Kind::Verify, 100));
        let told = inbox.take(SOON);
        assert!(matches!(&told, Some(Event::Failed(why)) if why.contains("panicked")), "{told:?}");
    }
}
