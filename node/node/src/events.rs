//! The events of a node's engine, as a trace that `simplex-view` draws.

use crate::settings::{Outcome, Settings};
use simplex_trace::{Event, FetchKind, Header, Line, Observed, Observer, Queue, TraceFile, VERSION};
use simplex_view_state::{self as core, Engine, Input, Output, Participant, Subject, View};
use simplex_wire::now_us;
use std::path::Path;
use tracing::{info, warn};

/// How many lines wait at most for the thread that writes them: some seconds of a fast network.
const MOST_LINES: usize = 65_536;

/// Passes events to the thread that writes them; does nothing in a node that is not traced.
pub struct Events(Option<Open>);

struct Open {
    me: Participant,
    observer: Observer,
    queue: Queue,
    header: Header,
}

impl Events {
    /// The trace of a lifetime that begins with this number of entries in its journal. Returns an error where the file can't be written, or
    /// holds something else than a trace.
    pub fn open(settings: &Settings, entries: u64) -> Outcome<Events> {
        let Some(path) = &settings.events else {
            return Ok(Events(None));
        };
        let open = Open::new(path, settings)?;
        open.write((0, if entries == 0 { Event::Start } else { Event::Resume { entries } }));
        Ok(Events(Some(open)))
    }

    /// Returns what an input says, before the engine handles it.
    pub fn before(&self, input: &Input) -> Option<Observed> {
        self.0.as_ref()?.observer.before(input)
    }

    /// Writes what an input said, once the engine returned whether it was ignored.
    pub fn after(&mut self, observed: Option<Observed>, is_of_use: bool) {
        if let (Some(open), Some(observed)) = (&mut self.0, observed)
            && let Some(event) = open.observer.after(observed, is_of_use)
        {
            open.write(event);
        }
    }

    /// Writes what an output says.
    pub fn output(&mut self, output: &Output) {
        let Some(open) = &mut self.0 else { return };
        for event in open.observer.output(output) {
            open.write(event);
        }
        if let Output::Vote(order) = output
            && let Subject::Notarize(it) = &order.subject
            && open.header.leader(it.view().get()) == open.me.get()
        {
            let (to, proposal) = (Vec::new(), it.into());
            open.write((it.view().get(), Event::ProposalSent { to, proposal }));
        }
    }

    /// Writes that a member that asked was served.
    pub fn served(&self, to: Participant, kind: core::FetchKind, view: View) {
        if let Some(open) = &self.0 {
            let (certificate, to) = (FetchKind::from(kind), to.get());
            open.write((view.get(), Event::FetchServed { certificate, to }));
        }
    }

    /// Writes which fetches are settled, and which votes were withheld on the views that were left.
    pub fn settled(&mut self, engine: &Engine) {
        let Some(open) = &mut self.0 else { return };
        let mut events = open.observer.watch(engine);
        if open.observer.has_fetches() {
            events.extend(open.observer.settled(&engine.fetches()));
        }
        for event in events {
            open.write(event);
        }
    }

    /// Waits until all is written. A trace that could not be written is logged: the node went on without it.
    pub fn finish(self) {
        let Some(open) = self.0 else { return };
        match open.queue.finish() {
            Ok(()) => info!("the trace is written"),
            Err(error) => warn!(%error, "the trace is not whole"),
        }
    }
}

impl Open {
    fn new(path: &Path, settings: &Settings) -> Outcome<Open> {
        let (me, protocol) = (settings.me(), &settings.protocol);
        let header = Header {
            simplex_trace: VERSION,
            source: format!("simplex-node {}", env!("CARGO_PKG_VERSION")),
            members: settings.count().get(),
            faulty: settings.trial.fault.map(|_| settings.index).into_iter().collect(),
            term_length: protocol.term_length.get(),
            optimistic_views: protocol.optimistic_views,
            epoch: protocol.epoch,
        };
        let file = TraceFile::append(path, &header)?;
        Ok(Open {
            me,
            observer: Observer::new(me, protocol.term_length.get()),
            queue: Queue::start(file, MOST_LINES)?,
            header,
        })
    }

    fn write(&self, (view, event): Observed) {
        self.queue.send(Line {
            at: now_us(),
            member: Some(self.me.get()),
            view,
            event,
        });
    }
}
