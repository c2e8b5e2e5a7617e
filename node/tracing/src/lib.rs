//! An engine whose inputs and outputs are events of `tracing`, under the target `simplex`. The package `simplex-view-state` itself has no
//! dependencies, so that it builds without any other crate.
//!
//! ```
//! use simplex_tracing::Traced;
//! use simplex_view_state::{Config, Digest, Engine, Epoch, Moment, Namespace, Options, Participant};
//!
//! let config = Config::new(Namespace::new([1; 32]), 4.try_into()?, Some(Participant::new(0)), Epoch::new(1), Digest::default());
//! let now = Moment::from_millis(0);
//! let mut engine = Traced::new(Engine::start(&config, &Options::default(), now)?);
//! while let Some(output) = engine.poll(now)? {                 // an event each
//! #   let _ = output;
//!     // .. carry it out
//! }
//! assert_eq!(engine.views().expect("it has not failed").current.get(), 1); // all else is the engine's
//! # Ok::<(), Box<dyn std::error::Error>>(())
//! ```
//!
//! | Level | Events |
//! |---|---|
//! | `ERROR` | a call that failed |
//! | `WARN` | two votes that contradict each other, and a leader that signed two proposals |
//! | `INFO` | a proposal that is final |
//! | `DEBUG` | each other output, and each input that changed something |
//! | `TRACE` | an input that was ignored |
//!
//! Fields are `view`, `member` and `kind`, where there are such. Signatures, certificates and entries are not shown.

#![forbid(unsafe_code)]
#![warn(missing_docs)]

use simplex_view_state::{Engine, EngineError, Input, Moment, Output, Subject};
use std::ops::Deref;
use tracing::{debug, error, info, trace, warn};

/// An engine that reports what it receives and returns.
#[derive(Debug)]
pub struct Traced(Engine);

impl Traced {
    /// Reports what this engine receives and returns from now on.
    pub fn new(engine: Engine) -> Traced {
        Traced(engine)
    }

    /// Returns the engine, which reports nothing any more.
    pub fn into_inner(self) -> Engine {
        self.0
    }

    /// Passes an input, as [`Engine::handle`] does.
    ///
    /// # Errors
    ///
    /// Those of [`Engine::handle`].
    pub fn handle(&mut self, input: Input, now: Moment) -> Result<bool, EngineError> {
        let (kind, view) = of_input(&input);
        let taken = self.0.handle(input, now);
        match &taken {
            Ok(true) => debug!(target: "simplex", kind, view, "input"),
            Ok(false) => trace!(target: "simplex", kind, view, "ignored input"),
            Err(cause) => error!(target: "simplex", kind, view, %cause, "the engine refused an input"),
        }
        taken
    }

    /// Returns the next output, as [`Engine::poll`] does.
    ///
    /// # Errors
    ///
    /// Those of [`Engine::poll`].
    #[must_use = "carry out each output, in order"]
    pub fn poll(&mut self, now: Moment) -> Result<Option<Output>, EngineError> {
        let polled = self.0.poll(now);
        match &polled {
            Ok(Some(output)) => report(output),
            Ok(None) => {}
            Err(cause) => error!(target: "simplex", %cause, "the engine has failed"),
        }
        polled
    }
}

impl Deref for Traced {
    type Target = Engine;

    fn deref(&self) -> &Engine {
        &self.0
    }
}

/// The kind of an input, and its view.
fn of_input(it: &Input) -> (&'static str, u64) {
    let (kind, view) = match it {
        Input::Proposal { proposal, .. } => ("proposal", proposal.view()),
        Input::Vote(vote) => ("vote", vote.subject.round().view),
        Input::Certificate(it) => ("certificate", it.round().view),
        Input::Verified { view, .. } => ("verified", *view),
        Input::Built { context, .. } => ("built", context.round.view),
        Input::Certified { view, .. } => ("certified", *view),
        Input::GivenUp { view, .. } => ("given up", *view),
        _ => ("another", Default::default()),
    };
    (kind, view.get())
}

fn of_subject(it: &Subject) -> (&'static str, u64) {
    let kind = match it {
        Subject::Notarize(_) => "notarize",
        Subject::Nullify(_) => "nullify",
        Subject::Finalize(_) => "finalize",
    };
    (kind, it.round().view.get())
}

fn report(output: &Output) {
    match output {
        Output::Store(it) => debug!(target: "simplex", bytes = it.bytes.len(), "store"),
        Output::Replace(it) => debug!(target: "simplex", bytes = it.bytes.len(), "replace"),
        Output::Vote(order) => {
            let (kind, view) = of_subject(&order.subject);
            debug!(target: "simplex", kind, view, "vote");
        }
        Output::Broadcast(it) => {
            let (kind, view) = of_subject(&it.subject());
            debug!(target: "simplex", kind, view, "broadcast");
        }
        Output::Fetch(it) => {
            let member = it.of.map(|it| it.get());
            debug!(target: "simplex", kind = ?it.kind, view = it.view.get(), member, "fetch");
        }
        Output::Build(it) => debug!(target: "simplex", view = it.round.view.get(), "build"),
        Output::StopBuilding(view) => debug!(target: "simplex", view = view.get(), "stop building"),
        Output::Verify(_, it) => debug!(target: "simplex", view = it.view().get(), "verify"),
        Output::Certify(it) => debug!(target: "simplex", view = it.view().get(), "certify"),
        Output::Finalized(it) => info!(target: "simplex", view = it.view().get(), payload = %it.payload, "finalized"),
        Output::Equivocated(one, _) => {
            let (kind, view) = of_subject(&one.subject);
            warn!(target: "simplex", kind, view, member = one.signer.get(), "a member signed two contradicting votes");
        }
        Output::ProposedTwice(view, leader) => {
            warn!(target: "simplex", view = view.get(), member = leader.get(), "a leader signed two proposals");
        }
        Output::Forget(view) => debug!(target: "simplex", view = view.get(), "forget"),
    }
}

#[cfg(test)]
mod tests {
    use super::*;
    use simplex_view_state::{Config, Digest, Epoch, Namespace, Options, Participant, Round, View, Vote};
    use std::io::{self, Write};
    use std::sync::{Arc, Mutex};
    use tracing::Level;

    /// The lines that a subscriber writes.
    #[derive(Clone, Default)]
    struct Lines(Arc<Mutex<Vec<u8>>>);

    impl Write for Lines {
        fn write(&mut self, bytes: &[u8]) -> io::Result<usize> {
            self.0.lock().expect("no writer panics").extend_from_slice(bytes);
            Ok(bytes.len())
        }

        fn flush(&mut self) -> io::Result<()> {
            Ok(())
        }
    }

    /// Runs a member alone until its first block is final, with a contradiction, and returns what is reported down to a level.
    fn reported(most: Level) -> String {
        let lines = Lines::default();
        let subscriber = tracing_subscriber::fmt().with_writer({
            let lines = lines.clone();
            move || lines.clone()
        });
        tracing::subscriber::with_default(subscriber.with_max_level(most).finish(), run);
        String::from_utf8(lines.0.lock().expect("no writer panics").clone()).expect("text")
    }

    fn run() {
        let config = Config::new(
            Namespace::new([1; 32]),
            1.try_into().expect("1"),
            Some(Participant::new(0)),
            Epoch::new(1),
            Digest::default(),
        );
        let now = Moment::from_millis(0);
        let mut engine = Traced::new(Engine::start(&config, &Options::default(), now).expect("settings"));
        let mut is_final = false;
        while !is_final {
            let output = engine.poll(now).expect("memory").expect("a member alone always has work");
            let input = match &output {
                Output::Vote(order) => Input::Vote(order.signed(vec![7])),
                Output::Build(context) => context.built(Digest::new([7; 32])),
                Output::Certify(it) => it.certified(true),
                _ => {
                    is_final = matches!(output, Output::Finalized(_));
                    continue;
                }
            };
            engine.handle(input, now).expect("memory");
        }
        let (epoch, view) = (Epoch::new(9), View::new(5));
        let subject = Subject::Nullify(Round { epoch, view });
        let (signer, signature) = (Participant::new(0), vec![7]);
        let vote = Vote {
            subject,
            signer,
            signature,
        };
        assert_eq!(engine.handle(Input::Vote(vote), now), Ok(false), "a vote of another epoch");
    }

    #[test]
    fn inputs_and_outputs_are_reported_by_their_levels() {
        let all = reported(Level::TRACE);
        for wanted in [
            "DEBUG simplex: replace bytes=0",
            "DEBUG simplex: build view=1",
            r#"DEBUG simplex: vote kind="notarize" view=1"#,
            r#"DEBUG simplex: input kind="built" view=1"#,
            "INFO simplex: finalized view=1 payload=0707",
            r#"TRACE simplex: ignored input kind="vote" view=5"#,
        ] {
            assert!(all.contains(wanted), "{wanted} is not in\n{all}");
        }
        let few = reported(Level::INFO);
        assert_eq!(few.lines().count(), 1, "{few}");
    }
}
