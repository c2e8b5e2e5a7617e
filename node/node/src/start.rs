//! How a node begins: from its journal, or at a floor.

use crate::application::Application;
use crate::application::requests::Responder;
use crate::application::worker::Worker;
use crate::archive::keeper::{Keeper, Place};
use crate::archive::{self, Archive, Limits};
use crate::blocks::{self, Blocks};
use crate::chain::Tail;
use crate::clock::Clock;
use crate::crypto::Keys;
use crate::floor;
use crate::inbox::{Event, Inbox};
use crate::metrics::{self, Counters};
use crate::peers::{Horizon, Peers};
use crate::replica::{Parts, Replica};
use crate::settings::{Outcome, Settings};
use crate::signer::Signer;
use crate::state_sync::installation;
use signal_hook::consts::{SIGINT, SIGTERM};
use signal_hook::iterator::Signals;
use simplex_identity::Identity;
use simplex_journal::{Journal, NEW_KEY, Recovered};
use simplex_view_state::{Digest, Engine, EngineError, Floor, Moment, Options, Output, Participant, View, Views};
use std::path::{Path, PathBuf};
use std::sync::Arc;
use std::thread;
use tracing::{info, warn};

/// The beginning of an application: what it receives when it is opened.
#[derive(Clone, Debug)]
pub struct Start {
    /// The node's folder, which this process has for itself. The application may keep files in it under names of its own: not `journal`,
    /// `journal.new`, `lock`, `blocks`, `snapshot`, and those that begin with `archive`.
    pub folder: PathBuf,
    /// The block behind which the chain begins: genesis, or the floor. An application that has nothing stored returns it from
    /// [`Application::last`].
    pub block: (View, Digest),
    /// Which member this node is.
    pub me: Participant,
}

/// Runs a node until a signal ends it (SIGINT or SIGTERM), or an error does.
///
/// The application is opened once the folder is this process's alone. It gets the final blocks that it does not have before the node
/// begins.
///
/// # Errors
///
/// Where the node must not begin, says what to do: [`init`](crate::init()) did not make its folder; its journal is lost, older, damaged or
/// another member's; another process has its folder; a key file may be read by others. While it runs: the disk refuses, or the application
/// returned an error or panicked. Nothing was sent that is not stored, so the node may be run again.
pub fn run<A: Application>(settings: Settings, application: impl FnOnce(&Start) -> Outcome<A>) -> Outcome {
    run_until_signal(open(settings, application)?)
}

/// Runs a node as [`run`] does, whose votes a signer of the host's own signs: by a key in other hardware, say. The settings name no
/// `signer`; where the node has not the member's key, `key` is that of its links, and the member's public one is its `link`.
///
/// # Errors
///
/// As of [`run`]. A vote that the signer refuses, or signs by another key than the member's, ends the node: nothing of it was sent.
pub fn run_with_signer<A: Application>(
    settings: Settings,
    signer: impl Signer + 'static,
    application: impl FnOnce(&Start) -> Outcome<A>,
) -> Outcome {
    run_until_signal(open_with_signer(settings, signer, application)?)
}

fn run_until_signal((replica, inbox): (Replica, Arc<Inbox>)) -> Outcome {
    let mut signals = Signals::new([SIGINT, SIGTERM])?;
    thread::Builder::new().name("signals".into()).spawn(move || {
        for _ in signals.forever() {
            inbox.tell(Event::Stop);
        }
    })?;
    replica.run()
}

/// Opens a node, for a host with signals of its own: the node runs by [`Replica::run`], and ends by [`Event::Stop`].
///
/// # Errors
///
/// As of [`run`], of a node that must not begin.
pub fn open<A: Application>(settings: Settings, application: impl FnOnce(&Start) -> Outcome<A>) -> Outcome<(Replica, Arc<Inbox>)> {
    open_by(settings, None, application)
}

/// Opens a node as [`open`] does, whose votes a signer of the host's own signs.
///
/// # Errors
///
/// As of [`run_with_signer`], of a node that must not begin.
pub fn open_with_signer<A: Application>(
    settings: Settings,
    signer: impl Signer + 'static,
    application: impl FnOnce(&Start) -> Outcome<A>,
) -> Outcome<(Replica, Arc<Inbox>)> {
    open_by(settings, Some(Box::new(signer)), application)
}

fn open_by<A: Application>(
    settings: Settings,
    signer: Option<Box<dyn Signer>>,
    application: impl FnOnce(&Start) -> Outcome<A>,
) -> Outcome<(Replica, Arc<Inbox>)> {
    let identity = settings.identity()?;
    let keys = Arc::new(Keys::read_with(&settings, signer)?);
    let stored = Stored::open(&settings, &identity, keys, application)?;
    let (views, tail) = (stored.views, stored.archive.tail());
    let counters = Arc::new(Counters::default());
    if let Some(address) = settings.metrics {
        metrics::serve(address, counters.clone()).map_err(|error| format!("metrics at {address}: {error}"))?;
    }
    let horizon = Arc::new(Horizon::default());
    horizon.moved(views.current, views.min_active);
    let inbox = Arc::new(Inbox::new(settings.members.len()));
    let peers = Arc::new(Peers::start(&settings, &stored.keys, &horizon, &counters, &inbox)?);
    let place = place_of(&settings, &identity);
    let keeper = Keeper::begin(stored.archive, place, peers.clone(), inbox.clone(), counters.clone())?;
    let application = Worker::begin(stored.application, stored.responder, inbox.clone(), counters.clone())?;
    tell(&stored.recovered, &views);
    let replica = Replica::new(Parts {
        blocks: Blocks::open(&settings.data, *identity.genesis().bytes(), settings.sync)?,
        keeper,
        tail,
        settings,
        keys: stored.keys,
        horizon,
        counters,
        peers,
        inbox: inbox.clone(),
        engine: stored.engine,
        journal: stored.journal,
        application,
        clock: stored.clock,
    })?;
    Ok((replica, inbox))
}

/// All that a node stored, its parts tested against each other.
struct Stored<A> {
    keys: Arc<Keys>,
    recovered: Recovered,
    journal: Journal,
    engine: Engine,
    views: Views,
    application: A,
    responder: Responder,
    archive: Archive,
    clock: Clock,
}

impl<A: Application> Stored<A> {
    fn open(
        settings: &Settings,
        identity: &Identity,
        keys: Arc<Keys>,
        application: impl FnOnce(&Start) -> Outcome<A>,
    ) -> Outcome<Stored<A>> {
        test_journal(&settings.data)?;
        let (mut journal, recovered) = Journal::open(&settings.data, identity, settings.sync)?;
        let recovered = recovered.ok_or_else(|| no_journal(&settings.data))?;
        let floor = floor::read(settings)?;
        let mut engine = simplex_journal::engine(Some(&recovered), &settings.config(floor.clone())?, &Options::default())?;
        let views = engine.views().ok_or(EngineError::Failed)?;
        let start = Start {
            folder: settings.data.clone(),
            block: first_block(identity, &floor),
            me: settings.me(),
        };
        let mut application = application(&start)?;
        let replaced = installation::resume(&settings.data, &mut application)?;
        test_application(&settings.data, &application, views.last_finalized)?;
        let archive = open_archive(settings, identity, &mut application, replaced)?;
        let responder = responder(settings, &archive, &mut application);
        test_archive(&settings.data, archive.tail(), views.last_finalized)?;
        let clock = Clock::start();
        begin_journal(&mut engine, &mut journal, clock.now())?;
        Ok(Stored {
            keys,
            recovered,
            journal,
            engine,
            views,
            application,
            responder,
            archive,
            clock,
        })
    }
}

/// Refuses to begin without a journal: the node may have had one, and would vote a second time. Nothing is made then.
fn test_journal(folder: &Path) -> Outcome {
    let journal = simplex_journal::path(folder);
    // (where it can't be known, opening the journal says why)
    if journal.try_exists().unwrap_or(true) {
        return Ok(());
    }
    let places = [blocks::path(folder), archive::path(folder)];
    match places.into_iter().find(|it| it.exists()) {
        Some(left) => Err(format!(
            "{} is here, and the journal {} is not: this node may have voted, and could contradict its votes. Put the journal back. {NEW_KEY}",
            left.display(),
            journal.display(),
        )
        .into()),
        None => Err(no_journal(folder).into()),
    }
}

fn no_journal(folder: &Path) -> String {
    format!(
        "the journal {} is not here. If this key has never voted, make the folder by `simplex-node init`, once. If it has, mount its disk, or \
         put the journal back. {NEW_KEY}",
        simplex_journal::path(folder).display(),
    )
}

/// Refuses a journal that is older than the application's chain. The application gets a block only after the journal holds the
/// finalization, so one that is ahead shows that an earlier journal was put back.
fn test_application(folder: &Path, application: &impl Application, finalized: View) -> Outcome {
    let (height, last) = (application.height(), application.last().0);
    if height == 0 || last <= finalized {
        return Ok(());
    }
    Err(format!(
        "the journal {} is older than the application's chain: its last finalized view is {finalized}, and the chain's is {last}. Votes are \
         lost: put the newest journal back. {NEW_KEY}",
        simplex_journal::path(folder).display(),
    )
    .into())
}

/// Refuses a journal that is older than the archive beside it, which is written behind it as the chain is.
fn test_archive(folder: &Path, last: Tail, finalized: View) -> Outcome {
    if last.view <= finalized || last.height == 0 {
        return Ok(());
    }
    Err(format!(
        "the journal {} is older than {}: its last finalized view is {finalized}, and the archive's is {}. Votes are lost: put the newest \
         journal back. {}",
        simplex_journal::path(folder).display(),
        archive::path(folder).display(),
        last.view,
        NEW_KEY
    )
    .into())
}

/// How the archive of these settings is opened.
fn place_of(settings: &Settings, identity: &Identity) -> Place {
    Place {
        folder: settings.data.clone(),
        genesis: *identity.genesis().bytes(),
        limits: Limits {
            segment_bytes: settings.archive.segment_bytes,
            most_bytes: settings.archive.most_bytes,
        },
        syncs: settings.sync,
        trial: settings.trial.clone(),
    }
}

/// The archive, from which the application gets the blocks that it does not have. The archive is written first, so the application may be
/// behind it; and it is ahead of one of older blocks than a snapshot of this height that it took.
fn open_archive(settings: &Settings, identity: &Identity, application: &mut impl Application, replaced: Option<u64>) -> Outcome<Archive> {
    let (view, payload) = application.last();
    let tail = Tail {
        height: application.height(),
        view,
        payload,
    };
    let place = place_of(settings, identity);
    let (mut archive, cut) = place.open(tail)?;
    if cut > 0 {
        info!(cut, "the archive's last block was cut off");
    }
    match replaced {
        Some(height) if archive.tail().height < height => archive = place.begin_after(tail)?,
        Some(_) => installation::discard(&settings.data)?,
        None => {}
    }
    replay(&mut archive, application)?;
    Ok(archive)
}

/// The segments in which a block is looked for that bound a snapshot: in older ones it is not needed, since another one was bound.
const LAST_SEGMENTS: usize = 4;

/// Returns what peers are served of snapshots, from those on that blocks of the archive have bound.
fn responder(settings: &Settings, archive: &Archive, application: &mut impl Application) -> Responder {
    let mut responder = Responder::new(settings.data.clone(), settings.trial.clone());
    if let Err(error) = archive.each_of_last(LAST_SEGMENTS, |block| responder.note(block, application)) {
        warn!(%error, "no snapshot is offered until a block binds another one");
    }
    responder
}

/// Hands the application the blocks of the archive that it has not taken.
fn replay(archive: &mut Archive, application: &mut impl Application) -> Outcome {
    let (height, last) = (application.height(), application.last());
    if archive.first().is_some_and(|first| first > height + 1) {
        return Err(format!(
            "the application has {height} blocks, and the archive begins with block {}: put back a newer copy of the application's data, or \
             move both away, and this node asks its peers for all blocks",
            archive.first().unwrap_or_default()
        )
        .into());
    }
    let mut replayed = 0_u64;
    archive.each_after(last.0, |entry| {
        replayed += 1;
        application.finalized(&entry.block).map(|()| true)
    })?;
    if replayed > 0 {
        info!(replayed, "the application was behind the archive");
    }
    Ok(())
}

fn tell(recovered: &Recovered, views: &Views) {
    let (cut, entries) = (recovered.cut, recovered.stored.entries.get());
    let (current, finalized) = (views.current.get(), views.last_finalized.get());
    info!(cut, entries, current, finalized, "begun");
}

/// Begins the journal of a lifetime, from the engine's first output on: the whole record, in place of all that was stored.
pub(crate) fn begin_journal(engine: &mut Engine, journal: &mut Journal, now: Moment) -> Outcome {
    match engine.poll(now)? {
        Some(Output::Replace(entries)) => Ok(journal.replace(&entries)?),
        other => Err(format!("the engine begins with {other:?} in place of its record").into()),
    }
}

fn first_block(identity: &Identity, floor: &Floor) -> (View, Digest) {
    match floor {
        Floor::Genesis(_) => (View::GENESIS, identity.genesis()),
        Floor::Finalized(it) => (it.proposal.view(), it.proposal.payload),
    }
}
