//! `simplex-local` as its user meets it: what it refuses, what it leaves alone, how it ends, and its last line.

use simplex_node::metrics::Counters;
use simplex_node::settings::Settings;
use simplex_trace::{Event, Trace};
use simplex_view_state::build_info;
use std::fs::{self, File, TryLockError};
use std::io::{BufReader, Read, Write};
use std::net::{SocketAddr, TcpStream};
use std::path::{Path, PathBuf};
use std::process::{Child, Command, Output, Stdio};
use std::thread::sleep;
use std::time::{Duration, Instant};

/// Within what time something has to be seen, on a machine that does much else.
const SOON: Duration = Duration::from_secs(60);

fn scratch(name: &str) -> PathBuf {
    let folder = std::env::temp_dir().join(format!("simplex-local-test-{}-{name}", std::process::id()));
    let _ = fs::remove_dir_all(&folder);
    fs::create_dir_all(&folder).expect("a folder for a test");
    folder
}

fn local(words: &[&str]) -> Command {
    let mut command = Command::new(env!("CARGO_BIN_EXE_simplex-local"));
    command
        .args(words)
        .stdin(Stdio::null())
        .stdout(Stdio::piped())
        .stderr(Stdio::piped());
    command
}

/// Returns what a run wrote to its output and to its errors.
fn texts(done: &Output) -> (String, String) {
    let text = |bytes: &[u8]| String::from_utf8_lossy(bytes).into_owned();
    (text(&done.stdout), text(&done.stderr))
}

/// Returns what a run says that has to succeed.
fn succeeds(words: &[&str]) -> String {
    let done = local(words).output().expect("a process");
    let (out, errors) = texts(&done);
    assert!(done.status.success(), "{words:?}: {out}{errors}");
    out
}

/// Why a run is refused, which has to begin no node.
fn refused(words: &[&str]) -> String {
    let done = local(words).output().expect("a process");
    let (out, errors) = texts(&done);
    assert!(!done.status.success() && out.is_empty(), "{words:?} ran: {out}{errors}");
    errors
}

fn text_of(path: &Path) -> &str {
    path.to_str().expect("a path of letters")
}

#[test]
fn a_folder_that_it_did_not_make_stays_as_it_is() {
    let folder = scratch("thesis");
    fs::create_dir(folder.join("sub")).expect("a disk");
    fs::write(folder.join("sub/thesis.txt"), "years of work").expect("a disk");
    let said = refused(&["--nodes", "1", "--views", "3", "--folder", text_of(&folder)]);
    assert_eq!(
        fs::read_to_string(folder.join("sub/thesis.txt")).expect("it is there"),
        "years of work"
    );
    assert!(said.contains("name a new folder"), "{said}");
    fs::remove_dir_all(folder).expect("a folder");
}

#[test]
fn its_own_folder_is_taken_again() {
    let folder = scratch("again").join("run");
    for _ in 0..2 {
        succeeds(&["--nodes", "1", "--views", "3", "--folder", text_of(&folder)]);
        assert!(folder.join("0/journal").exists(), "the folder is kept");
    }
    fs::remove_dir_all(folder).expect("a folder");
}

#[test]
fn a_picture_that_can_not_be_written_is_refused_before_the_run() {
    let path = scratch("picture").join("none/x.svg");
    let said = refused(&["--nodes", "1", "--views", "3", "--svg", text_of(&path)]);
    assert!(said.contains(text_of(&path)), "{said}");
}

#[test]
fn a_fault_of_no_node_is_refused() {
    let said = refused(&["--nodes", "4", "--views", "3", "--fault", "garbage"]);
    assert!(said.contains("--faulty"), "{said}");
}

#[test]
fn a_picture_shows_who_was_killed() {
    let path = scratch("kills").join("x.svg");
    let said = succeeds(&["--nodes", "4", "--views", "20", "--kill", "1", "--svg", text_of(&path)]);
    let svg = fs::read_to_string(&path).expect("a picture");
    assert_eq!(svg.matches("class=\"kill\"").count(), 1 + 1, "the kill and the legend's");
    assert!(said.contains("k: killed"), "{said}");
    assert_eq!(
        (said.matches(", 1 lifetime\n").count(), said.matches(", 2 lifetimes\n").count()),
        (3, 1),
        "{said}"
    );
}

#[test]
fn the_last_line_says_that_chains_agree() {
    let said = succeeds(&["--nodes", "4", "--views", "10"]);
    let last = said.lines().last().expect("a line");
    assert!(last.starts_with("OK: chains agree"), "{said}");
}

#[test]
fn the_report_tells_of_leaders_that_proposed_twice() {
    let said = succeeds(&["--nodes", "4", "--views", "20", "--faulty", "1"]);
    let line = said.lines().find(|it| it.starts_with("evidence: ")).expect("a line of evidence");
    let views: u64 = line.split(' ').nth(1).and_then(|it| it.parse().ok()).expect("a number");
    assert!(views > 0 && line.contains("proposed twice"), "{said}");
}

#[test]
fn a_run_that_a_signal_stops_fails_in_its_last_line() {
    let folder = scratch("stopped").join("run");
    let words = ["--nodes", "4", "--views", "1000000", "--folder", text_of(&folder)];
    let mut child = local(&words).spawn().expect("a process");
    begins(&(0..4).map(|index| folder.join(index.to_string())).collect::<Vec<_>>());
    signal(&child, "TERM");
    wait(&mut child);
    let done = child.wait_with_output().expect("it has ended");
    let (out, errors) = texts(&done);
    assert_eq!(done.status.code(), Some(1), "{out}{errors}");
    let last = out.lines().last().expect("a line");
    assert!(last.starts_with("FAILED: stopped by a signal"), "{out}{errors}");
}

fn signal(child: &Child, name: &str) {
    let sent = Command::new("kill").arg(format!("-{name}")).arg(child.id().to_string()).status();
    assert!(sent.expect("a process").success());
}

fn wait(child: &mut Child) {
    let begun = Instant::now();
    while child.try_wait().expect("a process").is_none() {
        assert!(begun.elapsed() < SOON, "it continues");
        sleep(Duration::from_millis(20));
    }
}

/// Returns whether a node's process still has its folder.
fn runs(data: &Path) -> bool {
    let lock = File::open(data.join("lock")).expect("it began");
    matches!(lock.try_lock(), Err(TryLockError::WouldBlock))
}

/// Waits until the nodes of these folders have begun.
fn begins(data: &[PathBuf]) {
    let begun = Instant::now();
    while !data.iter().all(|it| it.join("chain").exists() && runs(it)) {
        assert!(begun.elapsed() < SOON, "they do not begin");
        sleep(Duration::from_millis(20));
    }
}

/// Ends the process whose arguments name these settings, by its id.
fn end_node_of(config: &Path) {
    for entry in fs::read_dir("/proc").expect("processes").flatten() {
        let arguments = fs::read(entry.path().join("cmdline")).unwrap_or_default();
        if arguments.split(|it| *it == 0).any(|it| it == text_of(config).as_bytes()) {
            let _ = Command::new("kill").arg("-KILL").arg(entry.file_name()).status();
        }
    }
}

#[test]
fn a_signal_ends_all_its_nodes() {
    let folder = scratch("signal").join("run");
    let words = ["--nodes", "4", "--seconds", "600", "--folder", text_of(&folder)];
    let mut child = local(&words).stdout(Stdio::null()).spawn().expect("a process");
    let data: Vec<PathBuf> = (0..4).map(|index| folder.join(index.to_string())).collect();
    begins(&data);
    signal(&child, "TERM");
    wait(&mut child);
    let left: Vec<&PathBuf> = data.iter().filter(|it| runs(it)).collect();
    // Those that are left would run for ever.
    (0..4).for_each(|index| end_node_of(&folder.join(format!("{index}.toml"))));
    assert!(left.is_empty(), "they continue: {left:?}");
}

#[test]
fn the_shares_of_a_lifetime_are_no_more_than_all_of_it() {
    let folder = scratch("shares").join("run");
    let words = ["--nodes", "1", "--seconds", "600", "--folder", text_of(&folder)];
    let child = local(&words).spawn().expect("a process");
    let begun = Instant::now();
    let mut seen = 0;
    while seen < 100 {
        assert!(begun.elapsed() < SOON, "it replied {seen} times");
        let settings = Settings::read(&folder.join("0.toml"));
        let Some(text) = settings.ok().and_then(|it| metrics_of(it.metrics?)) else {
            continue;
        };
        let seconds = |name: &str| -> f64 {
            let name = Counters::exported(name).expect("a count").name;
            let line = text.lines().find_map(|line| line.strip_prefix(&name)?.strip_prefix(' '));
            line.expect("it is counted").parse().expect("a number")
        };
        let shares: f64 = ["core_us", "sign_us", "sync_us", "idle_us"].map(seconds).iter().sum();
        // (sums of such numbers are rounded)
        assert!(shares <= seconds("life_us") + 1e-9, "{shares} of {}", seconds("life_us"));
        seen += 1;
    }
    signal(&child, "TERM");
    let (said, _) = texts(&child.wait_with_output().expect("it ends"));
    assert!(said.contains("node 0, last lifetime: "), "{said}");
}

/// Returns what a node counts, as it serves that.
fn metrics_of(address: SocketAddr) -> Option<String> {
    let mut stream = TcpStream::connect(address).ok()?;
    stream.write_all(b"GET /metrics HTTP/1.1\r\n\r\n").ok()?;
    let mut text = String::new();
    stream.read_to_string(&mut text).ok()?;
    Some(text)
}

#[test]
fn each_program_says_its_own_name_and_what_its_library_is() {
    for (program, name) in [
        (env!("CARGO_BIN_EXE_simplex-local"), "simplex-local "),
        (env!("CARGO_BIN_EXE_simplex-node"), "simplex-node "),
    ] {
        let done = Command::new(program).arg("--version").output().expect("a process");
        let said = String::from_utf8(done.stdout).expect("letters");
        assert!(said.starts_with(name) && said.contains(build_info()), "{said}");
    }
}

#[test]
fn a_page_of_a_run_is_written_over_an_earlier_page_and_over_nothing_else() {
    let folder = scratch("page");
    let (page, thesis) = (folder.join("run.html"), folder.join("thesis.html"));
    for _ in 0..2 {
        succeeds(&["--nodes", "4", "--views", "8", "--kill", "1", "--html", text_of(&page)]);
        let html = fs::read_to_string(&page).expect("a page");
        assert!(html.contains("content=\"simplex-view\"") && html.contains("\"members\":4"));
    }
    fs::write(&thesis, "years of work").expect("a disk");
    let said = refused(&["--nodes", "1", "--views", "3", "--html", text_of(&thesis)]);
    assert!(said.contains("name another file"), "{said}");
    assert_eq!(fs::read_to_string(&thesis).expect("it is there"), "years of work");
    fs::remove_dir_all(folder).expect("a folder");
}

#[test]
fn each_node_traces_all_its_lifetimes_and_no_run_is_mixed_with_another() {
    let folder = scratch("traces").join("new");
    let words = ["--nodes", "4", "--views", "30", "--kill", "2", "--trace", text_of(&folder)];
    succeeds(&words);
    let (mut votes, mut resumes) = (0, 0);
    for index in 0..4 {
        let file = File::open(folder.join(format!("{index}.trace"))).expect("a trace");
        let trace = Trace::read(BufReader::new(file)).expect("a trace");
        assert!(trace.lines.iter().all(|it| it.member == Some(index)));
        let count = |is_it: fn(&Event) -> bool| trace.lines.iter().filter(|it| is_it(&it.event)).count();
        assert!(count(|it| matches!(it, Event::Finalized { .. })) > 10, "node {index}");
        assert!(count(|it| matches!(it, Event::VoteReceived { .. })) > 30, "node {index}");
        assert_eq!(count(|it| matches!(it, Event::Dropped { .. })), 0);
        votes += count(|it| matches!(it, Event::Vote { .. }));
        resumes += count(|it| matches!(it, Event::Resume { .. }));
    }
    assert!(votes > 100 && resumes == 2, "{votes} votes, {resumes} resumes");
    let said = refused(&words);
    assert!(said.contains("name a new folder for --trace"), "{said}");
    fs::remove_dir_all(folder).expect("a folder");
}
