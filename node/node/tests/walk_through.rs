//! The commands of docs/PRODUCTION.md (the operator's walk-through) and of docs/TRACE.md, each as the page has it.

use std::fs;
use std::io::Read;
use std::net::TcpListener;
use std::os::unix::process::CommandExt;
use std::path::{Path, PathBuf};
use std::process::{Command, Stdio};
use std::thread::sleep;
use std::time::{Duration, Instant};

/// Within what time four nodes come so far, on a machine that does much else.
const SOON: Duration = Duration::from_secs(300);

/// The commands of a page's first block below a head, behind how the block begins.
fn commands(page: &str, head: &str, begin: &str) -> String {
    let page = fs::read_to_string(Path::new(env!("CARGO_MANIFEST_DIR")).join("../../docs").join(page)).expect("the page");
    let (_, rest) = page.split_once(head).expect("the head");
    let (_, rest) = rest.split_once(begin).expect("the block");
    let (commands, _) = rest.split_once("```").expect("their end");
    commands.to_owned()
}

/// A port from which on twenty are free.
fn free_ports() -> u16 {
    let is_free = |port: &u16| (*port..*port + 20).all(|it| TcpListener::bind(("127.0.0.1", it)).is_ok());
    (30_000..50_000).step_by(20).find(is_free).expect("ports")
}

fn scratch(name: &str) -> PathBuf {
    let folder = std::env::temp_dir().join(format!("simplex-{name}-{}", std::process::id()));
    fs::create_dir_all(&folder).expect("a folder for the test");
    folder
}

/// Runs the commands in a folder, in a process group of their own, whose processes all end with it. What they wrote.
fn run(commands: &str, folder: &Path) -> Result<String, String> {
    let tools = Path::new(env!("CARGO_BIN_EXE_simplex-node")).parent().expect("a folder");
    let path = format!("{}:{}", tools.display(), std::env::var("PATH").expect("a path"));
    let mut shell = Command::new("bash")
        .args(["-euo", "pipefail", "-c", commands])
        .current_dir(folder)
        .env("PATH", path)
        .stdin(Stdio::null())
        .stdout(Stdio::piped())
        .stderr(Stdio::inherit())
        .process_group(0)
        .spawn()
        .expect("a shell");
    let begun = Instant::now();
    let ended = loop {
        match shell.try_wait().expect("a process") {
            Some(status) => break status.success(),
            None if begun.elapsed() > SOON => break false,
            None => sleep(Duration::from_millis(100)),
        }
    };
    let group = format!("-{}", shell.id());
    let _ = Command::new("kill").args(["-9", "--", &group]).stderr(Stdio::null()).status();
    let mut said = String::new();
    let _ = shell.stdout.take().expect("an output").read_to_string(&mut said);
    if ended { Ok(said) } else { Err(said) }
}

#[test]
fn the_commands_of_the_walk_through_run() {
    let folder = scratch("walk");
    let steps = commands("PRODUCTION.md", "## Four nodes, step by step", "```bash\n");
    assert!(steps.contains("port=27200"), "the commands name their ports first");
    let steps = steps.replace("port=27200", &format!("port={}", free_ports()));
    let said = run(&steps, &folder).unwrap_or_else(|said| panic!("the commands failed in {}: {said}", folder.display()));
    assert!(said.is_empty(), "{said}");
    assert!(fs::metadata(folder.join("3.floor")).expect("a floor").len() > 0);
    let again =
        run("simplex-node floor --config 3.toml --out 3.floor 2>&1", &folder).expect_err("a floor that is there is not overwritten");
    assert!(again.contains("name a file that is not there yet"), "{again}");
    fs::remove_dir_all(folder).expect("the test's own folder");
}

#[test]
fn the_commands_for_traces_run() {
    let folder = scratch("traces");
    let commands = commands("TRACE.md", "# Traces", "```sh\ncd node && cargo build --release\n").replace("target/release/", "");
    let tools = Path::new(env!("CARGO_BIN_EXE_simplex-node"));
    for name in ["simplex-sim", "simplex-view"] {
        let tool = tools.with_file_name(name);
        assert!(
            tool.exists(),
            "{}: build the whole workspace, by `cargo build --workspace`",
            tool.display()
        );
    }
    let said = run(&commands, &folder).unwrap_or_else(|said| panic!("the commands failed in {}: {said}", folder.display()));
    assert!(said.lines().any(|it| it.starts_with("OK")), "{said}");
    for made in ["run.html", "run.trace"] {
        assert!(fs::metadata(folder.join(made)).expect(made).len() > 10_000, "{made} is short");
    }
    fs::remove_dir_all(folder).expect("the test's own folder");
}
