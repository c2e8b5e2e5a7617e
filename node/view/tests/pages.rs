//! Pages of traces that are written here: what became of views, why, and which files are refused.

use serde_json::Value;
use std::fs;
use std::path::PathBuf;

const HEADER: &str = r#"{"simplex_trace":1,"source":"test 1","members":4,"faulty":[3],"term_length":2,"optimistic_views":0,"epoch":1}"#;

fn scratch(name: &str) -> PathBuf {
    let folder = std::env::temp_dir().join(format!("simplex-view-{}-{name}", std::process::id()));
    let _ = fs::remove_dir_all(&folder);
    fs::create_dir_all(&folder).expect("a folder for a test");
    folder
}

/// Lines of a trace, one moment after the other.
struct Lines {
    all: Vec<String>,
    /// The members that vote.
    voters: [u32; 3],
}

impl Lines {
    fn new(voters: [u32; 3]) -> Lines {
        let all = Vec::new();
        Lines { all, voters }
    }

    fn line(&mut self, member: u32, view: u64, rest: &str) {
        let at = 1000 * self.all.len();
        self.all
            .push(format!(r#"{{"at":{at},"member":{member},"view":{view},"event":{rest}}}"#));
    }

    fn vote(&mut self, members: &[u32], view: u64, kind: &str, proposal: Option<(u64, &str)>) {
        let proposal = proposal.map_or(String::new(), |it| format!(r#","proposal":{}"#, named(it)));
        for member in members {
            self.line(*member, view, &format!(r#""vote","kind":"{kind}"{proposal}"#));
        }
    }

    /// A view whose proposal all members notarize and finalize.
    fn healthy(&mut self, view: u64, proposal: (u64, &str)) {
        self.line((view as u32 - 1) / 2 % 4, view, &format!(r#""build","parent":{}"#, proposal.0));
        self.vote(&self.voters.clone(), view, "notarize", Some(proposal));
        self.vote(&self.voters.clone(), view, "finalize", Some(proposal));
        self.line(0, view, &format!(r#""finalized","proposal":{}"#, named(proposal)));
    }

    fn nullified(&mut self, view: u64, reason: &str) {
        for member in self.voters {
            self.line(member, view, &format!(r#""timeout","reason":"{reason}""#));
        }
        self.vote(&self.voters.clone(), view, "nullify", None);
        self.line(0, view, r#""certificate_made","kind":"nullification","signers":[0,1,2]"#);
    }

    fn text(&self) -> String {
        format!("{HEADER}\n{}\n", self.all.join("\n"))
    }
}

fn named((parent, payload): (u64, &str)) -> String {
    format!(r#"{{"parent":{parent},"payload":"{payload}"}}"#)
}

/// Returns what the page of a trace holds besides its events.
fn data(name: &str, text: &str) -> Value {
    let folder = scratch(name);
    let (trace, page) = (folder.join("run.trace"), folder.join("run.html"));
    fs::write(&trace, text).expect("a disk");
    simplex_view::write(&[trace], &page).expect("a page");
    let html = fs::read_to_string(&page).expect("a page");
    let json = html.split("id=\"data\">").nth(1).and_then(|it| it.split("</script>").next());
    fs::remove_dir_all(folder).expect("a folder");
    serde_json::from_str(json.expect("data")).expect("json")
}

/// The lost views, each with its reason.
fn lost(data: &Value) -> Vec<(u64, String)> {
    let pair = |it: &Value| (it[0].as_u64().expect("a view"), it[1].as_str().expect("a reason").to_owned());
    data["lost"].as_array().expect("a list").iter().map(pair).collect()
}

#[test]
fn lost_views_have_their_reasons() {
    let mut lines = Lines::new([0, 1, 2]);
    lines.healthy(1, (0, "a1a1"));
    lines.healthy(2, (1, "a2a2"));
    // The leader of views 3 and 4 has ended.
    lines.line(1, 0, r#""crash""#);
    lines.nullified(3, "leader_timeout");
    // The leader of views 5 and 6 sends two proposals, and builds on one of them.
    lines.vote(&[0, 2], 5, "notarize", Some((2, "b5b5")));
    lines.vote(&[1], 5, "notarize", Some((2, "c5c5")));
    lines.vote(&[0], 6, "notarize", Some((5, "b6b6")));
    lines.nullified(5, "certification_timeout");
    // The faulty leader of view 7 sends nothing.
    lines.nullified(7, "leader_timeout");
    lines.healthy(9, (2, "a9a9"));
    let data = data("reasons", &lines.text());
    let expected = [
        (3, "leader 1 was down"),
        (4, "the nullification of view 3, in the same term, covers it"),
        (
            5,
            "leader 2 sent two proposals: b5b5 to member 0 and c5c5 to member 1; view 6 was built on it",
        ),
        (6, "it was built on view 5, which is lost"),
        (7, "leader 3, which is faulty, sent no proposal"),
        (8, "the nullification of view 7, in the same term, covers it"),
    ];
    assert_eq!(lost(&data), expected.map(|(view, reason)| (view, reason.to_owned())));
    assert_eq!(data["fates"].to_string(), "[1,1,2,2,2,2,2,2,1]");
    assert_eq!(data["summary"]["finalized"], 3);
}

#[test]
fn members_that_withheld_their_votes_say_why() {
    let mut lines = Lines::new([0, 1, 2]);
    lines.healthy(1, (0, "a1a1"));
    lines.healthy(2, (1, "a2a2"));
    lines.vote(&[1, 2], 3, "notarize", Some((2, "a3a3")));
    lines.line(0, 3, r#""withheld","kind":"notarize","reason":"not_verified""#);
    lines.line(0, 3, r#""withheld","kind":"finalize","reason":"not_notarized""#);
    lines.line(3, 3, r#""withheld","kind":"notarize","reason":"not_verified""#);
    lines.nullified(3, "certification_timeout");
    lines.vote(&[0, 2], 5, "notarize", Some((2, "a5a5")));
    lines.line(1, 5, r#""withheld","kind":"notarize","reason":"no_proposal""#);
    lines.nullified(5, "certification_timeout");
    lines.healthy(7, (2, "a7a7"));
    let lost = lost(&data("withheld", &lines.text()));
    let expected = [
        "2 of 3 votes to notarize were cast: members 0, 3 did not vote for it, since the application has not found the proposal valid",
        "2 of 3 votes to notarize were cast: member 1 did not vote for it, since no proposal was received; \
            member 3 did not vote for it (certification timeout)",
    ];
    let reasons: Vec<&str> = lost.iter().filter(|it| [3, 5].contains(&it.0)).map(|it| &it.1[..]).collect();
    assert_eq!(reasons, expected);
}

#[test]
fn ancestors_of_a_finalized_view_are_final_and_what_follows_is_open() {
    let mut lines = Lines::new([0, 1, 2]);
    lines.vote(&[0, 1, 2], 1, "notarize", Some((0, "a1a1")));
    lines.line(
        0,
        1,
        r#""certificate_made","kind":"notarization","proposal":{"parent":0,"payload":"a1a1"},"signers":[0,1,2]"#,
    );
    lines.healthy(2, (1, "a2a2"));
    lines.vote(&[0], 3, "notarize", Some((2, "a3a3")));
    let data = data("ancestors", &lines.text());
    assert_eq!(data["fates"].to_string(), "[1,1,0]");
    assert_eq!(lost(&data), []);
}

#[test]
fn a_process_that_was_killed_was_down_until_it_came_back() {
    let mut lines = Lines::new([0, 1, 2]);
    lines.healthy(1, (0, "a1a1"));
    lines.healthy(2, (1, "a2a2"));
    lines.voters = [0, 2, 3];
    lines.nullified(3, "leader_timeout");
    lines.healthy(5, (2, "a5a5"));
    let reason = |lines: &Lines| lost(&data("killed", &lines.text()))[0].clone();
    assert_eq!(reason(&lines), (3, "leader 1 sent no proposal in time".to_owned()));
    lines.line(1, 0, r#""resume","entries":3"#);
    assert_eq!(reason(&lines), (3, "leader 1 was down".to_owned()));
}

#[test]
fn text_of_a_trace_ends_no_script_of_the_page() {
    let mut lines = Lines::new([0, 1, 2]);
    lines.healthy(1, (0, "a1a1"));
    lines.line(0, 1, r#""violation","text":"</script><script>alert(1)</script>""#);
    let data = data("script", &lines.text());
    assert_eq!(data["texts"][0], "</script><script>alert(1)</script>");
}

#[test]
fn traces_of_two_networks_and_files_of_others_are_refused() {
    let folder = scratch("refused");
    let [one, other, page] = ["one.trace", "other.trace", "run.html"].map(|it| folder.join(it));
    let mut lines = Lines::new([0, 1, 2]);
    lines.healthy(1, (0, "a1a1"));
    fs::write(&one, lines.text()).expect("a disk");
    fs::write(&other, lines.text().replace("\"members\":4", "\"members\":5")).expect("a disk");
    let said = simplex_view::write(&[one.clone(), other], &page)
        .expect_err("two networks")
        .to_string();
    assert!(said.contains("make a page of each network") && !page.exists(), "{said}");
    fs::write(&page, "years of work").expect("a disk");
    let said = simplex_view::write(&[one], &page).expect_err("no page").to_string();
    assert!(said.contains("name another file"), "{said}");
    assert_eq!(fs::read_to_string(&page).expect("it is there"), "years of work");
    fs::remove_dir_all(folder).expect("a folder");
}
