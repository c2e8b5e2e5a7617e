//! The origin of the linked library.

use simplex_view_state::build_info;

#[test]
fn the_library_says_whether_it_is_proved_of_which_commit_and_by_which_kit() {
    let fields: Vec<&str> = build_info().split("; ").collect();
    let [kind, commit, kit] = fields[..] else {
        panic!("three fields: {fields:?}");
    };
    assert!(["proved", "unproved"].contains(&kind), "{kind}");
    let commit = commit.strip_prefix("commit ").expect("a commit").trim_end_matches(" with changes");
    assert!(
        commit == "unknown" || commit.len() == 40 && commit.bytes().all(|it| it.is_ascii_hexdigit()),
        "{commit}"
    );
    assert!(kit.starts_with("kit ") && kit.contains(" logic "), "{kit}");
}
