//! Names by which a reader finds things: a call's crate, and the definitions of the promises.

use std::collections::BTreeMap;

use super::reading::code::Code;
use super::reading::repository::Repository;

/// The crates whose definitions say what is promised.
const PROMISES: [&str; 6] = [
    "answer",
    "formats",
    "promises",
    "temporal_promises",
    "formula_promises",
    "board_promises",
];

/// Searches store things, and a name stores a history: the one name that both keep.
const SHARED: [&str; 1] = ["Stored"];

#[test]
fn each_call_stands_in_a_crate_that_ends_so() {
    let repository = Repository::here();
    let face = repository.text("rules/src/lib.rt").expect("the face");
    let code = Code::read(face);
    let passed = code.imports.iter().filter(|import| import.passed_on);
    let calls = passed.map(|import| (import.home.as_str(), import.item.as_str()));
    let calls =
        calls.filter(|(_, name)| name.starts_with(|first: char| first.is_ascii_lowercase()));
    let (found, others): (Vec<_>, Vec<_>) = calls.partition(|(home, _)| home.ends_with("_call"));
    assert!(found.len() > 25, "{found:?}");
    // The number of a refusal stands beside the refusals.
    assert_eq!(others, [("answer", "number")]);
}

/// The names that a file of definitions declares at its margin.
fn declared(text: &str) -> impl Iterator<Item = &str> {
    text.lines().filter_map(|line| {
        let mut words = line.split_whitespace().peekable();
        let mut public = false;
        let mut kind = false;
        if line.starts_with(char::is_whitespace) {
            return None;
        }
        while let Some(word @ ("pub" | "record" | "data" | "abbrev" | "unfoldable")) =
            words.peek().copied()
        {
            public |= word == "pub";
            kind |= word != "pub";
            words.next();
        }
        (public && kind).then(|| words.next()).flatten()
    })
}

fn doubled(repository: &Repository) -> Vec<String> {
    let mut homes: BTreeMap<&str, Vec<&str>> = BTreeMap::new();
    let files = repository.ending(".antt");
    for (path, text) in files.filter(|(path, _)| path.contains("/specs/")) {
        for name in declared(text) {
            homes.entry(name).or_default().push(path);
        }
    }
    let promised = |path: &&str| PROMISES.contains(&path.split('/').next().unwrap_or(""));
    let twice = homes.into_iter().filter(|(name, paths)| {
        paths.len() > 1 && paths.iter().any(|path| promised(path)) && !SHARED.contains(name)
    });
    twice
        .map(|(name, paths)| format!("{name}: {paths:?}"))
        .collect()
}

#[test]
fn a_name_of_the_promises_stands_once() {
    assert_eq!(doubled(&Repository::here()), Vec::<String>::new());
}

#[test]
fn a_name_that_stands_twice_is_told() {
    let repository = Repository::made_up(&[
        ("promises/specs/Moves.antt", "abbrev pub event_checks : ℕ\n"),
        (
            "board/specs/Checks.antt",
            "pub record event_checks : Type 0 where\n  pub at : ℕ\n",
        ),
        ("board/specs/Other.antt", "pub record Own : Type 0 where\n"),
        ("rules/specs/Other.antt", "pub record Own : Type 0 where\n"),
    ]);
    let told = doubled(&repository);
    assert!(
        told.len() == 1 && told[0].starts_with("event_checks: "),
        "{told:?}"
    );
}
