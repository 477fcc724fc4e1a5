//! Descriptions, the comments right behind the first line of a text, and rules of several grades made of automata.

use crate::program::{run, run_with, Scrap};
use crate::samples::{AUTOMATON, NAMED, W};
use duknavet::text::read;

const SHUTS: &str = "duknavet rule 1
  #The flap shuts
# again & again.

# This one is no description.
elements
  0 0
  0 1
letters
  open 1
  shut 0
marks
  0 0 proper
";

#[test]
fn descriptions_of_texts() {
    let description = |text: &str| read(text.as_bytes()).expect("a text").1.description;
    assert_eq!(description(NAMED), [" The flap opens again and again."]);
    assert_eq!(description(SHUTS), ["The flap shuts", " again & again."]);
    let before = format!("# before\n\n{}", SHUTS.replace('\n', "\r\n"));
    assert_eq!(description(&before), ["The flap shuts", " again & again."]);
    let none = NAMED.replace("rule 1\n", "rule 1 # beside\n\n");
    assert!(description(&none).is_empty());
}

#[test]
fn descriptions_are_kept() {
    let kept = "duknavet rule 1\n#The flap shuts\n# again & again.\nelements 2\n";
    for words in [
        &["reduce", "-"][..],
        &["reduce", "-", "--letters", "sorted"],
        &["complement", "-"],
        &["convert", "-", "--to", "text"],
        &["letters", "-", "--order", "shut,open"],
    ] {
        let ran = run_with(words, SHUTS.as_bytes());
        assert!(
            ran.printed(0).starts_with(kept),
            "{words:?}: {}",
            ran.text()
        );
    }
    let bytes = run_with(&["reduce", "-", "--to", "bytes"], SHUTS.as_bytes());
    assert_eq!(bytes.out.first(), Some(&2));
    let automaton = "duknavet automaton 1\n# Anything.\npropositions p\nstates\n both\nletters\ntransitions\n 0 p 0\n 0 !p 0\n";
    let again = run_with(&["convert", "--to", "text", "-"], automaton.as_bytes());
    assert!(again
        .printed(0)
        .starts_with("duknavet automaton 1\n# Anything.\npropositions 1 \"p\"\nstates 1\n"));
}

#[test]
fn descriptions_of_two() {
    let first = Scrap::holding(NAMED.as_bytes());
    let combined = |how: &str, second: &[u8]| {
        let ran = run_with(&["combine", how, first.name(), "-"], second);
        ran.text().to_string()
    };
    let both = combined("both", SHUTS.as_bytes());
    let lines = "duknavet rule 1\n# both of:\n#   The flap opens again and again.\n#  The flap shuts\n#   again & again.\nelements 3\n";
    assert!(both.starts_with(lines), "{both}");
    let either = combined("either", W);
    let lines = "duknavet rule 1\n# either of:\n#   The flap opens again and again.\n#   a rule without a description\nelements ";
    assert!(either.starts_with(lines), "{either}");
    let without = combined("without", both.as_bytes());
    let lines = "duknavet rule 1\n# the first without the second of:\n#   The flap opens again and again.\n#   both of:\n#     The flap opens";
    assert!(without.starts_with(lines), "{without}");
}

#[test]
fn descriptions_are_shown() {
    let shown = run_with(&["show", "-"], SHUTS.as_bytes());
    let lines = "A strong rule.\n\n The flap shuts\n  again & again.\n\n  · | 0 1 | first word\n";
    assert!(shown.printed(0).starts_with(lines), "{}", shown.text());
    let page = run_with(&["page", "-", "--title", "Flap"], SHUTS.as_bytes());
    let lines = "<h1>Flap</h1>\n<p>The flap shuts<br>\nagain &amp; again.</p>\n<p>2 elements";
    assert!(page.printed(0).contains(lines), "{}", page.text());
    let automaton =
        "duknavet automaton 1\n# Anything.\nstates 1 both letters 1 transitions 1 0 0 0\n";
    let shown = run_with(&["show", "-"], automaton.as_bytes());
    assert!(shown
        .printed(0)
        .starts_with("A Büchi automaton.\n\n  Anything.\n\nState 0"));
}

/// Of three automata one rule with a grade for each.
#[test]
fn grades_of_automata() {
    // The proposition holds again and again, at last for ever, or at all.
    let hoa = |states: &str| {
        Scrap::holding(
            format!(
                "HOA: v1\nStart: 0\nAP: 1 \"p\"\nAcceptance: 1 Inf(0)\n--BODY--\n{states}--END--\n"
            )
            .as_bytes(),
        )
    };
    let for_ever = hoa("State: 0\n[t] 0\n[0] 1\nState: 1 {0}\n[0] 1\n");
    let again = hoa("State: 0\n[!0] 0\n[0] 0 {0}\n");
    let once = hoa("State: 0\n[!0] 0\n[0] 1\nState: 1 {0}\n[t] 1\n");
    let rule = |automaton: &Scrap, grade: &str| {
        let ran = run(&["automaton", "--grade", grade, automaton.name()]);
        Scrap::holding(ran.printed(0).as_bytes())
    };
    let either = |first: &Scrap, second: &Scrap| {
        let ran = run(&["combine", "either", first.name(), second.name()]);
        Scrap::holding(ran.printed(0).as_bytes())
    };
    let lower = either(&rule(&again, "2"), &rule(&once, "1"));
    let graded = either(&rule(&for_ever, "3"), &lower);
    for (lasso, grade) in [
        ("u: !p  v: p", 3),
        ("v: p !p", 2),
        ("u: p  v: !p", 1),
        ("v: !p", 0),
    ] {
        let member = run(&["member", graded.name(), lasso]);
        assert!(
            member.text().starts_with(&format!("grade {grade} ")),
            "{lasso}: {member:?}"
        );
    }
    for grade in ["0", "4", "x"] {
        run_with(&["automaton", "-", "--grade", grade], AUTOMATON)
            .said(3, "`--grade` takes a number from 1 to 3");
    }
    let ran = run_with(&["automaton", "-", "--grade", "1"], AUTOMATON);
    let whole = run_with(&["automaton", "-"], AUTOMATON);
    let thirds: Vec<u8> = whole
        .out
        .iter()
        .enumerate()
        .map(|(at, byte)| match at {
            17 | 20 => 1,
            _ => *byte,
        })
        .collect();
    assert_eq!((ran.status, ran.out), (0, thirds));
}
