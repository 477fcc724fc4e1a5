//! Refusals that name what may be meant: the nearest word, the command that is needed, what a file looks like.

use crate::program::{run, run_with, Scrap};
use crate::samples::{AUTOMATON, NAMED, UNMARKED, W};

/// What bytes look like only changes the words behind the refusal.
#[test]
fn texts_without_a_first_line() {
    for (text, words) in [
        (
            "elements 1\n0\nletters 1\n0\nmarks 0\n",
            "it looks like the text of a rule without its first line, `duknavet rule 1`",
        ),
        (
            "\n  states 1 both",
            "it looks like the text of an automaton without its first line, `duknavet automaton 1`",
        ),
        (
            "# one\n\nelements 1 0",
            "it looks like the text of a rule without its first line, `duknavet rule 1`",
        ),
        (
            "propositions 1 \"a\"\nelements 1 0",
            "it looks like a text without its first line, such as `duknavet rule 1`",
        ),
        (
            "marks 0",
            "it looks like the text of a marks section without its first line, `duknavet marks 1`",
        ),
        (
            "States: 1\nStart: 0\nAcceptance: 0 t\n--BODY--\nState: 0 [t] 0\n--END--",
            "it looks like the Hanoi format without its first line, `HOA: v1`",
        ),
        (
            "2 0 0 0 1\n2, 0, 1",
            "it looks like numbers, and a text of them has a first line, such as `duknavet rule 1`",
        ),
        ("<?xml version='1.0'?><rule/>", "it looks like XML or HTML, which is not read"),
        ("{\"elements\": 2}", "it looks like JSON, which is not read"),
        ("[[0, 1], [1, 0]]", "it looks like JSON, which is not read"),
        (
            "rule setters' notes, page 3",
            "it looks like a text, and one begins with `duknavet` and what it is of, `HOA:`, `never`, `u:` or `v:`",
        ),
        (
            "Duknavet rule 1",
            "it looks like a text, and one begins with `duknavet` and what it is of, `HOA:`, `never`, `u:` or `v:`",
        ),
    ] {
        let ran = run_with(&["check", "--as", "rule", "-"], text.as_bytes());
        ran.said(2, "(refusal ");
        assert!(ran.err.ends_with(&format!("); {words}\n")), "{}", ran.err);
    }
    for formula in [
        "[]<>p",
        "<>p",
        "GF a",
        "G (a -> F b)",
        "p U q",
        "!(a && b) || c",
        "[] (p -> <> q)",
        "~p",
        "X X a",
    ] {
        let words = "it looks like a formula, and `duknavet-tool formula` makes a rule of one";
        let ran = run_with(&["summary", "-"], formula.as_bytes());
        ran.said(2, "(refusal ");
        assert!(
            ran.err.ends_with(&format!("); {words}\n")),
            "{formula}: {}",
            ran.err
        );
    }
    // Without `--as` the words stand behind both refusals, once.
    let both = run_with(&["check", "-"], b"elements 1");
    let words = "; it looks like the text of a rule without its first line, `duknavet rule 1`";
    assert_eq!(both.err.matches(words).count(), 1, "{}", both.err);
    let utf_16: Vec<u8> = "\u{feff}duknavet rule 1"
        .encode_utf16()
        .flat_map(u16::to_le_bytes)
        .collect();
    run_with(&["check", "-"], &utf_16).said(
        2,
        "; it looks like a text in UTF-16, and texts are in UTF-8",
    );
}

/// Damaged bytes are told as such, and nothing behind it.
#[test]
fn bytes_have_no_likeness() {
    let file = "(refusal 4, input 1, place 13)\n";
    let ran = run_with(&["strong", "-"], &[W, &[0]].concat());
    assert!(ran.err.ends_with(file), "{}", ran.err);
    let ran = run_with(&["strong", "-"], b"");
    assert!(
        ran.err.ends_with("(refusal 1, input 1, place 0)\n"),
        "{}",
        ran.err
    );
    let ran = run_with(&["strong", "-"], b"\x40\x00");
    assert!(
        ran.err.ends_with("(refusal 1, input 1, place 2)\n"),
        "{}",
        ran.err
    );
}

/// A rule is wanted and an automaton given, in each form.
#[test]
fn the_command_that_makes_a_rule() {
    let makes = "`duknavet-tool automaton` makes a rule of one";
    let text = run_with(&["convert", "-"], AUTOMATON);
    let hoa = run_with(&["convert", "--to", "hoa", "-"], AUTOMATON);
    let claim = b"never { accept: do :: p od }";
    for form in [text.out.as_slice(), &hoa.out, claim] {
        for command in ["strong", "summary", "reduce", "states", "page"] {
            let ran = run_with(&[command, "-"], form);
            let words = format!("standard input: expected a rule, found an automaton; {makes}\n");
            ran.said(2, &words);
        }
    }
    let ran = run_with(&["strong", "-"], AUTOMATON);
    ran.said(2, "(refusal ");
    let words = format!("); it is an automaton, and {makes}\n");
    assert!(ran.err.ends_with(&words), "{}", ran.err);
    // What it names does so.
    let rule = run_with(&["automaton", "-"], AUTOMATON);
    assert_eq!(run_with(&["strong", "-"], &rule.out).printed(0), "strong\n");
    // Elsewhere it is not named.
    run_with(&["automaton", "-"], NAMED.as_bytes())
        .said(2, "standard input: expected an automaton, found a rule\n");
}

#[test]
fn the_nearest_subcommand() {
    for (typed, nearest) in [
        ("chekc", "check"),
        ("ceck", "check"),
        ("equal", ""),
        ("conv", "convert"),
        ("include", "included"),
        ("sumary", "summary"),
        ("automata", "automaton"),
        ("Reduce", "reduce"),
        ("--hlep", "--help"),
        ("--versoin", "--version"),
        ("frobnicate", ""),
        ("", ""),
    ] {
        let expected = match nearest {
            "" => format!("there is no subcommand `{typed}`; --help lists them\n"),
            _ => format!(
                "there is no subcommand `{typed}`; the nearest is `{nearest}`; --help lists them\n"
            ),
        };
        run(&[typed, "-"]).said(3, &expected);
        run(&["help", typed]).said(3, &expected);
    }
    let long = "x".repeat(100_000);
    run(&[&long]).said(3, "; --help lists them\n");
}

#[test]
fn the_nearest_option() {
    for (command, typed, nearest) in [
        ("check", "--az", "; the nearest is `--as`"),
        ("convert", "--leats=3", "; the nearest is `--least`"),
        ("convert", "-to", "; the nearest is `--to`"),
        ("strong", "--hepl", "; the nearest is `--help`"),
        ("follow", "--sate", "; the nearest is `--state`"),
        ("check", "--frobnicate", ""),
    ] {
        let shown = typed.split('=').next().unwrap_or("");
        let expected = format!(
            "{command}: there is no option `{shown}`{nearest}; `duknavet-tool {command} --help` says more\n"
        );
        run(&[command, typed, "-"]).said(3, &expected);
    }
}

/// A letter that is not known, in a lasso, in an event and in a text.
#[test]
fn the_known_letters() {
    let flap = Scrap::holding(NAMED.as_bytes());
    let unknown = "is no letter's name and no number from 0 to 255";
    run(&["member", flap.name(), "u: open  v: ajar"]).said(
        2,
        &format!("the lasso: line 1, column 13: `ajar` {unknown}; the letters are open, shut\n"),
    );
    let followed = run_with(&["follow", flap.name()], b"ajar\n");
    assert_eq!(followed.text(), "not understood\n");
    let words = format!(
        "line 1: `ajar` {unknown}; the letters are open, shut\nduknavet-tool: 1 line refused\n"
    );
    assert!(followed.err.ends_with(&words), "{}", followed.err);
    let text = "duknavet automaton 1 states 1 both letters 2 on \"o f\" transitions 1 0 of 0";
    run_with(&["check", "-"], text.as_bytes())
        .said(2, &format!("`of` {unknown}; the letters are on, \"o f\"\n"));
    let hoa =
        "HOA: v1 Start: 0 AP: 2 \"a\" \"x > 0\" Acceptance: 0 t --BODY-- State: 0 [0] 0 --END--";
    let rule = run_with(&["automaton", "-"], hoa.as_bytes());
    let words = "column 8: `c` is no proposition and no number from 0 to 255; the propositions are a, \"x > 0\"\n";
    run_with(&["member", "-", "v: a & c"], &rule.out).said(2, words);
    // Without names there is nothing to list.
    run_with(&["member", "-", "v: ajar"], W).said(2, &format!("`ajar` {unknown}\n"));
}

/// One thing has no s.
#[test]
fn one_element() {
    let one = Scrap::holding(&[1, 0, 1, 0, 1, 0, 0, 0, 3]);
    let compared = run(&["compare", one.name(), one.name()]);
    let line = "equal: both reduce to the same 1 element\n";
    assert_eq!((compared.status, compared.text()), (0, line));
    let two = Scrap::holding(W);
    let compared = run(&["compare", two.name(), two.name()]);
    let line = "equal: both reduce to the same 2 elements\n";
    assert_eq!((compared.status, compared.text()), (0, line));
    let drawn = run(&["picture", one.name()]);
    assert!(
        drawn
            .printed(0)
            .contains("Product table of a rule with 1 element<"),
        "{}",
        drawn.text()
    );
    let page = run(&["page", one.name()]);
    assert!(page.printed(0).contains("<p>1 linked pair in 1 class.</p>"));
    let unmarked = Scrap::holding(UNMARKED);
    let page = run(&["page", unmarked.name()]);
    assert!(page
        .printed(0)
        .contains("<p>3 linked pairs in 3 classes.</p>"));
}

/// How many states are read stands in the help and in the man page.
#[test]
fn limits() {
    for said in [run(&["automaton", "--help"]), run(&["--man"])] {
        let words: Vec<&str> = said.printed(0).split_whitespace().collect();
        assert!(words.join(" ").contains("at most 4,096 states are read"));
    }
}
