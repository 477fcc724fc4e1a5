//! Each subcommand on good, refused and damaged input.

use crate::program::{run, run_with, Scrap};
use crate::samples::{AUTOMATON, GRADED, NAMED, NOT_ASSOCIATIVE, W, Z};

#[test]
fn check() {
    assert_eq!(
        run_with(&["check", "-"], W).printed(0),
        "rule elements 2 letters 2 marks 1\n"
    );
    let printed = "automaton states 2 letters 2 transitions 4\n";
    assert_eq!(run_with(&["check", "-"], AUTOMATON).printed(0), printed);
    let words = "standard input: (0·0)·1 = 0 but 0·(0·1) = 1 (refusal 5, input 1, place 1)";
    run_with(&["check", "-"], NOT_ASSOCIATIVE).said(2, words);
    let both = run_with(&["check", "-"], &W[..7]);
    both.said(
        2,
        "as a rule: the file ends at byte 7, within the letters' elements: 1 of 2",
    );
    both.said(2, "as an automaton: ");
    run_with(&["check", "-", "--as", "rule"], &AUTOMATON[..9])
        .said(2, "(refusal 3, input 1, place 2)");
    run_with(&["check", "-", "--as=automaton"], W).said(2, "(refusal 2, input 1, place 3)");
    run_with(&["check", "-"], b"duknavet marks 1\nmarks 0\n").said(3, "passes only beside a rule");
}

#[test]
fn summary() {
    let line = "elements 2 letters 2 marks 1 linked 3 classes 3 strong 1 reduced 2\n";
    assert_eq!(run_with(&["summary", "-"], W).printed(0), line);
    assert_eq!(
        run_with(&["summary", "-"], NAMED.as_bytes()).printed(0),
        line
    );
    let line = "elements 2 letters 2 marks 1 linked 2 classes 1 strong 0 reduced 0\n";
    assert_eq!(run_with(&["summary", "-"], Z).printed(0), line);
    run_with(&["summary", "-"], NOT_ASSOCIATIVE).said(2, "refusal 5");
    run_with(&["summary", "-"], b"").said(2, "the file is empty (refusal 1, input 1, place 0)");
}

#[test]
fn strong() {
    assert_eq!(run_with(&["strong", "-"], W).printed(0), "strong\n");
    let weak = "weak\ngrade 3 values 1 0  u: 0  v: 0 0\ngrade 0 values 1 0  u: 0  v: 1\n";
    assert_eq!(run_with(&["strong", "-"], Z).printed(1), weak);
    run_with(&["strong", "-"], NOT_ASSOCIATIVE).said(2, "refusal 5");
    run_with(&["strong", "-"], &Z[..12]).said(2, "within the marks: 2 of 3 bytes are there");
}

#[test]
fn member() {
    let rule = Scrap::holding(NAMED.as_bytes());
    let asked = |lasso: &str| run(&["member", rule.name(), lasso]);
    assert_eq!(asked("u: shut  v: open").printed(0), "grade 3 turns 1\n");
    assert_eq!(asked("v: 0").printed(0), "grade 3 turns 1\n");
    assert_eq!(asked("u: 0 v: 1").printed(1), "grade 0 turns 1\n");
    let words =
        "letter 5 at position 2 of v: the rule has 2 letters (refusal 10, input 2, place 2)";
    asked("u: 0  v: 0 1 5").said(2, words);
    asked("u: 0  v:").said(2, "v has no letter (refusal 11, input 2, place 0)");
    asked("u: 0  v: left").said(
        2,
        "the lasso: line 1, column 10: `left` is no letter's name",
    );
    asked("u: 0 u: 0").said(2, "line 1, column 6: expected `v:`, found `u:`");
    let long = format!("u: {} v: 0", "0 ".repeat(4225));
    asked(&long).said(
        2,
        "u has 4225 letters, more than 4224 (refusal 11, input 1, place 0)",
    );
    let graded = Scrap::holding(GRADED);
    let least = |least: &str| run(&["member", "--least", least, graded.name(), "u: 0 v: 1"]);
    assert_eq!(least("2").printed(0), "grade 2 turns 1\n");
    assert_eq!(least("3").printed(1), "grade 2 turns 1\n");
    least("4").said(3, "`--least` takes a number from 1 to 3");
    run_with(&["member", "-", "v: 0"], NOT_ASSOCIATIVE).said(2, "refusal 5");
    let file = Scrap::holding(b"duknavet lasso 1\n# a start\nu: shut\nv: open\n");
    assert_eq!(asked(file.name()).printed(0), "grade 3 turns 1\n");
    run(&["member", "-", "-"]).said(3, "`-` stands twice");
}

#[test]
fn classes() {
    let printed = "linked 3 classes 3 joins 0\n(0, 0)\n(0, 1)\n(1, 1)\n";
    assert_eq!(run_with(&["classes", "-"], W).printed(0), printed);
    let printed = "linked 2 classes 1 joins 1\n(0, 0) (1, 0)\n";
    assert_eq!(run_with(&["classes", "-"], Z).printed(0), printed);
    run_with(&["classes", "-"], NOT_ASSOCIATIVE).said(2, "refusal 5");
    run_with(&["classes", "-"], &[65]).said(2, "the file has 65 elements, not 1 to 64");
}

#[test]
fn complement() {
    let expected = [2, 0, 0, 0, 1, 2, 0, 1, 2, 0, 0, 1, 3, 1, 1, 3];
    let ran = run_with(&["complement", "-"], W);
    assert_eq!((ran.status, ran.out.as_slice()), (0, expected.as_slice()));
    let text = run_with(&["complement", "-"], NAMED.as_bytes());
    let printed = "duknavet rule 1\n# The flap opens again and again.\nelements 2\n  0 0\n  0 1\nletters 2\n  open 0\n  shut 1\nmarks 2\n  0 1 proper\n  1 1 proper\n";
    assert_eq!(text.printed(0), printed);
    let ran = run_with(&["complement", "-", "--to", "bytes"], NAMED.as_bytes());
    assert_eq!((ran.status, ran.out.as_slice()), (0, expected.as_slice()));
    let why = "the rule is weak: u: 0  v: 0 0 has grade 3, but u: 0  v: 1 has grade 0, both with the values 1 and 0";
    run_with(&["complement", "-"], Z).said(2, why);
    run_with(&["complement", "-"], &[W, &[0]].concat()).said(2, "1 byte too many follows");
    run_with(&["complement", "-", "--to", "ink"], W).said(3, "`--to` takes one of bytes, text");
}

#[test]
fn included() {
    let rule = Scrap::holding(GRADED);
    let asked = |second: &[u8]| run_with(&["included", rule.name(), "-"], second);
    assert_eq!(
        asked(&[3, 0, 0, 0, 3, 0, 1, 3, 1, 1, 3]).printed(0),
        "included\n"
    );
    assert_eq!(
        asked(&[1, 0, 0, 0, 3]).printed(1),
        "u: 0  v: 1\ngrades 2 0\n"
    );
    let text = b"duknavet marks 1\nmarks 1\n 0 0 proper\n";
    assert_eq!(asked(text).printed(1), "u: 0  v: 1\ngrades 2 0\n");
    let words = "mark 0, the pair (1, 0), is not linked: 1·0 = 0 (refusal 7, input 2, place 2)";
    asked(&[1, 0, 1, 0, 3]).said(2, words);
    let placed = "standard input: line 3, column 2: mark 0, the pair (1, 0), is not linked";
    asked(b"duknavet marks 1\nmarks 1\n 1 0 proper\n").said(2, placed);
    asked(&[1, 0, 0]).said(
        2,
        "within the marks: 1 of 3 bytes are there (refusal 1, input 2, place 3)",
    );
    asked(b"duknavet map 1\n0").said(2, "expected a marks section or a rule, found a map");
    let automaton = b"HOA: v1\nStates: 1\nStart: 0\nAP: 0\nAcceptance: 1 Inf(0)\n--BODY--\nState: 0 {0}\n[t] 0\n--END--\n";
    asked(automaton).said(
        2,
        "found an automaton; `duknavet-tool automaton` makes a rule of one",
    );
}

#[test]
fn reduce() {
    let all = [2, 0, 0, 0, 1, 2, 0, 1, 3, 0, 0, 0, 3, 0, 1, 3, 1, 1, 3];
    let ran = run_with(&["reduce", "-"], &all);
    assert_eq!(
        (ran.status, ran.out),
        (0, vec![1, 0, 2, 0, 0, 1, 0, 0, 0, 3])
    );
    let text = run_with(&["reduce", "-", "--to", "text"], &all);
    assert!(text
        .printed(0)
        .starts_with("duknavet rule 1\nelements 1\n  0\nletters 2\n"));
    run_with(&["reduce", "-"], Z).said(2, "refusal 12");
    run_with(&["reduce", "-"], AUTOMATON).said(2, "refusal 3");
}

#[test]
fn automaton() {
    let ran = run_with(&["automaton", "-"], AUTOMATON);
    let rule = [
        3, 0, 2, 2, 0, 1, 2, 0, 2, 2, 2, 0, 1, 2, 0, 0, 0, 3, 2, 2, 3,
    ];
    assert_eq!((ran.status, ran.out.as_slice()), (0, rule.as_slice()));
    run_with(&["automaton", "-"], &[7]).said(2, "the file has 7 states, not 1 to 6");
    run_with(&["automaton", "-"], &AUTOMATON[..17]).said(2, "11 of 12 bytes are there");
    let twice = "duknavet automaton 1\nstates 1\n both\nletters 1\ntransitions 2\n 0 0 0\n 0 0 0\n";
    let words =
        "line 7, column 2: transition 1, from 0 by letter 0 to 0, stood before as transition 0";
    run_with(&["automaton", "-"], twice.as_bytes()).said(2, words);
    run_with(&["automaton", "-"], NAMED.as_bytes()).said(2, "expected an automaton, found a rule");
}

#[test]
fn feed() {
    let rule = Scrap::holding(NAMED.as_bytes());
    let fed = |log: &[u8]| run_with(&["feed", rule.name(), "-"], log);
    let log = b"shut\n# a comment\n\nmark\nopen\nevent shut\n";
    let followed = run_with(&["follow", rule.name()], log);
    let graded = fed(log);
    let graded = graded.printed(0);
    assert_eq!(graded.lines().next(), followed.printed(0).lines().last());
    let verdict = run_with(&["follow", rule.name()], &[&log[..], b"verdict\n"].concat());
    assert_eq!(graded.lines().last(), verdict.printed(0).lines().last());
    assert_eq!(fed(b"").printed(0), "before none since none\n");
    fed(b"open\n\nslam\n").said(2, "standard input: line 3: ");
    fed(b"open\nverdict\n").said(2, "line 2: a line of a log is an event or mark");
    fed(b"open\n\xff\n").said(2, "line 2: it is no UTF-8");
    let numbers = Scrap::holding(W);
    let foreign = run_with(&["feed", numbers.name(), "-"], b"0\nmark\n1\n1\n7\n0\n");
    foreign.said(2, "line 5: letter 7 at position 2 of the word");
    run(&["feed", "-", "-"]).said(3, "standard input is the rule or the log");
    // A weak rule is fed too; it has no grades.
    let weak = Scrap::holding(Z);
    let answer = run_with(&["feed", weak.name(), "-"], b"0\n0\n0\n");
    assert_eq!(answer.printed(0).lines().count(), 1);
    let column = run_with(
        &["feed", numbers.name(), "-", "--field", "-1"],
        b"08:00 flap 0\n08:01 flap 1\n",
    );
    assert_eq!(
        column.printed(0),
        run_with(&["feed", numbers.name(), "-"], b"0\n1\n").printed(0)
    );
}

/// More events than one call is fed, as the letters alone would come out.
#[test]
fn a_long_log_is_fed_in_parts() {
    let rule = Scrap::holding(Z);
    let line = |i: usize| if i % 3 == 0 { "0\n" } else { "1\n" };
    let log: String = (0..2_500_000).map(line).collect();
    let zeros = (0..2_500_000).filter(|i| i % 3 == 0).count();
    let fed = run_with(&["feed", rule.name(), "-"], log.as_bytes());
    let expected = run_with(
        &["feed", rule.name(), "-"],
        "0\n".repeat(2 + zeros % 2).as_bytes(),
    );
    assert_eq!(fed.printed(0), expected.printed(0));
}

#[test]
fn stretch() {
    let asked = |lasso: &str, position: &str| run(&["stretch", lasso, position]);
    assert_eq!(asked("u: 1 0  v: 0 1 2", "1").printed(0), "0\n");
    assert_eq!(asked("u: 1 0  v: 0 1 2", "2").printed(0), "0 1 2\n");
    assert_eq!(asked("u: 1 0  v: 0 1 2", "1000000003").printed(0), "2\n");
    assert_eq!(asked("u: 1 0  v:", "1").printed(0), "\n");
    asked("u: 1 0  v: 0", "-1").said(3, "there is no option `-1`");
    asked("u: 1 0  v: 0", "two").said(3, "`two` is no position");
    asked("u: 1 0", "2").said(2, "expected `v:`, found the end");
    let rule = Scrap::holding(NAMED.as_bytes());
    let named = run(&["stretch", "--rule", rule.name(), "v: open shut", "3"]);
    assert_eq!(named.printed(0), "shut\n");
}

#[test]
fn convert() {
    let text = run_with(&["convert", "-"], W);
    let back = run_with(&["convert", "-"], text.printed(0).as_bytes());
    assert_eq!((back.status, back.out.as_slice()), (0, W));
    let named = run_with(&["convert", "-", "--to", "text"], NAMED.as_bytes());
    assert!(named.printed(0).contains("  open 0\n"));
    let mended = run_with(&["convert", "-"], NOT_ASSOCIATIVE);
    assert!(mended.printed(0).contains("  1 0\n  0 0\n"));
    run_with(&["convert", "-", "--as", "rule"], &W[..12]).said(2, "refusal 1");
    run_with(&["convert", "-", "--as", "marks"], &[1]).said(2, "within the count of the marks");
    assert_eq!(
        run_with(&["convert", "-"], b"u:1  v:0").printed(0),
        "u: 1  v: 0\n"
    );
    run_with(&["convert", "-", "--as", "automaton"], NAMED.as_bytes()).said(2, "found a rule");
    let unknown =
        "line 1, column 10: expected `rule`, `automaton`, `marks`, `map` or `lasso`, found `poem`";
    run_with(&["convert", "-"], b"duknavet poem 1\n").said(2, unknown);
    run_with(&["convert", "-"], b"duknavet rule 2\n").said(2, "line 1, column 15: expected `1`");
}

#[test]
fn show() {
    let shown = run_with(&["show", "-"], NAMED.as_bytes());
    let shown = shown.printed(0);
    assert!(shown.starts_with("A strong rule.\n"));
    assert!(shown.contains("  1 | 0 1 | shut\n"), "{shown}");
    assert!(shown.contains("  (0, 0) has grade 3, proper\n"));
    let automaton = run_with(&["show", "-"], AUTOMATON);
    assert!(automaton
        .printed(0)
        .contains("State 1, final\n  0 to 1\n  1 to 0\n"));
    run_with(&["show", "-"], NOT_ASSOCIATIVE).said(2, "refusal 5");
}

#[test]
fn compare() {
    let first = Scrap::holding(W);
    let asked = |second: &[u8]| run_with(&["compare", first.name(), "-"], second);
    assert_eq!(
        asked(AUTOMATON).printed(0),
        "equal: both reduce to the same 2 elements\n"
    );
    assert_eq!(asked(GRADED).printed(1), "u:  v: 1\ngrades 0 1\n");
    assert_eq!(asked(Z).printed(1), "u:  v: 1\ngrades 0 3\n");
    asked(&[1, 0, 1, 0, 0, 0]).said(2, "the first has 2 letters and the second 1");
    asked(NOT_ASSOCIATIVE).said(2, "standard input: (0·0)·1");
    let second = Scrap::holding(Z);
    let same = run_with(&["compare", second.name(), "-"], Z);
    assert_eq!(same.printed(0), "equal: neither grades a lasso higher\n");
}
