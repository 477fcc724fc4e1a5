//! Never claims, and texts of other tools that are not read.

use crate::program::run_with;
use crate::random::Random;
use crate::samples::W;
use duknavet::exchange::read;
use duknavet::owned;
use duknavet::witness::{compare, Comparison};

#[test]
fn never_claims() {
    let again = "never  {    /* []<>p */
T0_init:
\tdo
\t:: ((p)) -> goto accept_S9
\t:: (1) -> goto T0_init
\tod;
accept_S9:
\tdo
\t:: (1) -> goto T0_init
\tod;
}
";
    let foreign = read(again.as_bytes()).expect("a claim");
    assert_eq!(foreign.propositions, ["p"]);
    assert_eq!(foreign.notes(), ["letter 0: !p", "letter 1: p"]);
    let rule = owned::automaton_rule(&foreign.automaton.bytes()).expect("a rule");
    // W with its letters exchanged.
    let exchanged = [2, 0, 0, 0, 1, 2, 1, 0, 1, 0, 0, 0, 3];
    assert!(matches!(
        compare(&rule, &exchanged),
        Ok(Comparison::EqualReductions(_))
    ));
    assert!(matches!(compare(&rule, W), Ok(Comparison::Different(_))));
    // Two labels of one state, an end by assertion, and a state that accepts everything from then on.
    let grade = |claim: &str, u: &[u8], v: &[u8]| {
        let automaton = read(claim.as_bytes()).expect(claim).automaton;
        let rule = owned::automaton_rule(&automaton.bytes()).expect(claim);
        owned::member(&rule, u, v).expect(claim).grade
    };
    let always = "never { accept_init: T0_init: do :: ((p)) -> goto T0_init od; }";
    assert_eq!(
        (grade(always, &[], &[1]), grade(always, &[1], &[0])),
        (3, 0)
    );
    let ends = "never { T0: do :: atomic { ((p)) -> assert(!((p))) } :: (1) -> goto T0 od; }";
    assert_eq!((grade(ends, &[0, 1], &[0]), grade(ends, &[], &[0])), (3, 0));
    let all = "never { T0: if :: (p && !q) || q -> goto accept_all fi; accept_all: skip }";
    assert_eq!((grade(all, &[2], &[0]), grade(all, &[0], &[1])), (3, 0));
}

#[test]
fn texts_that_are_not_read() {
    let head = "HOA: v1\nStart: 0\nAP: 1 \"a\"\n";
    for (text, expected) in [
        (
            "HOA: v2".to_string(),
            "line 1, column 6: expected the version v1",
        ),
        (
            format!("{head}--BODY--\n--END--"),
            "there is no `Acceptance:`",
        ),
        (
            format!("{head}Acceptance: 2 Inf(0)&Inf(1)\n--BODY--"),
            "line 4, column 13: only Büchi acceptance is read",
        ),
        (
            "HOA: v1\nAP: 5 \"a\"".to_string(),
            "line 2, column 1: 5 propositions, but letters have room for 4",
        ),
        (
            format!("{head}Acceptance: 1 Inf(0)\n--BODY--\nState: 0\n[7] 0\n--END--"),
            "line 7, column 2: expected `t`, `f`, an alias",
        ),
        (
            format!("{head}Acceptance: 1 Inf(0)\n--BODY--\nState: 0\n[0] 0&1\n--END--"),
            "line 7, column 6: alternating automata are not read",
        ),
        (
            format!("{head}Acceptance: 1 Inf(0)\n--BODY--\nState: 0 {{1}}\n--END--"),
            "there is only the acceptance set 0",
        ),
        (
            format!("{head}duknavet-letters: 3\nAcceptance: 1 Inf(0)\n--BODY--\n--END--"),
            "line 4, column 1: 3 letters, but there are 2 valuations",
        ),
        (
            format!("{head}Fairness: 3\n"),
            "line 4, column 1: `Fairness:` is not read here",
        ),
        (
            format!("HOA: v1\nAP: 1 \"a\" Alias: @x {}", "(".repeat(9999)),
            "too deep",
        ),
        (
            "never { T0: do :: p -> goto T1 od }".to_string(),
            "line 1, column 29: there is no label T1",
        ),
        (
            "never { T0: do :: p -> goto T0 od; T0: skip }".to_string(),
            "the label T0 stands twice",
        ),
        (
            "never { T0: do :: a || b || c || d || e -> goto T0 od }".to_string(),
            "a fifth proposition",
        ),
        (
            "never { T0: do :: x == 1 -> goto T0 od }".to_string(),
            "line 1, column 21: expected `od`",
        ),
        (
            "never { T0: while }".to_string(),
            "line 1, column 13: expected `if`, `do`, `skip` or `false`",
        ),
    ] {
        run_with(&["automaton", "-"], text.as_bytes()).said(2, expected);
    }
}

/// Any text that begins as one of the formats is read or has an error, and nothing panics.
#[test]
fn any_text() {
    let mut random = Random::new(1003);
    let words = [
        "HOA: v1",
        "never {",
        "States:",
        "Start:",
        "AP:",
        "Alias:",
        "@x",
        "Acceptance:",
        "1 Inf(0)",
        "0 t",
        "--BODY--",
        "--END--",
        "State:",
        "[",
        "]",
        "{",
        "}",
        "0",
        "1",
        "99999999999999999999999",
        "\"",
        "\\",
        "!",
        "&",
        "|",
        "(",
        ")",
        "/*",
        "*/",
        "T0:",
        "do",
        "od",
        "if",
        "fi",
        "::",
        "->",
        "goto",
        "p",
        "skip",
        ";",
        "atomic",
        "assert",
        "\n",
        "é",
        ":",
    ];
    let (mut good, mut bad) = (0, 0);
    for round in 0..20_000 {
        let mut text = String::from(*random.pick(&["HOA: v1 ", "never { "]));
        if round % 2 == 0 {
            text.push_str("Start: 0 AP: 1 \"a\" Acceptance: 1 Inf(0) --BODY-- ");
        }
        for _ in 0..random.below(14) {
            text.push_str(random.pick::<&str>(&words));
            text.push_str(random.pick::<&str>(&[" ", ""]));
        }
        text.push_str(random.pick::<&str>(&["--END--", "}", ""]));
        match read(text.as_bytes()) {
            Ok(_) => good += 1,
            Err(_) => bad += 1,
        }
    }
    assert!(good > 50 && bad > 5_000, "{good} and {bad}");
}
