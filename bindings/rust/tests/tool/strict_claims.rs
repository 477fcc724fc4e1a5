//! Never claims as Spin reads them: `else`, comments, lines that define names, and words with a meaning of their own.

use crate::program::{run_with, Scrap};
use duknavet::exchange::read;
use duknavet::owned;

/// The grade of a lasso by the rule of a claim.
fn grade(claim: &str, u: &[u8], v: &[u8]) -> u8 {
    let automaton = read(claim.as_bytes()).expect(claim).automaton;
    let rule = owned::automaton_rule(&automaton.bytes()).expect(claim);
    owned::member(&rule, u, v).expect(claim).grade
}

#[track_caller]
fn refused(text: &str, words: &str) {
    let ran = run_with(&["automaton", "-"], text.as_bytes());
    ran.said(2, "standard input: ");
    let expected = format!("duknavet-tool: standard input: {words}\n");
    assert_eq!(ran.err, expected, "{text}");
}

/// `else` is where no other choice holds, wherever it stands and however it goes on.
#[test]
fn otherwise() {
    // p again and again without an end: the claim moves to the state that accepts with p, and back without.
    let claim = "never { T0: if :: p -> goto accept :: else -> goto T0 fi;
        accept: if :: else -> goto T0 :: p -> goto accept fi }";
    let foreign = read(claim.as_bytes()).expect("a claim");
    assert_eq!(foreign.propositions, ["p"]);
    assert_eq!(
        (grade(claim, &[], &[0]), grade(claim, &[], &[1, 0])),
        (0, 3)
    );
    // The word that Spin accepts and that had grade 0 as long as `else` was taken for a proposition.
    let never_p = "never { T0: do :: p -> goto T1 :: else -> goto accept od;
        accept: do :: else :: p -> goto T1 od; T1: false }";
    assert_eq!(
        (grade(never_p, &[], &[0]), grade(never_p, &[0], &[1, 0])),
        (3, 0)
    );
    let file = Scrap::holding(never_p.as_bytes());
    let rule = run_with(&["automaton", file.name()], b"");
    let member = run_with(&["member", "-", "v: 0"], rule.printed(0).as_bytes());
    assert_eq!(member.printed(0), "grade 3 turns 1\n");
    // Two propositions: neither, one, or both.
    let neither = "never { accept: do :: p -> goto T1 :: p && q -> goto T1 :: else -> skip :: q -> goto T1 od; T1: false }";
    for (letter, expected) in [(0, 3), (1, 0), (2, 0), (3, 0)] {
        assert_eq!(grade(neither, &[], &[letter]), expected, "{letter}");
    }
    // Alone it always holds, and beside a choice that always holds never.
    assert_eq!(grade("never { accept: do :: else od }", &[], &[0]), 3);
    let hidden = "never { accept: do :: else :: true -> goto T1 od; T1: false }";
    assert_eq!(grade(hidden, &[], &[0]), 0);
    // A choice that ends the claim is another choice, and may be the one that is left.
    let ends = "never { T0: do :: atomic { p -> assert(!(p)) } :: else od }";
    assert_eq!((grade(ends, &[0, 1], &[0]), grade(ends, &[], &[0])), (3, 0));
    let left = "never { T0: do :: p :: atomic { else -> assert(false) } od }";
    assert_eq!((grade(left, &[1, 0], &[1]), grade(left, &[], &[1])), (3, 0));
}

#[test]
fn otherwise_refused() {
    let twice = "never { T0: do :: else -> goto T0\n :: p :: else od }";
    refused(twice, "line 2, column 10: `else` stands twice");
    let within = "never { T0: do :: (else) -> goto T0 od }";
    refused(
        within,
        "line 1, column 20: `else` has another meaning and is no proposition",
    );
    let with = "never { T0: do :: else && p -> goto T0 od }";
    refused(with, "line 1, column 24: expected `od`");
}

/// No reserved word is a proposition or a label.
#[test]
fn reserved_words() {
    let words = "D_proctype _ _last _nr_pr _pid _priority active assert bit bool break byte c_code c_decl c_expr c_state c_track chan \
        d_step do empty enabled eval fi for full get_priority goto hidden if init inline int len local ltl mtype nempty never nfull \
        notrace np_ od of pc_value pid printf printm priority proctype provided return run select set_priority short show timeout trace \
        typedef unless unsigned xr xs";
    for word in words.split_whitespace() {
        let guard = format!("never {{ T0: do :: p && {word} -> goto T0 od }}");
        let expected = "has another meaning and is no proposition";
        refused(&guard, &format!("line 1, column 24: `{word}` {expected}"));
        let label = format!("never {{ {word}: do :: p -> goto {word} od }}");
        let expected = "has another meaning and is no label";
        refused(&label, &format!("line 1, column 9: `{word}` {expected}"));
    }
    // What only begins or ends so is a name.
    for word in ["timeouts", "np", "elses", "U", "always", "xs1", "In"] {
        let claim = format!("never {{ accept: do :: {word} od }}");
        assert_eq!(read(claim.as_bytes()).expect(&claim).propositions, [word]);
    }
}

/// Comments of both kinds, lines that define names of something else, and blanks before a colon.
#[test]
fn passed_over() {
    let plain = "never { T0: do :: p -> goto accept od; accept: do :: q od }";
    let same = [
        "// before\n#define x 1\n\nnever { // here\nT0: do :: p -> goto accept od; accept: do :: q od } // behind",
        "never {\n#define x p && \\\n  q never\n  # define f(p) p /* on\n two lines */\nT0: do :: p -> goto accept od; accept: do :: q od }",
        "/* one /* two */ never { T0: do :: p -> goto accept od; accept: do :: q od }",
        "never { T0 : do :: p -> goto accept od; accept\n/* one */ // two\n: do :: q od }",
        "never { /* // */ T0: do :: p // */ :: x\n -> goto accept od; accept: do :: q od }",
        "never claim{T0:do::p->goto accept;od;accept:do::q;skip od}",
    ];
    let expected = read(plain.as_bytes()).expect("a claim");
    for text in same {
        assert_eq!(read(text.as_bytes()).expect(text), expected, "{text}");
        let file = Scrap::holding(text.as_bytes());
        run_with(&["automaton", file.name()], b"").printed(0);
    }
}

#[test]
fn lines_that_are_refused() {
    let ends = "stands in the claim, and what this line says of it is not read: without the line it has its own meaning";
    let before = "#define x 1\n#define p (y > 0)\nnever { accept: do :: p od }";
    refused(before, &format!("line 2, column 9: `p` {ends}"));
    let within = "never { accept: do ::\n  #  define p(y) y\n p od }";
    refused(within, &format!("line 2, column 13: `p` {ends}"));
    let label = "#define accept T0\nnever { accept: do :: p od }";
    refused(label, &format!("line 1, column 9: `accept` {ends}"));
    let keyword = "#define true 0\nnever { accept: do :: true od }";
    refused(keyword, &format!("line 1, column 9: `true` {ends}"));
    let only = "of the lines that begin with `#` only `#define` is passed over";
    for line in ["#include \"x\"", "#undef x", "#if 0", "#defined x", "#"] {
        let text = format!("never {{\n {line}\nT0: skip }}");
        refused(&text, &format!("line 2, column 2: {only}"));
    }
    refused(
        "never {\n#define \nT0: skip }",
        "line 2, column 9: expected the name that is defined",
    );
    refused(
        "never { /* one\n",
        "line 1, column 9: a comment does not end",
    );
}

/// Words are whole words, and each `if` or `do` has a choice.
#[test]
fn other_forms() {
    for (claim, words) in [
        (
            "never { T0: do :: p -> gotoT0 od }",
            "line 1, column 24: expected `goto`",
        ),
        (
            "never { T0: do :: p -> goto T0 odd }",
            "line 1, column 32: expected `od`",
        ),
        ("never { T0: if fi }", "line 1, column 16: expected `::`"),
        (
            "never { }",
            "line 1, column 9: expected a label with a colon",
        ),
        (
            "never { T0:: do :: p od }",
            "line 1, column 9: expected a label with a colon",
        ),
        (
            "never { T0: do :: p -> goto T-0 od; T: skip }",
            "line 1, column 30: expected `od`",
        ),
        (
            "never { T0: do :: atomic { p -> assert(q) } od }",
            "line 1, column 40: the assertion may hold, and then the claim does not end here",
        ),
    ] {
        refused(claim, words);
    }
}
