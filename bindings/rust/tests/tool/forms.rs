//! Bytes and texts, rules and automata are told apart, never by a guess.

use crate::inputs::automata;
use crate::program::{run_with, Scrap};
use crate::random::Random;
use crate::samples::{remainders, rule, NAMED, W};
use duknavet::exchange::format;
use duknavet::owned;
use duknavet::text::kind;
use duknavet::{Operation, Refusal};

/// No bytes that begin as a text do are a rule, an automaton or a marks section: a call refuses their first count.
#[test]
fn what_begins_as_a_text_is_no_file() {
    let beginnings: [&[u8]; 6] = [b"duknavet ", b"HOA:", b"never ", b"never{", b"u:", b"v:"];
    let table = [1, 0, 1, 0, 0, 0];
    for beginning in beginnings {
        assert!(kind(beginning).is_some() || format(beginning).is_some());
        for length in [0, 1, 100, 20_000] {
            let bytes = [beginning, &vec![0; length]].concat();
            let first_count = |refused: duknavet::Refused, input: u8| {
                let expected = (Refusal::CountOutOfRange, input, 0);
                assert_eq!((refused.refusal, refused.input, refused.place), expected);
            };
            first_count(owned::strong(&bytes).expect_err("no rule").refused, 1);
            first_count(
                owned::automaton_rule(&bytes)
                    .expect_err("no automaton")
                    .refused,
                1,
            );
            first_count(
                owned::combine(&table, &bytes, Operation::Both)
                    .expect_err("no rule")
                    .refused,
                2,
            );
            first_count(
                owned::included(&table, &bytes)
                    .expect_err("no marks")
                    .refused,
                2,
            );
        }
    }
}

/// What begins almost as a text does is bytes, and refused as such.
#[test]
fn what_begins_otherwise_is_bytes() {
    for beginning in [
        "d",
        "duknavet",
        "duknavet\t",
        "Duknavet ",
        "H",
        "HOA",
        "HOA :",
        "never",
        "nevermore",
        "u",
        "v ",
        " u:",
        "#",
        "# duknavet rule 1",
        "/* HOA: v1",
        "/* one */ two",
        "\u{feff}",
        "\u{feff}\u{feff}duknavet rule 1",
        "\u{feff} duknavet rule 1",
        "#one \\\nnever {",
    ] {
        assert_eq!(kind(beginning.as_bytes()).map(|_| ()), None, "{beginning}");
        assert_eq!(format(beginning.as_bytes()), None, "{beginning}");
        run_with(&["check", "-", "--as", "rule"], beginning.as_bytes()).said(2, "(refusal ");
    }
    let words = "the file has 100 elements, not 1 to 64 (refusal 2, input 1, place 0)";
    run_with(&["summary", "-"], b"duknavet").said(2, words);
}

/// A byte order mark, blank lines and comments are passed over where the first line of a text follows, and places count
/// without the mark.
#[test]
fn what_may_stand_before_a_text() {
    let lasso = Scrap::holding("\u{feff}\n# a week\nu: 0  v: 1\n".as_bytes());
    let rule = Scrap::holding(W);
    let graded = run_with(&["member", rule.name(), lasso.name()], b"");
    assert_eq!(graded.printed(1), "grade 0 turns 1\n");
    let hoa =
        "HOA: v1 Start: 0 AP: 1 \"a\" Acceptance: 1 Inf(0) --BODY-- State: 0 {0} [!0] 0 --END--";
    let claim = "never { accept: do :: !a od }";
    let expected = "automaton states 1 letters 2 transitions 1\n";
    for before in [
        "",
        "\u{feff}",
        "\n \t\r\n",
        "/* one\n two */ ",
        "\u{feff}\n/* one */\n\n/* two */",
    ] {
        for text in [hoa, claim] {
            let text = format!("{before}{text}");
            assert_eq!(
                run_with(&["check", "-"], text.as_bytes()).printed(0),
                expected
            );
        }
    }
    for before in [
        "// one\n",
        "#define b 1 \\\n + 2\n",
        "\u{feff}// one\r\n\r\n#define b\n/* two */",
    ] {
        let text = format!("{before}{claim}");
        assert_eq!(
            run_with(&["check", "-"], text.as_bytes()).printed(0),
            expected
        );
    }
    for before in ["\u{feff}", "\n\n", "# one\n", "\u{feff}#\n \n## two\n"] {
        let text = format!("{before}{NAMED}");
        let checked = run_with(&["check", "-"], text.as_bytes());
        assert_eq!(checked.printed(0), "rule elements 2 letters 2 marks 1\n");
    }
    // What a format has no comments for is an error of the text.
    let other = format!("# one\n{hoa}");
    run_with(&["check", "-"], other.as_bytes()).said(2, "line 1, column 1: expected `HOA:`");
    let other = format!("// one\n{NAMED}");
    run_with(&["check", "-"], other.as_bytes())
        .said(2, "line 1, column 1: expected `duknavet`, found `//`");
    let marked = format!("\u{feff}{}", NAMED.replace("rule", "rile"));
    run_with(&["check", "-"], marked.as_bytes()).said(2, "line 1, column 10: expected `rule`, ");
}

#[test]
fn what_passes_the_checks_is_bytes() {
    let mut random = Random::new(501);
    for _ in 0..300 {
        let bytes = rule(&mut random, 20).bytes();
        assert_eq!(kind(&bytes).map(|_| ()), None);
        assert_eq!(format(&bytes), None);
    }
}

/// Rules whose first byte is a blank, `#`, `(`, `/`, `0` or `<`, as comments, formulas, numbers and markup begin.
#[test]
fn rules_that_begin_as_other_texts_do() {
    for (elements, first) in [
        (32, b' '),
        (35, b'#'),
        (40, b'('),
        (47, b'/'),
        (48, b'0'),
        (60, b'<'),
    ] {
        let bytes = remainders(elements).bytes();
        assert_eq!(bytes.first(), Some(&first));
        assert_eq!(kind(&bytes).map(|_| ()), None);
        assert_eq!(format(&bytes), None);
        let said = format!("rule elements {elements} letters 1 marks 1\n");
        assert_eq!(run_with(&["check", "-"], &bytes).printed(0), said);
        assert_eq!(run_with(&["strong", "-"], &bytes).printed(0), "strong\n");
        let text = run_with(&["convert", "-"], &bytes);
        let again = run_with(&["convert", "-"], text.printed(0).as_bytes());
        assert_eq!((again.status, again.out), (0, bytes.clone()));
        // Damaged they are refused as bytes, without a word of what they might look like.
        let mut damaged = bytes.clone();
        damaged.push(0);
        let refused = run_with(&["check", "-"], &damaged);
        refused.said(
            2,
            "1 byte too many follows the last mark (refusal 4, input 1, ",
        );
        assert!(refused.err.ends_with(")\n"), "{}", refused.err);
    }
}

/// Whether bytes pass as a rule, and as an automaton.
fn passes(bytes: &[u8]) -> (bool, bool) {
    let automaton = match owned::automaton_rule(bytes) {
        Ok(_) => true,
        Err(explained) => explained.refused.refusal == Refusal::TooManyMatrices,
    };
    (owned::strong(bytes).is_ok(), automaton)
}

#[test]
fn no_bytes_are_a_rule_and_an_automaton() {
    let mut random = Random::new(502);
    for _ in 0..300 {
        let bytes = rule(&mut random, 6).bytes();
        assert_eq!(passes(&bytes), (true, false), "{bytes:?}");
        let (states, letters) = (random.within(1, 6), random.within(1, 16));
        let bytes = automata::automaton(&mut random, states, letters, 20).bytes();
        assert_eq!(passes(&bytes), (false, true), "{bytes:?}");
    }
    // The lengths alone exclude it, for every first byte that both may have.
    for n in 1..=6_usize {
        let rules = 4 + n * n + 1..=4 + n * n + 16 + 3 * n * n;
        // Where an automaton has the count of its transitions a rule has two products; of two elements one product and the count of
        // the letters; of one element a letter's element and another one or the low byte of the count of the marks.
        let highs = match n {
            1 => 0..=1,
            2 => 1..=16,
            _ => 0..=n - 1,
        };
        for low in 0..n {
            for high in highs.clone() {
                let automaton = 4 + n + 3 * (low + 256 * high);
                assert!(!rules.contains(&automaton), "{n} {low} {high}");
            }
        }
    }
}

/// Bytes whose counts fit one kind alone are refused as that kind, others as both.
#[test]
fn damaged_bytes() {
    run_with(&["check", "-"], &[2, 1, 0, 0, 0, 2, 0, 1, 0, 0]).said(2, "standard input: (0·0)·1");
    run_with(&["check", "-"], &[1, 9, 1, 0, 0])
        .said(2, "standard input: the kind of state 0 is 9, not 0 to 3");
    let both = run_with(&["check", "-"], &[1, 2, 3]);
    both.said(
        2,
        "as a rule: 0·0 = 2, but there is 1 element (refusal 3, input 1, place 1)",
    );
    both.said(
        2,
        "as an automaton: the file ends at byte 3, within the count of the transitions",
    );
}
