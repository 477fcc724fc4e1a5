//! `next` and `until`, end to end and against the engine written apart.

use crate::definitions::acceptance::Marking;
use crate::definitions::combined::Half;
use crate::definitions::rule::{Mark, Morphism, Rule};
use crate::definitions::temporal;
use crate::program::{run, run_with, Ran, Scrap};
use crate::samples::{remainders, GRADED, NAMED, NOT_ASSOCIATIVE, TWICE, W, Z};
use duknavet::owned;

/// One element and one letter.
const ONE_LETTER: &[u8] = &[1, 0, 1, 0, 0, 0];

/// Grade 3 for lassos that begin with letter 0, of two letters.
const FIRST_IS_0: &[u8] = &[2, 0, 0, 1, 1, 2, 0, 1, 2, 0, 0, 0, 3, 0, 1, 3];

fn until(first: &[u8], second: &[u8]) -> Ran {
    let first = Scrap::holding(first);
    run_with(&["until", first.name(), "-"], second)
}

fn grade(rule: &Ran, lasso: &str) -> u8 {
    let member = run_with(&["member", "-", lasso], &rule.out);
    let text = member.text();
    let grade = text
        .strip_prefix("grade ")
        .and_then(|rest| rest.get(..1)?.parse().ok());
    grade.unwrap_or_else(|| panic!("{member:?}"))
}

/// Lassos on which the rule, what comes next, and until have different grades.
#[test]
fn grades() {
    let next = run_with(&["next", "-"], FIRST_IS_0);
    assert_eq!((next.status, next.err.as_str()), (0, ""));
    for (lasso, expected) in [
        ("u: 1  v: 0", 3),
        ("u: 0  v: 1", 0),
        ("v: 0 1", 0),
        ("v: 0", 3),
    ] {
        assert_eq!(grade(&next, lasso), expected, "{lasso}");
    }
    // Letter 0 up to where three grades has its grade: every place has that of the whole word.
    let made = until(FIRST_IS_0, GRADED);
    assert_eq!((made.status, made.err.as_str()), (0, ""));
    for (lasso, expected) in [("u: 1  v: 0", 3), ("u: 0  v: 1", 2), ("u: 1  v: 1", 1)] {
        assert_eq!(grade(&made, lasso), expected, "{lasso}");
    }
    let ones = owned::complement(FIRST_IS_0).expect("a strong rule");
    let made = until(FIRST_IS_0, &owned::next(&ones).expect("a strong rule"));
    for (lasso, expected) in [
        ("v: 0", 0),
        ("u: 0 0  v: 1", 3),
        ("v: 1 0 0", 0),
        ("v: 1", 3),
    ] {
        assert_eq!(grade(&made, lasso), expected, "{lasso}");
    }
    // The second until the first is another rule.
    let exchanged = until(&owned::next(&ones).expect("a strong rule"), FIRST_IS_0);
    assert_eq!(grade(&exchanged, "v: 0"), 3);
}

#[test]
fn texts() {
    let named = run_with(&["next", "-"], NAMED.as_bytes());
    let text = named.printed(0);
    let first = "duknavet rule 1\n# next of:\n#   The flap opens again and again.\nelements ";
    assert!(text.starts_with(first), "{text}");
    assert!(text.contains("\n  open 0\n  shut 1\n"), "{text}");
    let bytes = run_with(&["next", "-", "--to", "bytes"], NAMED.as_bytes());
    assert_eq!(bytes.out, owned::next(W).expect("a strong rule"));
    let shuts = NAMED
        .replace("open 0", "open 1")
        .replace("shut 1", "shut 0");
    let both = until(NAMED.as_bytes(), shuts.as_bytes());
    let lines = "duknavet rule 1\n# the first until the second of:\n#   The flap opens again and again.\n#   The flap opens";
    assert!(both.printed(0).starts_with(lines), "{}", both.text());
    // Letters meet by their names, whatever their order is.
    let other_order = "duknavet rule 1\nelements 2\n 0 0\n 0 1\nletters 2\n shut 1\n open 0\nmarks 1\n 0 0 proper\n";
    let same = until(NAMED.as_bytes(), NAMED.as_bytes());
    let ordered = until(NAMED.as_bytes(), other_order.as_bytes());
    let table = |ran: &Ran| {
        ran.printed(0)
            .split_once("elements")
            .map(|(_, own)| own.to_string())
    };
    assert_eq!(table(&ordered), table(&same));
    let others = NAMED.replace("open", "up");
    until(NAMED.as_bytes(), others.as_bytes()).said(2, "the letters have different names");
    let by_number = Scrap::holding(NAMED.as_bytes());
    let words = ["until", "--by-number", by_number.name(), "-"];
    let ran = run_with(&words, others.as_bytes());
    ran.noted(0, "letters go by their numbers, as --by-number asks");
}

#[test]
fn refused() {
    let whole = |ran: Ran, words: &str| {
        ran.said(2, words);
        assert_eq!(ran.err, format!("duknavet-tool: {words}\n"));
    };
    let why = "is weak: u: 0  v: 0 0 has grade 3, but u: 0  v: 1 has grade 0, both with the values 1 and 0";
    let weak = format!("standard input: the rule {why} (refusal 12, input 1, place 0)");
    whole(run_with(&["next", "-"], Z), &weak);
    run_with(&["next", "-"], NOT_ASSOCIATIVE).said(2, "refusal 5");
    let weak = format!("standard input: the second rule {why} (refusal 12, input 2, place 0)");
    whole(until(W, Z), &weak);
    until(Z, W).said(
        2,
        &format!(": the first rule {why} (refusal 12, input 1, place 0)"),
    );
    whole(
        until(W, ONE_LETTER),
        "the first rule has 2 letters, but the second has 1 (refusal 18, input 1, place 0)",
    );
    until(W, NOT_ASSOCIATIVE).said(2, "standard input: the second rule: (0·0)·1 = 0");
    // One letter of n remainders has n + 1 pairs.
    let last = remainders(63).bytes();
    assert_eq!(run_with(&["next", "-"], &last).out[0], 64);
    whole(
        run_with(&["next", "-"], &remainders(64).bytes()),
        "standard input: the rule of `next` would have more than 64 elements (refusal 23, input 1, place 0)",
    );
    let (eight, nine) = (remainders(8).bytes(), remainders(9).bytes());
    whole(
        until(&eight, &nine),
        "words have 72 pairs of values in the two rules, more than 64 (refusal 19, input 1, place 0)",
    );
    // Ten letters with which nothing is decided, and six that bound the grade from below and above in eight ways.
    let first = by_first_letter(&[3, 3, 3, 3, 3, 3, 3, 3, 3, 3, 0, 1, 2, 3, 3, 2]);
    let second = by_first_letter(&[0, 0, 0, 0, 0, 0, 0, 0, 0, 0, 0, 1, 2, 3, 1, 0]);
    whole(
        until(&first, &second),
        "the rule of `until` would have more than 64 elements (refusal 23, input 1, place 0)",
    );
}

/// A letter and an element for each grade: a word has the element of its first letter, and a lasso that letter's grade.
fn by_first_letter(grades: &[u8]) -> Vec<u8> {
    let made = |letter: usize, grade: u8| {
        owned::first_letter(grades.len(), 1 << letter, usize::from(grade)).expect("a letter")
    };
    let rules = grades
        .iter()
        .enumerate()
        .map(|(letter, grade)| made(letter, *grade));
    let either = |first: Vec<u8>, second: Vec<u8>| {
        owned::combine(&first, &second, duknavet::Operation::Either).expect("few pairs")
    };
    rules.reduce(either).expect("a grade")
}

#[test]
fn wrong_use() {
    let rule = Scrap::holding(W);
    run(&["next", rule.name(), rule.name()]).said(3, "it takes RULE, but was given 2");
    run(&["until", rule.name()]).said(3, "it takes FIRST SECOND, but was given 1");
    run_with(&["until", "-", "-"], W).said(3, "`-` stands twice");
    run(&["next", rule.name(), "--by-number"]).said(3, "there is no option `--by-number`");
}

/// A rule that was taken apart.
fn parts(bytes: &[u8]) -> Rule {
    let rule = duknavet::files::Rule::take_apart(bytes).expect("a rule");
    let morphism = Morphism {
        n: usize::from(rule.elements),
        table: rule.products,
        images: rule.images,
    };
    let marks = rule.marks.iter().map(|mark| Mark {
        pair: (mark.s, mark.e),
        grade: mark.grade,
    });
    morphism.with(marks.collect())
}

/// The library is compared at length elsewhere: here are the bytes that the tool writes.
#[test]
fn against_the_engine() {
    let rules = [W, GRADED, FIRST_IS_0, TWICE].map(parts);
    let marking = |rule: &Rule| Marking::new(rule.morphism.n, &rule.marks);
    for first in &rules {
        let (bytes, marked) = (first.bytes(), marking(first));
        let one = Half {
            morphism: &first.morphism,
            marking: &marked,
        };
        let expected = temporal::next(&one).expect("few pairs");
        assert_eq!(run_with(&["next", "-"], &bytes).out, expected.bytes());
        for second in &rules {
            let other = marking(second);
            let two = Half {
                morphism: &second.morphism,
                marking: &other,
            };
            let Ok(expected) = temporal::until(&one, &two) else {
                panic!("few classes");
            };
            assert_eq!(until(&bytes, &second.bytes()).out, expected.bytes());
        }
    }
}
