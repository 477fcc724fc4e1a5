//! Two rules made one, end to end and against the engine written apart.

use crate::definitions::acceptance::Marking;
use crate::definitions::combined::{combined, Half};
use crate::definitions::rule::Rule;
use crate::program::{run, run_with, Ran, Scrap};
use crate::random::Random;
use crate::samples::{remainders, rule, AUTOMATON, GRADED, NAMED, NOT_ASSOCIATIVE, UNMARKED, W, Z};
use duknavet::{owned, Operation, Strength};

/// The complement of W.
const OTHERS: &[u8] = &[2, 0, 0, 0, 1, 2, 0, 1, 2, 0, 0, 1, 3, 1, 1, 3];
/// W with every mark.
const ALL: &[u8] = &[2, 0, 0, 0, 1, 2, 0, 1, 3, 0, 0, 0, 3, 0, 1, 3, 1, 1, 3];
/// One element and one letter.
const ONE_LETTER: &[u8] = &[1, 0, 1, 0, 0, 0];

fn asked(operation: &str, first: &[u8], second: &[u8]) -> Ran {
    let first = Scrap::holding(first);
    run_with(&["combine", operation, first.name(), "-"], second)
}

#[test]
fn grades() {
    // Of the grades of W without three grades nothing is left, and of three grades without W what W does not have.
    let beyond = [2, 0, 0, 0, 1, 2, 0, 1, 2, 0, 0, 1, 2, 1, 1, 1];
    for (operation, first, second, expected) in [
        ("both", W, OTHERS, UNMARKED),
        ("either", W, OTHERS, ALL),
        ("without", W, OTHERS, W),
        ("without", OTHERS, W, OTHERS),
        ("both", GRADED, W, W),
        ("both", GRADED, ALL, GRADED),
        ("either", GRADED, W, GRADED),
        ("without", GRADED, W, &beyond),
        ("without", W, GRADED, UNMARKED),
    ] {
        let ran = asked(operation, first, second);
        assert_eq!((ran.status, ran.err.as_str()), (0, ""));
        assert_eq!(ran.out, expected, "{operation} of {first:?} {second:?}");
    }
}

#[test]
fn texts() {
    // The flap's rule without its description.
    let named_rule = NAMED.replace("# The flap opens again and again.\n", "");
    let named_rule = named_rule.as_bytes();
    let printed = |first: &str, second: &str| {
        format!("duknavet rule 1\nelements 2\n  0 0\n  0 1\nletters 2\n  {first}\n  {second}\nmarks 1\n  0 0 proper\n")
    };
    let (named, plain) = (printed("open 0", "shut 1"), printed("0", "1"));
    let others = NAMED.replace("open", "up").replace("shut", "down");
    let unnamed = |ran: Ran| {
        let by_number = "names no letters, so they go by their numbers\n";
        assert!(ran.err.ends_with(by_number), "{ran:?}");
        ran.text().to_string()
    };
    assert_eq!(unnamed(asked("both", named_rule, W)), named);
    assert_eq!(unnamed(asked("both", W, named_rule)), named);
    let both_named = asked("either", named_rule, others.as_bytes());
    both_named.said(
        2,
        "standard input has up, down; `duknavet-tool letters` renames and adds letters, and --by-number goes by their numbers\n",
    );
    let both_named = asked("either", named_rule, named_rule);
    assert_eq!(both_named.printed(0), named);
    let no_names = plain.as_bytes();
    assert_eq!(unnamed(asked("both", no_names, named_rule)), named);
    assert_eq!(asked("both", no_names, W).printed(0), plain);
    let to = |form: &str, first: &[u8]| {
        let first = Scrap::holding(first);
        run_with(&["combine", "--to", form, "both", first.name(), "-"], W)
    };
    assert_eq!(to("text", W).printed(0), plain);
    let bytes = to("bytes", named_rule);
    assert_eq!((bytes.status, bytes.out.as_slice()), (0, W));
    to("ink", W).said(3, "`--to` takes one of bytes, text");
}

#[test]
fn refused() {
    let whole = |ran: Ran, words: &str| {
        ran.said(2, words);
        assert_eq!(ran.err, format!("duknavet-tool: {words}\n"));
    };
    let letters =
        "the first rule has 2 letters, but the second has 1 (refusal 18, input 1, place 0)";
    whole(asked("both", W, ONE_LETTER), letters);
    // Letters come before strength, and the first rule before the second.
    whole(asked("both", Z, ONE_LETTER), letters);
    let letters =
        "the first rule has 1 letter, but the second has 2 (refusal 18, input 1, place 0)";
    whole(asked("without", ONE_LETTER, Z), letters);
    let why = "is weak: u: 0  v: 0 0 has grade 3, but u: 0  v: 1 has grade 0, both with the values 1 and 0";
    let second = format!("standard input: the second rule {why} (refusal 12, input 2, place 0)");
    whole(asked("either", W, Z), &second);
    let first = format!(": the first rule {why} (refusal 12, input 1, place 0)");
    for other in [W, Z] {
        asked("either", Z, other).said(2, &first);
    }
    let (eight, nine) = (remainders(8).bytes(), remainders(9).bytes());
    let pairs = "words have 72 pairs of values in the two rules, more than 64 (refusal 19, input 1, place 0)";
    whole(asked("both", &eight, &nine), pairs);
    assert_eq!(asked("both", &eight, &eight).out[0], 8);
}

#[test]
fn damaged() {
    let placed = "standard input: line 10, column 3: the second rule: mark 0, the pair (1, 0), is not linked: 1·0 = 0 (refusal 7, input 2, place 10)";
    let unlinked = NAMED.replace("0 0 proper", "1 0 proper");
    asked("both", W, unlinked.as_bytes()).said(2, placed);
    let placed = "line 10, column 3: the first rule: mark 0, the pair (1, 0), is not linked: 1·0 = 0 (refusal 7, input 1, place 10)";
    asked("both", unlinked.as_bytes(), W).said(2, placed);
    let cut = "standard input: the second rule: the file ends at byte 12, within the marks: 2 of 3 bytes are there (refusal 1, input 2, place 12)";
    asked("both", Z, &W[..12]).said(2, cut);
    let product = "the second rule: (0·0)·1 = 0 but 0·(0·1) = 1 (refusal 5, input 2, place 1)";
    asked("without", W, NOT_ASSOCIATIVE).said(2, product);
    // Both are wrong: the first is told.
    asked("without", NOT_ASSOCIATIVE, &[]).said(2, "the first rule: (0·0)·1 = 0");
    asked("either", W, &[]).said(2, "the second rule: the file is empty");
    asked("either", W, AUTOMATON).said(2, "standard input: the second rule: ");
    let marks = b"duknavet marks 1\nmarks 0\n";
    asked("either", W, marks).said(2, "standard input: expected a rule, found a marks section");
}

#[test]
fn wrong_use() {
    let rule = Scrap::holding(W);
    for word in ["and", "Both", "", "bothe"] {
        let words = format!("`{word}` is none of both, either, without");
        run(&["combine", word, rule.name(), rule.name()]).said(3, &words);
    }
    let takes = "it takes both|either|without FIRST SECOND, but was given 2";
    run(&["combine", rule.name(), rule.name()]).said(3, takes);
    run_with(&["combine", "both", "-", "-"], W).said(3, "`-` stands twice");
}

/// What the engine written apart makes of two strong rules over as many letters; none for too many pairs.
fn expected(first: &Rule, second: &Rule, operation: Operation) -> Option<Vec<u8>> {
    let marking = |rule: &Rule| Marking::new(rule.morphism.n, &rule.marks);
    let (one, two) = (marking(first), marking(second));
    let half = |rule, marking| Half {
        morphism: rule,
        marking,
    };
    let (one, two) = (half(&first.morphism, &one), half(&second.morphism, &two));
    combined(&one, &two, operation).map(|rule| rule.bytes())
}

#[test]
fn against_the_engine() {
    let mut random = Random::new(1301);
    let (mut made, mut refusals) = (0, [0; 4]);
    for number in 0..600 {
        // Few rules that are drawn have so many pairs as some remainders have.
        let mut drawn = || match number % 10 {
            0 => remainders(random.within(5, 16)),
            _ => rule(&mut random, 8),
        };
        let (first, second) = (drawn(), drawn());
        let (one, two) = (first.bytes(), second.bytes());
        let weak = |bytes: &[u8]| owned::strong(bytes) == Ok(Strength::Weak);
        for operation in [Operation::Both, Operation::Either, Operation::Without] {
            let foreseen = if first.morphism.letters() != second.morphism.letters() {
                Err((18, 1))
            } else if weak(&one) {
                Err((12, 1))
            } else if weak(&two) {
                Err((12, 2))
            } else {
                expected(&first, &second, operation).ok_or((19, 1))
            };
            let found = owned::combine(&one, &two, operation).map_err(|explained| {
                assert_eq!(explained.refused.place, 0);
                let number = explained.refused.refusal.number();
                (number, explained.refused.input)
            });
            assert_eq!(found, foreseen, "{operation:?} of {one:?} {two:?}");
            match found {
                Ok(_) => made += 1,
                Err((12, input)) => refusals[usize::from(input)] += 1,
                Err((number, _)) => refusals[usize::from(number == 19) * 3] += 1,
            }
        }
    }
    assert!(
        made > 200 && refusals.iter().all(|count| *count > 5),
        "{made} {refusals:?}"
    );
}
