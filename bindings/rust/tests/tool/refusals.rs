//! Refusals in words.

use crate::random::Random;
use crate::samples::{remainders, rule, AUTOMATON, GRADED, W, Z};
use duknavet::owned;
use duknavet::words::Explained;
use duknavet::{Monitor, Operation, RuleMonitor, POINTS};

fn words<T: std::fmt::Debug>(answer: Result<T, Explained>) -> String {
    answer.expect_err("a refusal").to_string()
}

/// A file with one byte changed.
fn with(bytes: &[u8], at: usize, byte: u8) -> Vec<u8> {
    let mut bytes = bytes.to_vec();
    bytes[at] = byte;
    bytes
}

#[test]
fn of_rules() {
    for (bytes, expected) in [
        (vec![], "the file is empty (refusal 1, input 1, place 0)"),
        (vec![2, 0, 0], "the file ends at byte 3, within the products: 2 of 4 are there (refusal 1, input 1, place 3)"),
        (W[..5].to_vec(), "the file ends at byte 5, before the count of the letters (refusal 1, input 1, place 5)"),
        (W[..7].to_vec(), "the file ends at byte 7, within the letters' elements: 1 of 2 are there (refusal 1, input 1, place 7)"),
        (W[..8].to_vec(), "the file ends at byte 8, before the count of the marks (refusal 1, input 1, place 8)"),
        (W[..9].to_vec(), "the file ends at byte 9, within the count of the marks (refusal 1, input 1, place 9)"),
        (W[..12].to_vec(), "the file ends at byte 12, within the marks: 2 of 3 bytes are there (refusal 1, input 1, place 12)"),
        (with(W, 0, 0), "the file has 0 elements, not 1 to 64 (refusal 2, input 1, place 0)"),
        (with(W, 5, 17), "the file has 17 letters, not 1 to 16 (refusal 2, input 1, place 5)"),
        (with(W, 9, 17), "there are 4353 marks, more than 4096 (refusal 2, input 1, place 8)"),
        (with(W, 3, 2), "1·0 = 2, but there are 2 elements (refusal 3, input 1, place 3)"),
        (with(W, 7, 9), "letter 1 stands for element 9, but there are 2 elements (refusal 3, input 1, place 7)"),
        (with(W, 10, 2), "s of mark 0 is 2, but there are 2 elements (refusal 3, input 1, place 10)"),
        (with(GRADED, 14, 7), "e of mark 1 is 7, but there are 2 elements (refusal 3, input 1, place 14)"),
        (with(W, 12, 0), "the grade of mark 0 is 0, not 1 to 3 (refusal 3, input 1, place 12)"),
        ([W, &[1, 2]].concat(), "2 bytes too many follow the last mark (refusal 4, input 1, place 13)"),
        (vec![2, 1, 0, 0, 0, 2, 0, 1, 0, 0], "(0·0)·1 = 0 but 0·(0·1) = 1 (refusal 5, input 1, place 1)"),
        (vec![2, 0, 0, 0, 1, 1, 0, 0, 0], "element 1 is no word's value (refusal 6, input 1, place 1)"),
        (with(W, 10, 1), "mark 0, the pair (1, 0), is not linked: 1·0 = 0 (refusal 7, input 1, place 10)"),
        (with(Z, 11, 1), "mark 0, the pair (0, 1), is not linked: 1·1 = 0 (refusal 7, input 1, place 10)"),
        (with(&with(GRADED, 16, 0), 17, 1), "mark 2, the pair (0, 1), stood before as mark 1, with grade 2 (refusal 8, input 1, place 16)"),
    ] {
        assert_eq!(words(owned::classes(&bytes)), expected);
        // Of two rules it is also told which.
        let of_first = owned::combine(&bytes, W, Operation::Both);
        assert_eq!(words(of_first), format!("the first rule: {expected}"));
        let expected = expected.replace("input 1", "input 2");
        let of_second = owned::combine(W, &bytes, Operation::Both);
        assert_eq!(words(of_second), format!("the second rule: {expected}"));
    }
}

#[test]
fn of_automata() {
    for (bytes, expected) in [
        (vec![], "the file is empty (refusal 1, input 1, place 0)"),
        (AUTOMATON[..2].to_vec(), "the file ends at byte 2, within the states' kinds: 1 of 2 are there (refusal 1, input 1, place 2)"),
        (AUTOMATON[..3].to_vec(), "the file ends at byte 3, before the count of the letters (refusal 1, input 1, place 3)"),
        (AUTOMATON[..5].to_vec(), "the file ends at byte 5, within the count of the transitions (refusal 1, input 1, place 5)"),
        (AUTOMATON[..17].to_vec(), "the file ends at byte 17, within the transitions: 11 of 12 bytes are there (refusal 1, input 1, place 17)"),
        (with(AUTOMATON, 0, 7), "the file has 7 states, not 1 to 6 (refusal 2, input 1, place 0)"),
        (with(AUTOMATON, 3, 0), "the file has 0 letters, not 1 to 16 (refusal 2, input 1, place 3)"),
        (with(AUTOMATON, 5, 3), "there are 772 transitions, more than 576 (refusal 2, input 1, place 4)"),
        (with(AUTOMATON, 2, 4), "the kind of state 1 is 4, not 0 to 3 (refusal 3, input 1, place 2)"),
        (with(AUTOMATON, 9, 2), "transition 1 leaves state 2, but there are 2 states (refusal 3, input 1, place 9)"),
        (with(AUTOMATON, 10, 2), "transition 1 has letter 2, but there are 2 letters (refusal 3, input 1, place 10)"),
        (with(AUTOMATON, 11, 5), "transition 1 goes to state 5, but there are 2 states (refusal 3, input 1, place 11)"),
        ([AUTOMATON, &[0]].concat(), "1 byte too many follows the last transition (refusal 4, input 1, place 18)"),
    ] {
        assert_eq!(words(owned::automaton_rule(&bytes)), expected);
    }
    // Four states with every transition of two letters drawn have more matrices than an element has room for.
    let mut rich = vec![6, 1, 0, 2, 0, 0, 0, 2, 12, 0];
    for state in 0..6 {
        let swapped = [1, 0, 2, 3, 4, 5][state];
        rich.extend([
            state as u8,
            0,
            (state as u8 + 1) % 6,
            state as u8,
            1,
            swapped,
        ]);
    }
    let expected = "the automaton has more than 64 matrices (refusal 14, input 1, place 0)";
    assert_eq!(words(owned::automaton_rule(&rich)), expected);
}

#[test]
fn of_words_and_monitors() {
    let expected =
        "letter 5 at position 7 of v: the rule has 2 letters (refusal 10, input 2, place 7)";
    assert_eq!(
        words(owned::member(W, &[0], &[0, 0, 0, 0, 0, 0, 0, 5])),
        expected
    );
    let expected =
        "letter 2 at position 0 of u: the rule has 2 letters (refusal 10, input 1, place 0)";
    assert_eq!(words(owned::member(W, &[2], &[0])), expected);
    assert_eq!(
        words(owned::member(W, &[], &[])),
        "v has no letter (refusal 11, input 2, place 0)"
    );
    let mut watched = RuleMonitor::new(W);
    let expected = "letter 9: the rule has 2 letters (refusal 10, input 1, place 0)";
    assert_eq!(words(watched.event(9)), expected);
    let expected = "no event came since the last mark (refusal 11, input 1, place 0)";
    assert_eq!(words(watched.verdict()), expected);
    let expected = "the name 8 is above 7 (refusal 15, input 1, place 0)";
    assert_eq!(words(watched.keep(8)), expected);
    let expected = "the name 3 was never kept (refusal 16, input 1, place 0)";
    assert_eq!(words(watched.return_to(3)), expected);
    let monitor = Monitor {
        before: 5,
        since: 0,
    };
    let mut foreign = RuleMonitor::resumed(W, monitor, [0; POINTS]);
    let expected =
        "a value of the monitor is neither an element nor 64 (refusal 3, input 1, place 0)";
    assert_eq!(words(foreign.event(0)), expected);
    let expected = "the rule is weak: u: 0  v: 0 0 has grade 3, but u: 0  v: 1 has grade 0, both with the values 1 and 0 (refusal 12, input 1, place 0)";
    assert_eq!(words(owned::reduce(Z)), expected);
}

#[test]
fn of_rounds_and_states() {
    let expected = "the limit of 65 rounds is above 64 (refusal 20, input 1, place 0)";
    assert_eq!(words(owned::reduce_rounds(Z, 65)), expected);
    let expected = "the rule is weak: u: 0  v: 0 0 has grade 3, but u: 0  v: 1 has grade 0, both with the values 1 and 0 (refusal 12, input 1, place 0)";
    assert_eq!(words(owned::reduce_rounds(Z, 64)), expected);
    for (s, e, expected) in [
        (0, 1, "(0, 1) is no state: 1·1 = 0, so 1 is not idempotent (refusal 17, input 1, place 0)"),
        (64, 1, "(none, 1) is no state: 1·1 = 0, so 1 is not idempotent (refusal 17, input 1, place 0)"),
        (65, 0, "(65, 0) is no state: s is 65, but there are 2 elements (refusal 17, input 1, place 0)"),
        (64, 64, "(none, 64) is no state: e is 64, but there are 2 elements (refusal 17, input 1, place 0)"),
    ] {
        assert_eq!(words(owned::state_kind(Z, s, e, 3)), expected);
        assert_eq!(words(owned::successors(Z, s, e, 0)), expected);
        let general = owned::state_kind(Z, s, e, 3).expect_err("no state").refused;
        let expected = "there is no such state (refusal 17, input 1, place 0)";
        assert_eq!(general.to_string(), expected);
    }
    let expected = "the least grade is 0, not 1 to 3 (refusal 3, input 1, place 0)";
    assert_eq!(words(owned::state_kind(Z, 0, 1, 0)), expected);
    let expected = "letter 2: the rule has 2 letters (refusal 10, input 1, place 0)";
    assert_eq!(words(owned::successors(Z, 0, 0, 2)), expected);
    // What is wrong with the rule comes first, and is told as everywhere.
    let expected = "1·0 = 2, but there are 2 elements (refusal 3, input 1, place 3)";
    let bad = with(W, 3, 2);
    assert_eq!(words(owned::reduce_rounds(&bad, 65)), expected);
    assert_eq!(words(owned::state_kind(&bad, 9, 9, 9)), expected);
    assert_eq!(words(owned::successors(&bad, 9, 9, 9)), expected);
}

#[test]
fn of_two_rules() {
    let one_letter = [1, 0, 1, 0, 0, 0];
    let letters = owned::combine(&one_letter, W, Operation::Both);
    let general = letters.clone().expect_err("other letters").refused;
    let expected =
        "the first rule has 1 letter, but the second has 2 (refusal 18, input 1, place 0)";
    assert_eq!(words(letters), expected);
    let expected = "the rules have different numbers of letters (refusal 18, input 1, place 0)";
    assert_eq!(general.to_string(), expected);
    let (large, small) = (remainders(64).bytes(), remainders(63).bytes());
    let pairs = owned::combine(&large, &small, Operation::Without);
    let general = pairs.clone().expect_err("too many").refused;
    let expected = "words have 4032 pairs of values in the two rules, more than 64 (refusal 19, input 1, place 0)";
    assert_eq!(words(pairs), expected);
    let expected = "the rules have more than 64 pairs of values (refusal 19, input 1, place 0)";
    assert_eq!(general.to_string(), expected);
    let why = "is weak: u: 0  v: 0 0 has grade 3, but u: 0  v: 1 has grade 0, both with the values 1 and 0";
    let expected = format!("the second rule {why} (refusal 12, input 2, place 0)");
    assert_eq!(words(owned::combine(W, Z, Operation::Either)), expected);
    let expected = format!("the first rule {why} (refusal 12, input 1, place 0)");
    assert_eq!(words(owned::combine(Z, W, Operation::Either)), expected);
    assert_eq!(words(owned::combine(Z, Z, Operation::Either)), expected);
    assert_eq!(words(owned::confirm(Z, W, &[])), expected);
}

/// The refusal without its inputs says what its place tells.
#[test]
fn without_inputs() {
    let refused = |bytes: &[u8]| {
        owned::strong(bytes)
            .expect_err("a refusal")
            .refused
            .to_string()
    };
    let expected = "(0·0)·1 is not 0·(0·1) (refusal 5, input 1, place 1)";
    assert_eq!(refused(&[2, 1, 0, 0, 0, 2, 0, 1, 0, 0]), expected);
    let expected = "a count lies outside its range (refusal 2, input 1, place 0)";
    assert_eq!(refused(&[99]), expected);
}

/// Whatever a damaged file is refused for, the words are more than what can be said without the file.
#[test]
fn every_refusal_of_a_file_is_translated() {
    let mut random = Random::new(701);
    let mut refusals = 0;
    for _ in 0..4000 {
        let mut bytes = rule(&mut random, 6).bytes();
        let at = random.below(bytes.len());
        match random.below(3) {
            0 => bytes.truncate(at),
            1 => bytes.push(random.below(4) as u8),
            _ => bytes[at] = random.below(8) as u8,
        }
        if let Err(explained) = owned::classes(&bytes) {
            refusals += 1;
            let general = explained.refused.to_string();
            let told = explained.to_string();
            let number = explained.refused.refusal.number();
            assert!(told != general || number == 6, "{told} of {bytes:?}");
            let of_two = owned::combine(W, &bytes, Operation::Either).expect_err("a refusal");
            let expected = format!("the second rule: {}", explained.words);
            assert_eq!((of_two.words, of_two.refused.input), (expected, 2));
            let of_two = owned::confirm(Z, &bytes, &[]).expect_err("a refusal");
            let expected = format!("the second rule: {}", explained.words);
            assert_eq!((of_two.words, of_two.refused.input), (expected, 2));
        }
    }
    assert!(refusals > 2000, "{refusals}");
}
