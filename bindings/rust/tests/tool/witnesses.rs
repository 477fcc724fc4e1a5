//! Lassos that show why, held against the engine written apart.

use crate::definitions::acceptance::{grade, Marking};
use crate::definitions::equivalence;
use crate::definitions::rule::{Mark, Rule};
use crate::definitions::splits;
use crate::inputs::{automata, marks, morphisms};
use crate::random::Random;
use crate::samples::rule;
use duknavet::files::Lasso;
use duknavet::owned;
use duknavet::witness::{compare, why_weak, Comparison, Difference};

fn marking(rule: &Rule) -> Marking {
    Marking::new(rule.morphism.n, &rule.marks)
}

fn graded(rule: &Rule, lasso: &Lasso) -> u8 {
    grade(&rule.morphism, &marking(rule), &lasso.u, &lasso.v)
}

#[test]
fn weak_rules_have_two_lassos() {
    let mut random = Random::new(801);
    let (mut weak, mut strong) = (0, 0);
    for _ in 0..600 {
        let rule = rule(&mut random, 14);
        let why = why_weak(&rule.bytes()).expect("a rule");
        if splits::strong(&rule.morphism, &marking(&rule)) {
            assert_eq!(why, None);
            strong += 1;
            continue;
        }
        weak += 1;
        let why = why.unwrap_or_else(|| panic!("no lassos for {:?}", rule.bytes()));
        let value = |word: &[u8]| rule.morphism.value(word);
        for (lasso, expected) in [&why.higher, &why.lower] {
            assert_eq!(graded(&rule, lasso), *expected);
            assert_eq!((value(&lasso.u), value(&lasso.v)), (why.start, why.cycle));
        }
        assert!(why.higher.1 > why.lower.1);
    }
    assert!(weak > 60 && strong > 60, "{weak} weak and {strong} strong");
}

/// That a lasso tells two rules apart, and that no single letter can be left out of it.
fn check_difference(first: &Rule, second: &Rule, difference: &Difference) {
    let lasso = &difference.lasso;
    let grades = (graded(first, lasso), graded(second, lasso));
    assert_eq!(grades, (difference.first, difference.second));
    assert_ne!(grades.0, grades.1);
    for place in 0..lasso.letters() {
        let shorter = lasso.without(place..place + 1);
        if !shorter.v.is_empty() {
            assert_eq!(
                graded(first, &shorter),
                graded(second, &shorter),
                "{lasso:?} at {place}"
            );
        }
    }
}

#[test]
fn rules_over_the_same_letters() {
    let mut random = Random::new(802);
    let mut seen = [0; 4];
    for round in 0..700 {
        let first = rule(&mut random, 10);
        let second = match round % 3 {
            // Another marking of the table, its closure sometimes.
            0 => {
                let second = marks::second(&mut random, &first.morphism, &first.marks);
                first.morphism.with(second)
            }
            1 => crate::definitions::order::backwards(&first),
            _ => loop {
                let morphism = morphisms::any(&mut random, 7);
                if morphism.letters() == first.morphism.letters() {
                    let marks = marks::mixed(&mut random, &morphism);
                    break morphism.with(marks);
                }
            },
        };
        let (a, b) = (marking(&first), marking(&second));
        let strong = |rule: &Rule, own: &Marking| splits::strong(&rule.morphism, own);
        let both_strong = strong(&first, &a) && strong(&second, &b);
        match compare(&first.bytes(), &second.bytes()).expect("two rules") {
            Comparison::EqualReductions(reduction) => {
                assert!(both_strong);
                let differences =
                    equivalence::of_rules((&first.morphism, &a), (&second.morphism, &b));
                assert!(differences.is_empty());
                assert_eq!(owned::reduce(&second.bytes()), Ok(reduction));
                seen[0] += 1;
            }
            Comparison::EqualGrades => {
                assert!(!both_strong);
                for _ in 0..200 {
                    let letters = first.morphism.letters();
                    let lengths = (random.below(5), random.within(1, 5));
                    let lasso = Lasso {
                        u: random.word(lengths.0, letters),
                        v: random.word(lengths.1, letters),
                    };
                    assert_eq!(graded(&first, &lasso), graded(&second, &lasso));
                }
                seen[1] += 1;
            }
            Comparison::Different(difference) => {
                check_difference(&first, &second, &difference);
                seen[2] += 1;
            }
            Comparison::TooLarge(pairs) => {
                assert!(!both_strong && pairs > 64);
                seen[3] += 1;
            }
            other => panic!("{other:?}"),
        }
    }
    assert!(seen[..3].iter().all(|count| *count > 20), "{seen:?}");
}

/// Automata that differ in one transition, and ones with the same language.
#[test]
fn automata_by_their_rules() {
    let mut random = Random::new(803);
    let (mut equal, mut different) = (0, 0);
    for round in 0..200 {
        let (states, letters) = (random.within(1, 3), random.within(1, 3));
        let first = automata::automaton(&mut random, states, letters, 45);
        if first.transitions.is_empty() {
            continue;
        }
        let second = match round % 2 {
            0 => automata::with_doubled(&mut random, &first),
            _ => automata::less_one(&mut random, &first),
        };
        let rules = (
            owned::automaton_rule(&first.bytes()),
            owned::automaton_rule(&second.bytes()),
        );
        let (Ok(first_rule), Ok(second_rule)) = rules else {
            continue;
        };
        match compare(&first_rule, &second_rule).expect("two rules") {
            Comparison::EqualReductions(_) => equal += 1,
            Comparison::Different(difference) => {
                different += 1;
                let Lasso { u, v } = &difference.lasso;
                assert_eq!(first.accepts(u, v), difference.first == 3);
                assert_eq!(second.accepts(u, v), difference.second == 3);
                assert_ne!(difference.first, difference.second);
                assert_eq!(round % 2, 1, "a doubled state changes nothing");
            }
            other => panic!("{other:?}"),
        }
    }
    assert!(equal > 40 && different > 20, "{equal} and {different}");
}

/// Sums modulo m, with a letter that adds 1 and one that adds nothing, and the grade 3 for some sums.
fn sums(m: u8, marked: impl Fn(u8) -> bool) -> Rule {
    let mark = |sum: u8| Mark {
        pair: (sum, 0),
        grade: 3,
    };
    let marks = (0..m).filter(|sum| marked(*sum)).map(mark).collect();
    morphisms::sums(usize::from(m), &[1, 0]).with(marks)
}

/// With more pairs of values than a rule has room for, a difference is found all the same, and equality is not claimed.
#[test]
fn more_pairs_than_a_rule_has_room_for() {
    let (eight, nine) = (sums(8, |sum| sum == 0), sums(9, |sum| sum == 0));
    match compare(&eight.bytes(), &nine.bytes()).expect("two rules") {
        Comparison::Different(difference) => check_difference(&eight, &nine, &difference),
        other => panic!("{other:?}"),
    }
    // Both grade an even number of the first letter, so that they are equal; but no inclusion can show it.
    let even = |m: u8| sums(m, |sum| sum % 2 == 0).bytes();
    assert_eq!(compare(&even(10), &even(14)), Ok(Comparison::TooLarge(70)));
    assert_eq!(compare(&even(10), &even(6)), Ok(Comparison::EqualGrades));
}

/// Rules with the most elements: the search ends, and what it finds is right.
#[test]
fn large_rules() {
    let mut random = Random::new(804);
    for kind in 0..morphisms::KINDS {
        let morphism = morphisms::largest(&mut random, kind);
        let marks = marks::nearly_closed(&mut random, &morphism);
        let rule = morphism.with(marks);
        let strong = splits::strong(&rule.morphism, &marking(&rule));
        let why = why_weak(&rule.bytes()).expect("a rule");
        assert_eq!(why.is_none(), strong, "kind {kind}");
        let other = morphism.with(marks::regraded(&mut random, &morphism, &rule.marks));
        match compare(&rule.bytes(), &other.bytes()).expect("two rules") {
            Comparison::Different(difference) => {
                assert_eq!(graded(&rule, &difference.lasso), difference.first);
                assert_eq!(graded(&other, &difference.lasso), difference.second);
                assert_ne!(difference.first, difference.second);
            }
            other => panic!("kind {kind}: {other:?}"),
        }
    }
}
