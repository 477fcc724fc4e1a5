//! The comparison's check of the written order, checked itself: it passes document 01's files and finds every other order of them.

// The engine apart, of which only the order is used here.
#[allow(dead_code)]
#[path = "comparison/definitions/mod.rs"]
mod definitions;

use definitions::checks;
use definitions::cycles::all_words;
use definitions::order::{backwards, by_first_words, first_words, marks_rise, renumbered};
use definitions::rule::{Mark, Pair, Rule};

/// The rule of document 01's automaton M10: elements with the first words 0, 1 and 0 1, two marks.
const M10_RULE: [u8; 21] = [
    3, 0, 2, 2, 0, 1, 2, 0, 2, 2, 2, 0, 1, 2, 0, 0, 0, 3, 2, 2, 3,
];
/// The complement of W, "letter 0 without end", with grades that fall: three marks would be linked, two are written.
const W_COMPLEMENT: [u8; 16] = [2, 0, 0, 0, 1, 2, 0, 1, 2, 0, 0, 1, 3, 1, 1, 1];
/// The sets of three letters, each letter its own set: first words 0, 1, 2, 0 1, 0 2, 1 2, 0 1 2.
const SETS: [u8; 7] = [1, 2, 4, 3, 5, 6, 7];

fn read(bytes: &[u8]) -> Rule {
    checks::rule(bytes).expect("a rule file")
}

/// The sets of three letters, with every linked pair marked.
fn sets() -> Rule {
    let place = |set: u8| SETS.iter().position(|own| *own == set).expect("a set") as u8;
    let mut bytes = vec![7];
    for a in SETS {
        bytes.extend(SETS.map(|b| place(a | b)));
    }
    bytes.extend([3, 0, 1, 2, 0, 0]);
    let rule = read(&bytes);
    let marks = marked(&rule.morphism.linked_pairs());
    rule.morphism.with(marks)
}

/// Marks of these pairs, with the grades 3, 2, 1 in turn: the order of grades is another than that of pairs.
fn marked(pairs: &[Pair]) -> Vec<Mark> {
    let grades = [3, 2, 1].into_iter().cycle();
    let each = pairs.iter().zip(grades);
    each.map(|(pair, grade)| Mark { pair: *pair, grade })
        .collect()
}

/// Every order of the numbers below n.
fn orders(n: usize) -> Vec<Vec<u8>> {
    let mut found: Vec<Vec<u8>> = vec![Vec::new()];
    for last in 0..n as u8 {
        let longer = found.iter().flat_map(|order| {
            (0..=order.len()).map(move |at| [&order[..at], &[last], &order[at..]].concat())
        });
        found = longer.collect();
    }
    found
}

#[test]
fn written_files_are_in_order() {
    for rule in [read(&M10_RULE), read(&W_COMPLEMENT), sets()] {
        assert_eq!(by_first_words(&rule.morphism), Ok(()));
        assert_eq!(marks_rise(&rule.marks), Ok(()));
    }
    assert_eq!(
        first_words(&read(&M10_RULE).morphism),
        [(0, vec![0]), (1, vec![1]), (2, vec![0, 1])]
    );
}

#[test]
fn every_other_numbering_is_found() {
    for rule in [read(&M10_RULE), read(&W_COMPLEMENT), sets()] {
        let n = rule.morphism.n;
        let mut passed = Vec::new();
        for order in orders(n) {
            let other = renumbered(&rule, &order);
            // still the file of a rule, with the same lassos
            assert_eq!(checks::rule(&other.bytes()), Ok(other.clone()));
            if by_first_words(&other.morphism).is_ok() {
                passed.push(order);
            }
        }
        let own: Vec<u8> = (0..n as u8).collect();
        assert_eq!(passed, [own]);
    }
}

#[test]
fn every_other_order_of_the_marks_is_found() {
    for rule in [read(&M10_RULE), read(&W_COMPLEMENT), sets()] {
        let count = rule.marks.len();
        for (i, j) in (0..count).flat_map(|j| (0..j).map(move |i| (i, j))) {
            let mut marks = rule.marks.clone();
            marks.swap(i, j);
            assert!(marks_rise(&marks).is_err(), "{marks:?}");
        }
    }
    let rise = |pairs: &[Pair]| marks_rise(&marked(pairs));
    assert!(rise(&[(0, 1), (1, 0), (1, 1)]).is_ok());
    assert!(rise(&[(0, 1), (1, 0), (1, 0)]).is_err());
    assert!(rise(&[(0, 1), (1, 1), (1, 0)]).is_err());
    // by e, then by s
    assert!(rise(&[(0, 0), (1, 0), (0, 1)]).is_err());
}

#[test]
fn backwards_is_another_order() {
    for rule in [read(&M10_RULE), sets()] {
        let other = backwards(&rule);
        assert!(by_first_words(&other.morphism).is_err());
        assert!(marks_rise(&other.marks).is_err());
        assert_eq!(backwards(&other), rule);
    }
}

#[test]
fn first_words_are_the_first_of_all_words() {
    for rule in [read(&M10_RULE), read(&W_COMPLEMENT), sets()] {
        let rule = backwards(&rule);
        let mut expected: Vec<(u8, Vec<u8>)> = Vec::new();
        for word in all_words(rule.morphism.letters(), rule.morphism.n) {
            let s = rule.morphism.value(&word);
            if expected.iter().all(|(t, _)| *t != s) {
                expected.push((s, word));
            }
        }
        assert_eq!(first_words(&rule.morphism), expected);
    }
}
