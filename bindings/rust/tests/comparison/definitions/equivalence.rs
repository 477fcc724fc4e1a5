//! Whether two rules, or two automata, give every lasso the same grade: a statement on all lassos, decided on finitely many.
//!
//! Let every word have a value such that those of u and v, neither empty, decide the grades of u, v on both sides, and that the value of
//! a word decides that of the word with one letter more. Then one word for each value stands for all words. A lasso without a start is
//! the endless word of v, v. Of two strong rules a word's value is the pair of its elements; of two automata it is the pair of its
//! matrices, which say from which state to which it has paths, and where one meets a final state.

use super::acceptance::{grade, Marking};
use super::checks::Automaton;
use super::rule::Morphism;
use std::collections::HashSet;
use std::hash::Hash;

/// A lasso that has two grades.
#[derive(Debug)]
pub struct Difference {
    pub u: Vec<u8>,
    pub v: Vec<u8>,
    pub grades: (u8, u8),
}

/// A word for each value, shortest first, or None if there are more than `most`.
fn words<T: Eq + Hash>(
    letters: usize,
    value: impl Fn(&[u8]) -> T,
    most: usize,
) -> Option<Vec<Vec<u8>>> {
    let mut values = HashSet::new();
    let mut words: Vec<Vec<u8>> = vec![Vec::new()];
    let mut next = 0;
    while next < words.len() {
        for a in 0..letters as u8 {
            let longer = [&words[next][..], &[a]].concat();
            if values.insert(value(&longer)) {
                words.push(longer);
            }
        }
        if values.len() > most {
            return None;
        }
        next += 1;
    }
    words.remove(0);
    Some(words)
}

/// The lassos of these words that have two grades.
fn differing(words: &[Vec<u8>], grades: impl Fn(&[u8], &[u8]) -> (u8, u8)) -> Vec<Difference> {
    let lassos = words.iter().flat_map(|u| words.iter().map(move |v| (u, v)));
    let differences = lassos.map(|(u, v)| Difference {
        u: u.clone(),
        v: v.clone(),
        grades: grades(u, v),
    });
    differences
        .filter(|difference| difference.grades.0 != difference.grades.1)
        .collect()
}

/// For two strong rules over as many letters: none exactly if they give every lasso the same grade.
pub fn of_rules(first: (&Morphism, &Marking), second: (&Morphism, &Marking)) -> Vec<Difference> {
    assert_eq!(first.0.letters(), second.0.letters());
    let value = |word: &[u8]| (first.0.value(word), second.0.value(word));
    let most = first.0.n * second.0.n;
    let words = words(first.0.letters(), value, most).expect("no more values than pairs");
    differing(&words, |u, v| {
        (
            grade(first.0, first.1, u, v),
            grade(second.0, second.1, u, v),
        )
    })
}

/// For two automata over as many letters, where they have at most so many pairs of matrices: none exactly if they accept the same lassos,
/// which have grade 3.
pub fn of_automata(first: &Automaton, second: &Automaton, most: usize) -> Option<Vec<Difference>> {
    assert_eq!(first.letters, second.letters);
    let value = |word: &[u8]| (first.matrix(word), second.matrix(word));
    let words = words(first.letters, value, most)?;
    let grade = |automaton: &Automaton, u: &[u8], v: &[u8]| match automaton.accepts(u, v) {
        true => 3,
        false => 0,
    };
    Some(differing(&words, |u, v| {
        (grade(first, u, v), grade(second, u, v))
    }))
}
