//! Two rules made one: the pairs of values that words reach, and the two grades combined.

use super::acceptance::{grade, Marking};
use super::rule::{Mark, Morphism, Rule};
use duknavet::Operation;

/// One of the two rules.
pub struct Half<'a> {
    pub morphism: &'a Morphism,
    pub marking: &'a Marking,
}

/// The pairs that non-empty words have for values, each with its first word, in the order of these words; None if there are more than 64.
pub fn pairs(first: &Morphism, second: &Morphism) -> Option<Vec<((u8, u8), Vec<u8>)>> {
    let mut found: Vec<((u8, u8), Vec<u8>)> = Vec::new();
    let mut words: Vec<Vec<u8>> = vec![Vec::new()];
    let mut next = 0;
    while next < words.len() {
        for a in 0..first.letters() as u8 {
            let word = [&words[next][..], &[a]].concat();
            let pair = (first.value(&word), second.value(&word));
            if found.iter().all(|(other, _)| *other != pair) {
                found.push((pair, word.clone()));
                words.push(word);
                if found.len() > 64 {
                    return None;
                }
            }
        }
        next += 1;
    }
    Some(found)
}

pub fn grade_of(operation: Operation, first: u8, second: u8) -> u8 {
    match operation {
        Operation::Both => first.min(second),
        Operation::Either => first.max(second),
        Operation::Without => first.min(3 - second),
    }
}

/// The rule of the pairs, with every linked pair marked that has a grade of 1 or more; None for more than 64 pairs.
pub fn combined(first: &Half, second: &Half, operation: Operation) -> Option<Rule> {
    let pairs = pairs(first.morphism, second.morphism)?;
    let place = |pair: (u8, u8)| {
        let at = pairs.iter().position(|(other, _)| *other == pair);
        at.expect("the pair of a word") as u8
    };
    let product = |(a, b): (u8, u8), (c, d): (u8, u8)| {
        (first.morphism.product(a, c), second.morphism.product(b, d))
    };
    let n = pairs.len();
    let products = pairs
        .iter()
        .flat_map(|(s, _)| pairs.iter().map(move |(t, _)| (*s, *t)));
    let table = products.map(|(s, t)| place(product(s, t))).collect();
    let images = first.morphism.images.iter().zip(&second.morphism.images);
    let images = images.map(|(a, b)| place((*a, *b))).collect();
    let morphism = Morphism { n, table, images };
    let graded = morphism.linked_pairs().into_iter().map(|pair| {
        let (u, v) = (&pairs[pair.0 as usize].1, &pairs[pair.1 as usize].1);
        let one = grade(first.morphism, first.marking, u, v);
        let two = grade(second.morphism, second.marking, u, v);
        let grade = grade_of(operation, one, two);
        Mark { pair, grade }
    });
    let marks = graded.filter(|mark| mark.grade > 0).collect();
    Some(morphism.with(marks))
}
