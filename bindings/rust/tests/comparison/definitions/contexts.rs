//! The syntactic classes of a strong rule's elements: two are together if no context tells the grades of their lassos apart.

use super::acceptance::{grade, Marking};
use super::rule::Morphism;

/// For each s and z the grade of the lassos with these values; the rule is strong, so one word for each will do.
pub fn outcomes(m: &Morphism, marking: &Marking, words: &[Vec<u8>]) -> Vec<u8> {
    let pairs = words.iter().flat_map(|u| words.iter().map(move |v| (u, v)));
    pairs.map(|(u, v)| grade(m, marking, u, v)).collect()
}

/// The class of each element, numbered from 0. A context is a word x before, a word y after, either of them possibly empty, and
/// a word z that is the cycle after (x s y, z) or the start before (z, x s y).
pub fn classes(m: &Morphism, outcomes: &[u8]) -> (Vec<usize>, usize) {
    let maybe = || m.elements().map(Some).chain([None]);
    let mut rows: Vec<Vec<u8>> = Vec::new();
    let mut class = Vec::new();
    for s in m.elements() {
        let mut row = Vec::new();
        for x in maybe() {
            let left = x.map_or(s, |x| m.product(x, s));
            for y in maybe() {
                let middle = y.map_or(left, |y| m.product(left, y)) as usize;
                for z in 0..m.n {
                    row.push(outcomes[middle * m.n + z]);
                    row.push(outcomes[z * m.n + middle]);
                }
            }
        }
        let at = rows.iter().position(|other| *other == row);
        class.push(at.unwrap_or(rows.len()));
        if at.is_none() {
            rows.push(row);
        }
    }
    let count = rows.len();
    (class, count)
}
