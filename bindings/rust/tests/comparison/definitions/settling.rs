//! How many turns of a cycle settle its value.

use super::rule::Morphism;

/// The least number of turns of a word, 1 to n, that together have a value which repeating no longer changes: as many turns again
/// have the same. Every turn is written out.
pub fn turns(m: &Morphism, v: &[u8]) -> usize {
    let value = |turns: usize| m.value(&v.repeat(turns));
    (1..=m.n)
        .find(|c| value(2 * c) == value(*c))
        .expect("a product that is associative has such a power")
}
