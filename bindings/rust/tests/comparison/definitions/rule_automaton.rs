//! The automaton of a rule: states (s, e), s an element or none, e idempotent.

use super::acceptance::Marking;
use super::rule::Morphism;

/// The value of a number: an element, none for 64; no value for others.
fn value(m: &Morphism, s: usize) -> Option<Option<u8>> {
    match s {
        64 => Some(None),
        _ if s < m.n => Some(Some(s as u8)),
        _ => None,
    }
}

pub fn is_state(m: &Morphism, s: usize, e: usize) -> bool {
    value(m, s).is_some() && e < m.n && m.product(e as u8, e as u8) as usize == e
}

/// The kind of a state as automaton files have it: 0 plain, 1 initial, 2 final.
pub fn kind(marking: &Marking, s: usize, e: usize, least: u8) -> u8 {
    match s {
        64 => 2,
        _ => (marking.grade((s as u8, e as u8)) >= least) as u8,
    }
}

/// The t with a step by the letter from (s, e) to (t, e): h(a)·t is s or s·e.
pub fn successors(m: &Morphism, s: usize, e: usize, letter: u8) -> Vec<u8> {
    let join = |x: Option<u8>, y: Option<u8>| match (x, y) {
        (Some(x), Some(y)) => Some(m.product(x, y)),
        (x, None) => x,
        (None, y) => y,
    };
    let (s, image) = (value(m, s).flatten(), m.images[letter as usize]);
    let ends = [s, join(s, Some(e as u8))];
    let leads = |t: &u8| match value(m, *t as usize) {
        Some(t) => ends.contains(&join(Some(image), t)),
        None => false,
    };
    (0..=64).filter(leads).collect()
}
