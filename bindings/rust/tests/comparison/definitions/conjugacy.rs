//! Conjugate pairs, from the definition.

use super::rule::{Mark, Morphism, Pair};
use std::collections::BTreeMap;

/// Whether x and y exist with s·x = t, x·y = e, y·x = f.
pub fn conjugate(m: &Morphism, (s, e): Pair, (t, f): Pair) -> bool {
    m.elements().any(|x| {
        m.product(s, x) == t
            && m.elements()
                .any(|y| m.product(x, y) == e && m.product(y, x) == f)
    })
}

/// For each e and f the elements x for which some y has x·y = e and y·x = f, as bits.
pub fn turns(m: &Morphism) -> Vec<u64> {
    let mut turns = vec![0; m.n * m.n];
    for x in m.elements() {
        for y in m.elements() {
            let (e, f) = (m.product(x, y) as usize, m.product(y, x) as usize);
            turns[e * m.n + f] |= 1 << x;
        }
    }
    turns
}

/// The linked pairs that are conjugate to a linked pair, by s·n + e, as a table of rows of pairs.
pub fn conjugates(m: &Morphism, turns: &[u64], (s, e): Pair) -> Vec<Pair> {
    let mut found = Vec::new();
    for f in m.elements().filter(|f| m.product(*f, *f) == *f) {
        let xs = turns[e as usize * m.n + f as usize];
        let mut seen = 0u64;
        for x in m.elements().filter(|x| xs >> x & 1 == 1) {
            let t = m.product(s, x);
            if seen >> t & 1 == 0 && m.linked((t, f)) {
                seen |= 1 << t;
                found.push((t, f));
            }
        }
    }
    found
}

/// Document 01's list: for each pair the least number of a conjugate, 65,535 where it is not linked.
pub fn classes(m: &Morphism) -> Vec<u16> {
    let turns = turns(m);
    let mut classes = vec![65_535; m.n * m.n];
    for (s, e) in m.linked_pairs() {
        let number = |(t, f): Pair| t as usize * m.n + f as usize;
        let least = conjugates(m, &turns, (s, e)).into_iter().map(number).min();
        classes[number((s, e))] = least.expect("a pair is conjugate to itself") as u16;
    }
    classes
}

/// The pairs that are conjugate to a marked one, each with the highest grade of those.
pub fn closure(m: &Morphism, marks: &[Mark]) -> Vec<Mark> {
    let turns = turns(m);
    let mut highest: BTreeMap<Pair, u8> = BTreeMap::new();
    for mark in marks {
        for pair in conjugates(m, &turns, mark.pair) {
            let grade = highest.entry(pair).or_default();
            *grade = mark.grade.max(*grade);
        }
    }
    let all = highest.into_iter();
    all.map(|(pair, grade)| Mark { pair, grade }).collect()
}

/// The list again with nothing but the definition, for small tables.
pub fn classes_literally(m: &Morphism) -> Vec<u16> {
    let linked = m.linked_pairs();
    let mut classes = vec![65_535; m.n * m.n];
    for (s, e) in &linked {
        let mut partners = linked.iter().filter(|p| conjugate(m, (*s, *e), **p));
        let (t, f) = partners.next().expect("a pair is conjugate to itself");
        // linked_pairs goes by s, then e, so the first partner is the least.
        classes[*s as usize * m.n + *e as usize] = (*t as usize * m.n + *f as usize) as u16;
    }
    classes
}
