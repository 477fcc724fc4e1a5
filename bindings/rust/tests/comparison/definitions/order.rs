//! The order in which rules are written: elements by first words, marks by s, then by e.

use super::rule::{Mark, Morphism, Rule};

/// The first word of each element that a word reaches, in the order of words: the shorter first, and of one length the earlier in
/// letter order. What a first word begins with is a first word too, as an earlier word in its place would give an earlier whole; so of
/// each length only the first words are made longer.
pub fn first_words(m: &Morphism) -> Vec<(u8, Vec<u8>)> {
    let mut found: Vec<(u8, Vec<u8>)> = Vec::new();
    let mut layer: Vec<Vec<u8>> = vec![Vec::new()];
    while !layer.is_empty() {
        let mut next = Vec::new();
        for word in layer {
            for a in 0..m.letters() as u8 {
                let longer = [&word[..], &[a]].concat();
                let s = m.value(&longer);
                if found.iter().all(|(t, _)| *t != s) {
                    found.push((s, longer.clone()));
                    next.push(longer);
                }
            }
        }
        layer = next;
    }
    found
}

/// Elements 0, 1, .. have first words that rise.
pub fn by_first_words(m: &Morphism) -> Result<(), String> {
    let mut words = first_words(m);
    words.sort_unstable();
    if words.len() != m.n {
        return Err(format!("{} of {} elements are reached", words.len(), m.n));
    }
    let rank = |(_, word): &(u8, Vec<u8>)| (word.len(), word.clone());
    match words.windows(2).find(|two| rank(&two[0]) >= rank(&two[1])) {
        Some(two) => Err(format!("the first words of {two:?} do not rise")),
        None => Ok(()),
    }
}

/// Each mark comes behind the one before it, by s, then by e. The grades do not count.
pub fn marks_rise(marks: &[Mark]) -> Result<(), String> {
    match marks.windows(2).find(|two| two[0].pair >= two[1].pair) {
        Some(two) => Err(format!("the marks {two:?} do not rise")),
        None => Ok(()),
    }
}

/// The rule with its element i called `number[i]`; the marks keep their order.
pub fn renumbered(rule: &Rule, number: &[u8]) -> Rule {
    let m = &rule.morphism;
    let of = |s: u8| number[s as usize];
    let marks = rule.marks.iter().map(|mark| Mark {
        pair: (of(mark.pair.0), of(mark.pair.1)),
        grade: mark.grade,
    });
    let mut table = vec![0; m.n * m.n];
    for (a, b) in m.elements().flat_map(|a| m.elements().map(move |b| (a, b))) {
        table[of(a) as usize * m.n + of(b) as usize] = of(m.product(a, b));
    }
    Rule {
        morphism: Morphism {
            n: m.n,
            table,
            images: m.images.iter().map(|s| of(*s)).collect(),
        },
        marks: marks.collect(),
    }
}

/// The rule with its elements numbered backwards. The marks keep their order: those that rose fall.
pub fn backwards(rule: &Rule) -> Rule {
    let number: Vec<u8> = (0..rule.morphism.n as u8).rev().collect();
    renumbered(rule, &number)
}
