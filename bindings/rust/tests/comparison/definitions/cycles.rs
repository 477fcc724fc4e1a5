//! Strength and inclusion: a statement on all lassos, decided on finitely many cycles.
//!
//! Let every mark be linked. If a writing p, w of the lasso u, v has marked values (s, e), so has the writing with
//! p·w^t for p and w^|v| for w, since s·e = s and e·e = e; for t large enough that one has the form p = u v^t' v₁,
//! w = (v₂ v₁)^c with v = v₁ v₂ and v₁ not empty. Its values are products of the values of u, v₁ and v₂ alone. So the value of u and the
//! set of splits D(v) = { (value of v₁, value of v₂) : v = v₁ v₂, v₁ not empty } decide which marked pairs accept u, v, and so its
//! grade, whatever the marks. D(v a) follows from D(v) and the letter a, and there are finitely many sets: a search over words finds them
//! all, with a word for each. Together with one word for each element (for u) these words stand for all lassos.
//!
//! The number of sets may be exponential in n, so the search has a limit; beyond it nothing is decided unless a lasso found
//! so far already shows the answer.

use super::acceptance::{grade, Marking};
use super::rule::Morphism;
use std::collections::HashSet;

pub struct Cycles {
    /// A cycle for each set of splits found, shortest first.
    pub words: Vec<Vec<u8>>,
    /// Whether these are all.
    pub complete: bool,
}

#[derive(Clone, Debug, PartialEq, Eq)]
pub enum Decided {
    Yes,
    No,
    Unknown,
}

/// A set of splits: bit x·(n+1) + y, with y = n for an empty v₂.
type Splits = Vec<u64>;

fn extended(m: &Morphism, splits: &Splits, value: Option<u8>, a: u8) -> (Splits, u8) {
    let image = m.images[a as usize];
    let width = m.n + 1;
    let mut longer = vec![0; splits.len()];
    let mut add = |x: usize, y: usize| {
        let bit = x * width + y;
        longer[bit / 64] |= 1 << (bit % 64);
    };
    for (at, mut bits) in splits.iter().copied().enumerate() {
        while bits != 0 {
            let bit = at * 64 + bits.trailing_zeros() as usize;
            bits &= bits - 1;
            let (x, y) = (bit / width, bit % width);
            let end = match y == m.n {
                true => image,
                false => m.product(y as u8, image),
            };
            add(x, end as usize);
        }
    }
    let value = value.map_or(image, |s| m.product(s, image));
    add(value as usize, m.n);
    (longer, value)
}

pub fn cycles(m: &Morphism, limit: usize) -> Cycles {
    let empty = vec![0; (m.n * (m.n + 1)).div_ceil(64)];
    let mut found: Vec<(Splits, Option<u8>, Vec<u8>)> = vec![(empty, None, Vec::new())];
    let mut known = HashSet::new();
    let mut next = 0;
    let mut complete = true;
    'search: while next < found.len() {
        for a in 0..m.letters() as u8 {
            let (splits, value, word) = &found[next];
            let (longer, value) = extended(m, splits, *value, a);
            if known.insert(longer.clone()) {
                let word = [&word[..], &[a]].concat();
                found.push((longer, Some(value), word));
                if found.len() > limit {
                    complete = false;
                    break 'search;
                }
            }
        }
        next += 1;
    }
    let words = found.into_iter().skip(1).map(|entry| entry.2).collect();
    Cycles { words, complete }
}

/// Whether any two lassos with equal values have equal grades. `starts` has a word for each element.
pub fn strong(m: &Morphism, marking: &Marking, starts: &[Vec<u8>], cycles: &Cycles) -> Decided {
    let mut outcomes: Vec<Option<u8>> = vec![None; m.n * m.n];
    for v in &cycles.words {
        let z = m.value(v) as usize;
        for (s, u) in starts.iter().enumerate() {
            let grade = grade(m, marking, u, v);
            match outcomes[s * m.n + z] {
                None => outcomes[s * m.n + z] = Some(grade),
                Some(before) if before != grade => return Decided::No,
                Some(_) => {}
            }
        }
    }
    match cycles.complete {
        true => Decided::Yes,
        false => Decided::Unknown,
    }
}

/// Whether no lasso is graded higher by the first marking than by the second.
pub fn included(
    m: &Morphism,
    (first, second): (&Marking, &Marking),
    starts: &[Vec<u8>],
    cycles: &Cycles,
) -> Decided {
    for v in &cycles.words {
        for u in starts {
            let own = grade(m, first, u, v);
            if own > 0 && own > grade(m, second, u, v) {
                return Decided::No;
            }
        }
    }
    match cycles.complete {
        true => Decided::Yes,
        false => Decided::Unknown,
    }
}

/// Whether two lassos with equal values, u up to `u_most` and v up to `v_most` letters, differ in their grades: every word is tried, for
/// u the empty one too, whose value is that of no other.
pub fn differing_lassos(m: &Morphism, marking: &Marking, u_most: usize, v_most: usize) -> bool {
    let mut outcomes: Vec<Option<u8>> = vec![None; (m.n + 1) * m.n];
    let (mut starts, turns) = (
        all_words(m.letters(), u_most),
        all_words(m.letters(), v_most),
    );
    starts.push(Vec::new());
    for u in &starts {
        for v in &turns {
            let start = match u.is_empty() {
                true => m.n,
                false => m.value(u) as usize,
            };
            let at = start * m.n + m.value(v) as usize;
            let grade = grade(m, marking, u, v);
            if *outcomes[at].get_or_insert(grade) != grade {
                return true;
            }
        }
    }
    false
}

/// Every word of 1 to `most` letters.
pub fn all_words(letters: usize, most: usize) -> Vec<Vec<u8>> {
    let mut words = Vec::new();
    let mut last: Vec<Vec<u8>> = vec![Vec::new()];
    for _ in 0..most {
        let longer = |word: &Vec<u8>| {
            let word = word.clone();
            (0..letters as u8).map(move |a| [&word[..], &[a]].concat())
        };
        last = last.iter().flat_map(longer).collect();
        words.extend(last.iter().cloned());
    }
    words
}
