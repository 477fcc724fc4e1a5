//! Strength and inclusion for rules whose sets of splits are too many to list: for one level, one start and one value of the cycle at a
//! time. Grades are equal if at each level both lassos are accepted or both not, and one is not higher than another if it is
//! accepted at no level where the other is not.
//!
//! As `cycles` says, u, v is accepted exactly if some split v = v₁ v₂, v₁ not empty, gives a writing p = u v^t v₁, w = (v₂ v₁)^c with
//! values in the level; with s, x, y the values of u, v₁, v₂ that depends on s, x and y alone: the split hits. So cycles of
//! value e are followed letter by letter, keeping the value x of what was read and a guess y of the value of what is to come; a
//! guess after a letter a is any y' with a·y' = y, or "nothing" where a's element is y. Paths from (nothing, e) to (e, nothing) are
//! the cycles of value e, and their states after each letter are the splits.

use super::acceptance::{Level, Marking};
use super::rule::{Morphism, GRADES};

/// For each s, x and y (y = n: nothing) whether the split hits.
struct Hits {
    n: usize,
    bits: Vec<bool>,
}

impl Hits {
    fn new(m: &Morphism, level: &Level) -> Hits {
        let n = m.n;
        let mut bits = vec![false; n * n * (n + 1)];
        for x in m.elements() {
            for y in m.elements().map(Some).chain([None]) {
                let turn = y.map_or(x, |y| m.product(x, y));
                let back = y.map_or(x, |y| m.product(y, x));
                let (mut powers, mut w) = (0u64, back);
                while powers >> w & 1 == 0 {
                    powers |= 1 << w;
                    w = m.product(w, back);
                }
                for s in m.elements() {
                    // s, s·turn, s·turn·turn, ..: until a value comes again.
                    let (mut seen, mut start, mut hit) = (0u64, s, false);
                    while seen >> start & 1 == 0 {
                        seen |= 1 << start;
                        hit |= level.0[m.product(start, x) as usize] & powers != 0;
                        start = m.product(start, turn);
                    }
                    let y = y.map_or(n, usize::from);
                    bits[(s as usize * n + x as usize) * (n + 1) + y] = hit;
                }
            }
        }
        Hits { n, bits }
    }

    fn at(&self, s: usize, x: usize, y: usize) -> bool {
        self.bits[(s * self.n + x) * (self.n + 1) + y]
    }
}

/// For each letter a and each y the guesses that may follow it.
fn guesses(m: &Morphism) -> Vec<Vec<usize>> {
    let mut guesses = vec![Vec::new(); m.letters() * m.n];
    for (a, image) in m.images.iter().enumerate() {
        for next in m.elements() {
            guesses[a * m.n + m.product(*image, next) as usize].push(next as usize);
        }
        guesses[a * m.n + *image as usize].push(m.n);
    }
    guesses
}

/// Whether some cycle of value e, after a start of value s, has no split that hits `never`, and one that hits `once` if that is
/// given.
fn exists(
    m: &Morphism,
    guesses: &[Vec<usize>],
    (s, e): (usize, usize),
    never: Option<&Hits>,
    once: Option<&Hits>,
) -> bool {
    let n = m.n;
    // A state is (x, y, whether a hit of `once` was met); x = n before the first letter.
    let mut seen = vec![false; (n + 1) * (n + 1) * 2];
    let mut states = vec![(n, e, once.is_none())];
    while let Some((x, y, met)) = states.pop() {
        if y == n {
            if met {
                return true;
            }
            continue;
        }
        for (a, image) in m.images.iter().enumerate() {
            let next = match x == n {
                true => *image as usize,
                false => m.product(x as u8, *image) as usize,
            };
            for guess in &guesses[a * n + y] {
                if never.is_some_and(|hits| hits.at(s, next, *guess)) {
                    continue;
                }
                let met = met || once.is_some_and(|hits| hits.at(s, next, *guess));
                let at = (next * (n + 1) + guess) * 2 + met as usize;
                if !seen[at] {
                    seen[at] = true;
                    states.push((next, *guess, met));
                }
            }
        }
    }
    false
}

fn values(m: &Morphism) -> impl Iterator<Item = (usize, usize)> {
    let n = m.n;
    (0..n * n).map(move |at| (at / n, at % n))
}

/// Whether any two lassos with equal values are both accepted or both not, by the pairs of a level.
pub fn strong_at(m: &Morphism, level: &Level) -> bool {
    // No lasso is accepted by no pairs.
    if level.is_empty() {
        return true;
    }
    let (hits, guesses) = (Hits::new(m, level), guesses(m));
    let accepted = |at| exists(m, &guesses, at, None, Some(&hits));
    let not_accepted = |at| exists(m, &guesses, at, Some(&hits), None);
    !values(m).any(|at| accepted(at) && not_accepted(at))
}

/// Whether each lasso accepted by the pairs of the first level is accepted by those of the second.
pub fn included_at(m: &Morphism, first: &Level, second: &Level) -> bool {
    if first.is_empty() {
        return true;
    }
    let (first, second) = (Hits::new(m, first), Hits::new(m, second));
    let guesses = guesses(m);
    !values(m).any(|at| exists(m, &guesses, at, Some(&second), Some(&first)))
}

pub fn strong(m: &Morphism, marking: &Marking) -> bool {
    let mut levels = GRADES.map(|least| marking.level(least)).to_vec();
    levels.dedup();
    levels.into_iter().all(|level| strong_at(m, level))
}

pub fn included(m: &Morphism, first: &Marking, second: &Marking) -> bool {
    let mut levels = GRADES
        .map(|least| (first.level(least), second.level(least)))
        .to_vec();
    levels.dedup();
    levels
        .into_iter()
        .all(|(first, second)| included_at(m, first, second))
}
