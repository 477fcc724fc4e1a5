//! Rules of 8, 16, 32 and 64 elements with 3 or 16 letters, and automata with as many matrices.

use crate::engine::automata::automaton_rule;
use crate::engine::markings::strong;
use crate::engine::{Strategy, RULE_OUT, SCRATCH};

pub const SIZES: [usize; 4] = [8, 16, 32, 64];
pub const LETTERS: [usize; 2] = [3, 16];

/// A rule file, its marks section apart.
pub struct Rule {
    morphism: Vec<u8>,
    marks: Vec<u8>,
}

impl Rule {
    fn new(n: usize, product: impl Fn(usize, usize) -> usize, images: &[u8]) -> Rule {
        let mut morphism = vec![n as u8];
        morphism.extend((0..n * n).map(|at| product(at / n, at % n) as u8));
        morphism.push(images.len() as u8);
        morphism.extend(images);
        let marks = Vec::new();
        Rule { morphism, marks }
    }

    /// The same with those linked pairs marked, with grade 3, that are chosen.
    fn marked(&self, chosen: impl Fn(usize, usize) -> bool) -> Rule {
        self.graded(|s, e| 3 * u8::from(chosen(s, e)))
    }

    /// The same with those linked pairs marked that have a grade of 1 or more.
    fn graded(&self, grade: impl Fn(usize, usize) -> u8) -> Rule {
        let n = self.morphism[0] as usize;
        let product = |s: usize, t: usize| self.morphism[1 + s * n + t] as usize;
        let linked = |s: usize, e: usize| product(e, e) == e && product(s, e) == s;
        let pairs = (0..n * n).map(|at| (at / n, at % n));
        let pairs = pairs.filter(|(s, e)| linked(*s, *e));
        let marks = pairs.map(|(s, e)| [s as u8, e as u8, grade(s, e)]);
        let marks: Vec<[u8; 3]> = marks.filter(|mark| mark[2] > 0).collect();
        Rule {
            morphism: self.morphism.clone(),
            marks: marks.concat(),
        }
    }

    /// The same with the marks above a grade alone.
    fn above(&self, grade: u8) -> Rule {
        let marks = self.marks.chunks(3).filter(|mark| mark[2] > grade);
        Rule {
            morphism: self.morphism.clone(),
            marks: marks.flatten().copied().collect(),
        }
    }

    pub fn section(&self) -> Vec<u8> {
        let count = self.marks.len() as u16 / 3;
        [&count.to_le_bytes()[..], &self.marks].concat()
    }

    pub fn file(&self) -> Vec<u8> {
        [&self.morphism[..], &self.section()].concat()
    }
}

/// n = 8·m elements: the group of m elements, times {1, 0} with the product of numbers, times two elements of which the first of a
/// product stays, times two of which the last stays. Element ((a·2 + b)·2 + c)·2 + d. The first three letters are (1, 1, 0, 0),
/// (0, 1, 1, 1) and (0, 0, 0, 1), which reach every element; further ones have the elements that are left, then all again.
fn banded(n: usize, letters: usize) -> Rule {
    let m = n / 8;
    let product = |s: usize, t: usize| {
        let parts = |x: usize| (x >> 3, x >> 2 & 1, x >> 1 & 1, x & 1);
        let ((a, b, c, _), (a2, b2, _, d2)) = (parts(s), parts(t));
        (((a + a2) % m) * 2 + (b & b2)) * 4 + c * 2 + d2
    };
    let first = [(((1 % m) * 2 + 1) * 4) as u8, 7, 1];
    let others = (0..n as u8).filter(|s| !first.contains(s));
    let all: Vec<u8> = first.into_iter().chain(others).collect();
    let images: Vec<u8> = all.into_iter().cycle().take(letters).collect();
    Rule::new(n, product, &images)
}

/// Closed marks: it gives grade 3 to the lassos that begin with a letter of third part 0 and have letters of second part 0 without end.
pub fn closed(n: usize, letters: usize) -> Rule {
    let accepted = |s: usize, e: usize| s >> 1 & 1 == 0 && e >> 2 & 1 == 0;
    banded(n, letters).marked(accepted)
}

/// The same with those marks only whose second element has its last two parts 0: a weak rule.
pub fn weak(n: usize, letters: usize) -> Rule {
    let accepted = |s: usize, e: usize| s >> 1 & 1 == 0 && e & 7 == 0;
    banded(n, letters).marked(accepted)
}

/// A cyclic group times as many elements as there are different letters, of which the last of a product stays: each letter has the
/// group's generator. With every linked pair marked every lasso has grade 3.
pub fn rotating_closed(n: usize, letters: usize) -> Rule {
    let different = if letters < 16 { 2 } else { 16.min(n / 2) };
    let m = n / different;
    let product =
        |s: usize, t: usize| (s / different + t / different) % m * different + t % different;
    let images = (0..letters).map(|a| (different + a % different) as u8);
    let images: Vec<u8> = images.collect();
    Rule::new(n, product, &images).marked(|_, _| true)
}

/// Only the linked pairs are marked whose first element is idempotent: unclosed, and strong all the same, since a cycle can be cut
/// where the group's part is 0. The search that shows it goes through every start value.
pub fn rotating(n: usize, letters: usize) -> Rule {
    rotating_closed(n, letters).marked(|s, e| s == e)
}

/// How often the first letter comes, up to n - 2 times, and n - 1 for more often; further letters do not count. With grade 3 for just
/// n - 2 times no two elements can stand for each other, and it takes n - 3 rounds to see that.
pub fn smallest(n: usize, letters: usize) -> Rule {
    let images: Vec<u8> = (0..letters).map(|a| u8::from(a == 0)).collect();
    let counted = Rule::new(n, |s, t| (s + t).min(n - 1), &images);
    counted.marked(|s, e| s == n - 2 && e == 0)
}

/// n = 4·m elements for three grades: the group of m elements, times {1, 0} with the product of numbers, times two elements of which the
/// first of a product stays. Element (a·2 + b)·2 + c. Each letter has the group's generator; with it (1, 0), (1, 1), (0, 0) and
/// (0, 1), of which the first three reach every element.
fn first_letter(n: usize, letters: usize) -> Rule {
    let m = n / 4;
    let product = |s: usize, t: usize| {
        let parts = |x: usize| (x >> 2, x >> 1 & 1, x & 1);
        let ((a, b, c), (a2, b2, _)) = (parts(s), parts(t));
        ((a + a2) % m * 2 + (b & b2)) * 2 + c
    };
    let all = [6, 7, 4, 5].into_iter().cycle();
    let images: Vec<u8> = all.take(letters).collect();
    Rule::new(n, product, &images)
}

/// The grade of a linked pair's lassos in the rules below: what comes without end has the second part 0 or not, and what comes first has
/// the third part 0 or not.
fn of_three(s: usize, e: usize) -> u8 {
    match (e >> 1 & 1, s & 1) {
        (0, 0) => 3,
        (0, _) => 2,
        (_, 0) => 1,
        _ => 0,
    }
}

/// Closed marks of three grades.
pub fn graded_closed(n: usize, letters: usize) -> Rule {
    first_letter(n, letters).graded(of_three)
}

/// Only those whose first element has 0 for its group's part: unclosed at every grade, and strong all the same, as `rotating` is.
pub fn graded(n: usize, letters: usize) -> Rule {
    let grade = |s: usize, e: usize| of_three(s, e) * u8::from(s >> 2 == 0);
    first_letter(n, letters).graded(grade)
}

/// Of those of grade 1 only the ones whose second element has 0 for its third part: strong above grade 1, where it is weak.
pub fn graded_weak(n: usize, letters: usize) -> Rule {
    let grade = |s: usize, e: usize| match (of_three(s, e), s >> 2, e & 1) {
        (_, 1.., _) | (1, _, 1) => 0,
        (grade, _, _) => grade,
    };
    first_letter(n, letters).graded(grade)
}

/// A sequence of numbers below bounds.
pub struct Numbers(u64);

impl Numbers {
    pub fn new(seed: u64) -> Numbers {
        Numbers(seed)
    }

    pub fn below(&mut self, bound: u64) -> u64 {
        let next = self.0.wrapping_mul(6_364_136_223_846_793_005);
        self.0 = next.wrapping_add(1_442_695_040_888_963_407);
        (self.0 >> 33) % bound
    }
}

/// u and v of one length, of grade 0 by `closed` and `weak` and of grade 2 at most by `graded_closed`, so that every cut is looked at: u
/// begins with letter 1.
pub fn lasso(length: usize, letters: usize) -> (Vec<u8>, Vec<u8>) {
    let mut numbers = Numbers(1);
    let mut word = || -> Vec<u8> {
        let letter = || numbers.below(letters as u64) as u8;
        std::iter::repeat_with(letter).take(length).collect()
    };
    let (mut u, v) = (word(), word());
    u[0] = 1;
    (u, v)
}

/// An automaton with n matrices: the first one found of many. Three letters are drawn; further ones have their transitions again.
pub fn automaton(states: u8, letters: u8, n: usize) -> Vec<u8> {
    let mut numbers = Numbers(7);
    let (mut out, mut scratch) = (vec![0; RULE_OUT], vec![0; SCRATCH]);
    loop {
        let kinds: Vec<u8> = (0..states).map(|_| numbers.below(4) as u8).collect();
        let drawn: Vec<bool> = (0..3 * states * states)
            .map(|_| numbers.below(4) == 0)
            .collect();
        let mut triples = Vec::new();
        for (from, letter) in (0..states).flat_map(|from| (0..letters).map(move |a| (from, a))) {
            let there = |to: &u8| drawn[((letter % 3 * states + from) * states + to) as usize];
            triples.extend((0..states).filter(there).map(|to| [from, letter, to]));
        }
        let count = (triples.len() as u16).to_le_bytes();
        let bytes = [&[states], &kinds[..], &[letters], &count, &triples.concat()].concat();
        let made = automaton_rule(Strategy::Same, &bytes, &mut out, &mut scratch);
        if made.is_ok() && out[0] as usize == n {
            return bytes;
        }
    }
}

/// Fails if the rules are not what their comments say.
pub fn confirm() {
    let decided = |rule: Rule| strong(Strategy::Plain, &rule.file(), &mut vec![0; SCRATCH]);
    for (n, letters) in SIZES
        .iter()
        .flat_map(|n| LETTERS.map(|letters| (*n, letters)))
    {
        assert_eq!(decided(closed(n, letters)), Ok(true));
        assert_eq!(decided(weak(n, letters)), Ok(false));
        assert_eq!(decided(rotating(n, letters)), Ok(true));
        assert_eq!(decided(rotating_closed(n, letters)), Ok(true));
        assert_eq!(decided(graded_closed(n, letters)), Ok(true));
        assert_eq!(decided(graded(n, letters)), Ok(true));
        assert_eq!(decided(graded_weak(n, letters)), Ok(false));
        assert_eq!(decided(graded_weak(n, letters).above(1)), Ok(true));
        assert_eq!(decided(smallest(n, letters)), Ok(true));
    }
}
