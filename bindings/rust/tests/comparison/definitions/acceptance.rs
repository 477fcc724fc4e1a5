//! Acceptance of a lasso by a set of pairs: over every writing p, w of its endless word. The grade of a lasso: the highest among the
//! marked pairs that accept it, found as the highest grade whose level accepts it.

use super::rule::{Mark, Morphism, Pair, GRADES};
use std::collections::HashMap;

/// The pairs that have some least grade: bit e of row s.
#[derive(Clone, PartialEq, Eq)]
pub struct Level(pub Vec<u64>);

impl Level {
    pub fn has(&self, (s, e): Pair) -> bool {
        self.0[s as usize] >> e & 1 == 1
    }

    pub fn is_empty(&self) -> bool {
        self.0.iter().all(|row| *row == 0)
    }
}

/// The grades of the marked pairs, and their levels.
#[derive(Clone)]
pub struct Marking {
    grades: HashMap<Pair, u8>,
    levels: [Level; 3],
}

impl Marking {
    pub fn new(n: usize, marks: &[Mark]) -> Marking {
        let level = |least: u8| {
            let mut rows = vec![0; n];
            for mark in marks.iter().filter(|mark| mark.grade >= least) {
                rows[mark.pair.0 as usize] |= 1 << mark.pair.1;
            }
            Level(rows)
        };
        Marking {
            grades: marks.iter().map(|mark| (mark.pair, mark.grade)).collect(),
            levels: GRADES.map(level),
        }
    }

    /// The grade of a pair, 0 where it has no mark.
    pub fn grade(&self, pair: Pair) -> u8 {
        self.grades.get(&pair).copied().unwrap_or(0)
    }

    /// The pairs with a grade of `least` or more; `least` is 1 to 3.
    pub fn level(&self, least: u8) -> &Level {
        &self.levels[least as usize - 1]
    }
}

/// Letter i of u, then v for ever.
pub fn letter(u: &[u8], v: &[u8], i: usize) -> u8 {
    match u.get(i) {
        Some(letter) => *letter,
        None => v[(i - u.len()) % v.len()],
    }
}

/// The letters from position i on, `length` of them.
pub fn segment(u: &[u8], v: &[u8], i: usize, length: usize) -> Vec<u8> {
    (i..i + length).map(|j| letter(u, v, j)).collect()
}

/// The values of every writing with no thought spared: every p and w up to a bound, compared letter by letter with the lasso.
///
/// The bound: a writing p, w of the endless word α is a position i = |p| ≥ 1 and a length l = |w| ≥ 1 such that α has period l
/// from i on. With d the least period that α has in the end (so d divides |v|) the periods are the multiples of d. Take a
/// writing with i = i' + t·d, i' the least position of i's class modulo d from which α has period d, other than 0; then i' is at
/// most |u| + d. The values of p for t = 0, 1, 2, .. are a sequence in which each value follows from the one before (times
/// the value r of d letters from i' on), so all of its values occur for t < n; and the values of w for l = d, 2d, .. are the powers
/// of r, all of which occur up to the n-th. So i ≤ |u| + (n + 1)·|v| and l ≤ n·|v| cover the values of all writings.
/// Two endless words with equal letters on the first max(|u|, |p|) + |v| + |w| positions are equal (Fine and Wilf).
fn writings_literally(m: &Morphism, u: &[u8], v: &[u8]) -> Vec<Pair> {
    let mut values = Vec::new();
    for i in 1..=u.len() + (m.n + 1) * v.len() {
        for l in 1..=m.n * v.len() {
            let (p, w) = (segment(u, v, 0, i), segment(u, v, i, l));
            let end = u.len().max(i) + v.len() + l;
            let same = (0..end).all(|j| letter(u, v, j) == letter(&p, &w, j));
            if same {
                values.push((m.value(&p), m.value(&w)));
            }
        }
    }
    values
}

/// Whether some writing has its values in the level.
pub fn accepts_literally(m: &Morphism, level: &Level, u: &[u8], v: &[u8]) -> bool {
    let values = writings_literally(m, u, v);
    values.into_iter().any(|pair| level.has(pair))
}

/// The highest grade of the values of a writing: of the marked pairs that accept the lasso.
pub fn grade_literally(m: &Morphism, marking: &Marking, u: &[u8], v: &[u8]) -> u8 {
    let values = writings_literally(m, u, v);
    let grades = values.into_iter().map(|pair| marking.grade(pair));
    grades.max().expect("a writing")
}

/// Where the endless word of u, v begins to repeat, and its least period: (m, d).
fn shape(u: &[u8], v: &[u8]) -> (usize, usize) {
    let repeats = |d: &usize| v.len().is_multiple_of(*d) && (*d..v.len()).all(|j| v[j] == v[j - d]);
    let d = (1..=v.len()).find(repeats).expect("v repeats itself");
    let mut m = u.len();
    while m > 0 && letter(u, v, m - 1) == letter(u, v, m - 1 + d) {
        m -= 1;
    }
    (m, d)
}

/// The values of all writings of u, v, as one row of bits for each value of p: the same set as that of `writings_literally`,
/// position classes first, then the two sequences of values that its comment names, each to its first repetition.
pub fn writings(m: &Morphism, u: &[u8], v: &[u8]) -> Vec<u64> {
    let (start, d) = shape(u, v);
    let first = start.max(1);
    let mut rows = vec![0; m.n];
    let turn = segment(u, v, first, d);
    let rotations = rotation_values(m, &turn);
    let mut p = m.value(&segment(u, v, 0, first));
    for (j, r) in rotations.into_iter().enumerate() {
        let (mut powers, mut w) = (0u64, r);
        while powers >> w & 1 == 0 {
            powers |= 1 << w;
            w = m.product(w, r);
        }
        let (mut seen, mut s) = (0u64, p);
        while seen >> s & 1 == 0 {
            seen |= 1 << s;
            rows[s as usize] |= powers;
            s = m.product(s, r);
        }
        p = m.product(p, m.images[turn[j] as usize]);
    }
    rows
}

/// The value of each rotation of a word: letter by letter where the word is short. Else from the values of its beginnings and
/// ends, a few rotations letter by letter too.
fn rotation_values(m: &Morphism, word: &[u8]) -> Vec<u8> {
    let rotate = |j: usize| m.value(&[&word[j..], &word[..j]].concat());
    if word.len() <= 64 {
        return (0..word.len()).map(rotate).collect();
    }
    let mut ends = vec![m.images[word[word.len() - 1] as usize]; word.len()];
    for j in (0..word.len() - 1).rev() {
        ends[j] = m.product(m.images[word[j] as usize], ends[j + 1]);
    }
    let mut values = vec![ends[0]];
    let mut beginning = m.images[word[0] as usize];
    for j in 1..word.len() {
        values.push(m.product(ends[j], beginning));
        beginning = m.product(beginning, m.images[word[j] as usize]);
    }
    for j in (0..word.len())
        .step_by(word.len() / 9)
        .chain([word.len() - 1])
    {
        assert_eq!(values[j], rotate(j), "the definitions disagree");
    }
    values
}

/// Whether a set of values, as rows of bits, has a pair of the level.
fn meets(rows: &[u64], level: &Level) -> bool {
    let mut both = rows.iter().zip(&level.0);
    both.any(|(row, pairs)| row & pairs != 0)
}

pub fn accepts(m: &Morphism, level: &Level, u: &[u8], v: &[u8]) -> bool {
    meets(&writings(m, u, v), level)
}

/// The highest grade whose level accepts the lasso, 0 where none does.
pub fn grade(m: &Morphism, marking: &Marking, u: &[u8], v: &[u8]) -> u8 {
    let rows = writings(m, u, v);
    let mut falling = GRADES.into_iter().rev();
    let highest = falling.find(|least| meets(&rows, marking.level(*least)));
    highest.unwrap_or(0)
}
