//! Marks of a morphism: closed under conjugacy, nearly closed, closed in their pairs alone, and any; of one, two or three grades.

use crate::definitions::conjugacy;
use crate::definitions::rule::{Mark, Morphism, Pair};
use crate::random::Random;

fn some<T: Copy>(random: &mut Random, all: &[T], times: usize) -> Vec<T> {
    let kept: Vec<T> = all
        .iter()
        .filter(|_| random.once_in(times))
        .copied()
        .collect();
    random.shuffled(&kept)
}

/// The grades of a marking: one, two or all three.
const SETS: [&[u8]; 9] = [
    &[1],
    &[2],
    &[3],
    &[1, 2],
    &[1, 3],
    &[2, 3],
    &[1, 2, 3],
    &[1, 2, 3],
    &[1, 2, 3],
];

/// Grades for the pairs, drawn pair by pair.
pub fn graded(random: &mut Random, pairs: &[Pair]) -> Vec<Mark> {
    let set = *random.pick(&SETS);
    let mark = |pair: &Pair| Mark {
        pair: *pair,
        grade: *random.pick(set),
    };
    pairs.iter().map(mark).collect()
}

fn pairs(marks: &[Mark]) -> Vec<Pair> {
    marks.iter().map(|mark| mark.pair).collect()
}

pub fn any(random: &mut Random, m: &Morphism) -> Vec<Mark> {
    let times = random.within(1, 4);
    let pairs = some(random, &m.linked_pairs(), times);
    graded(random, &pairs)
}

/// Conjugate pairs have equal grades: each class has its own, or none.
pub fn closed(random: &mut Random, m: &Morphism) -> Vec<Mark> {
    let classes = conjugacy::classes(m);
    let least = |(s, e): &Pair| {
        let number = *s as usize * m.n + *e as usize;
        classes[number] as usize == number
    };
    let each: Vec<Pair> = m.linked_pairs().into_iter().filter(least).collect();
    let times = random.within(1, 4);
    let pairs = some(random, &each, times);
    let marks = graded(random, &pairs);
    some(random, &conjugacy::closure(m, &marks), 1)
}

/// Closed marks less one, or one of them with another grade.
pub fn nearly_closed(random: &mut Random, m: &Morphism) -> Vec<Mark> {
    let mut marks = closed(random, m);
    if !marks.is_empty() {
        let at = random.below(marks.len());
        match random.once_in(2) {
            true => drop(marks.swap_remove(at)),
            false => marks[at].grade = random.within(1, 3) as u8,
        }
    }
    marks
}

/// The pairs of closed marks with other grades: closed, and so strong, for grade 1, and often weak above it.
pub fn closed_pairs(random: &mut Random, m: &Morphism) -> Vec<Mark> {
    let marks = closed(random, m);
    graded(random, &pairs(&marks))
}

pub fn mixed(random: &mut Random, m: &Morphism) -> Vec<Mark> {
    match random.below(6) {
        0 => any(random, m),
        1 => nearly_closed(random, m),
        2 => {
            let linked = m.linked_pairs();
            let pair = *random.pick(&linked);
            graded(random, &[pair])
        }
        3 => closed_pairs(random, m),
        _ => closed(random, m),
    }
}

/// A second marking to compare one with: its closure, the same pairs with other grades, or any.
pub fn second(random: &mut Random, m: &Morphism, marks: &[Mark]) -> Vec<Mark> {
    match random.below(6) {
        0 | 1 => conjugacy::closure(m, marks),
        2 => graded(random, &pairs(marks)),
        _ => mixed(random, m),
    }
}

/// The closure of the marks, but with another grade for one class of conjugate pairs, which then may have none.
pub fn regraded(random: &mut Random, m: &Morphism, marks: &[Mark]) -> Vec<Mark> {
    let classes = conjugacy::classes(m);
    let class = |(s, e): Pair| classes[s as usize * m.n + e as usize];
    let linked = m.linked_pairs();
    let chosen = class(*random.pick(&linked));
    let (before, mut marks): (Vec<Mark>, Vec<Mark>) = conjugacy::closure(m, marks)
        .into_iter()
        .partition(|mark| class(mark.pair) == chosen);
    let before = before.first().map_or(0, |mark| mark.grade);
    let grade = (before + random.within(1, 3) as u8) % 4;
    if grade > 0 {
        let pairs = linked.into_iter().filter(|pair| class(*pair) == chosen);
        marks.extend(pairs.map(|pair| Mark { pair, grade }));
    }
    random.shuffled(&marks)
}
