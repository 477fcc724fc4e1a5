//! Rules of temporal formulas: of numbers in and out of their ranges, of random rules, weak ones too, and of rules that were made so.

use crate::calls::*;
use crate::definitions::rule::{Mark, Morphism};
use crate::inputs::{marks, morphisms};
use crate::subject::Subject;
use duknavet::RULE_OUT;

pub fn run(c: &mut Comparison, count: usize) {
    for _ in 0..2 * count {
        numbers(c);
    }
    for letters in [2, 3] {
        formulas(c, letters, count);
    }
    for i in 0..count {
        let limit = if i % 10 == 0 { 7 } else { 4 };
        let (first, second) = (rule(c, limit), rule(c, limit));
        if let Some(next) = next(c, &first) {
            let next = Subject::new(next);
            if next.known().morphism().n <= 8 {
                until(c, &next, &second);
            }
        }
        until(c, &first, &second);
        if i % 4 == 0 {
            until(c, &first, &first);
        }
    }
    // Each letter its own element, which a word that begins with it has: so many pairs of a first letter and the next, and those without one.
    for n in [7, 8, 16] {
        next(c, &by_first_letter(&vec![0; n]));
    }
    // Ten letters with which nothing is decided, and six that bound the grade from below and above in eight ways.
    let first = by_first_letter(&[3, 3, 3, 3, 3, 3, 3, 3, 3, 3, 0, 1, 2, 3, 3, 2]);
    let second = by_first_letter(&[0, 0, 0, 0, 0, 0, 0, 0, 0, 0, 0, 1, 2, 3, 1, 0]);
    until(c, &first, &second);
    for (m, n) in [(8, 9), (4, 5), (3, 9)] {
        let rules = [m, n].map(|n| Subject::new(morphisms::sums(n, &[1]).with(Vec::new()).bytes()));
        until(c, &rules[0], &rules[1]);
    }
}

/// Rules made of rules: those of first letters at first, then what `next` and `until` make of some, reduced, so that grades depend on the places of
/// the letters.
fn formulas(c: &mut Comparison, letters: usize, count: usize) {
    let mut pool: Vec<Subject> = Vec::new();
    while pool.len() < 6 {
        let grades: Vec<u8> = (0..letters).map(|_| c.random.below(4) as u8).collect();
        pool.push(by_first_letter(&grades));
    }
    while pool.len() < 10 {
        let own = rule(c, 4);
        let strong = duknavet::owned::strong(&own.bytes) == Ok(duknavet::Strength::Strong);
        if strong && own.known().morphism().letters() == letters {
            pool.push(own);
        }
    }
    for _ in 0..count {
        let [one, two] = [(); 2].map(|()| c.random.below(pool.len()));
        let made = match c.random.below(4) {
            0 => next(c, &pool[one]),
            _ => until(c, &pool[one], &pool[two]),
        };
        let Some(made) = made else {
            continue;
        };
        let made = duknavet::owned::reduce(&made).expect("a strong rule");
        // Those with many elements would soon be all that there is.
        if (2..=8).contains(&made[0]) {
            let place = c.random.within(6, 30).min(pool.len());
            pool.truncate(30);
            match pool.get_mut(place) {
                Some(old) => *old = Subject::new(made),
                None => pool.push(Subject::new(made)),
            }
        }
    }
}

/// A letter and an element for each grade: a word has the element of its first letter, and a lasso that letter's grade.
fn by_first_letter(grades: &[u8]) -> Subject {
    let n = grades.len();
    let m = Morphism {
        n,
        table: (0..n * n).map(|at| (at / n) as u8).collect(),
        images: (0..n as u8).collect(),
    };
    let graded = m.linked_pairs().into_iter().map(|pair| Mark {
        pair,
        grade: grades[pair.0 as usize],
    });
    let marks = graded.filter(|mark| mark.grade > 0).collect();
    Subject::new(m.with(marks).bytes())
}

fn numbers(c: &mut Comparison) {
    let letters = match c.random.below(6) {
        0 => *c.random.pick(&[0, 17, usize::MAX]),
        _ => c.random.within(1, 16),
    };
    let below = (1usize << letters.min(16)) - 1;
    let set = match c.random.below(8) {
        0 => c.random.next() as usize,
        1 => 1 << c.random.below(64),
        2 => 0,
        3 => below,
        _ => c.random.next() as usize & below,
    };
    let grade = match c.random.below(8) {
        0 => *c.random.pick(&[4, usize::MAX]),
        _ => c.random.below(4),
    };
    let size = match c.random.once_in(20) {
        true => c.short([RULE_OUT]),
        false => c.enough([RULE_OUT]),
    };
    let numbers = Numbers {
        letters,
        set,
        grade,
    };
    c.first_letter(numbers, size[0]);
    c.constant(numbers, size[0]);
}

fn rule(c: &mut Comparison, limit: usize) -> Subject {
    let m = morphisms::any(&mut c.random, limit);
    let marks = marks::mixed(&mut c.random, &m);
    Subject::new(m.with(marks).bytes())
}

fn next(c: &mut Comparison, rule: &Subject) -> Option<Vec<u8>> {
    let sizes = match c.random.once_in(40) {
        true => c.short(NEXT_SIZES),
        false => c.enough(NEXT_SIZES),
    };
    c.next(rule, sizes)
}

fn until(c: &mut Comparison, first: &Subject, second: &Subject) -> Option<Vec<u8>> {
    let sizes = match c.random.once_in(40) {
        true => c.short(UNTIL_SIZES),
        false => c.enough(UNTIL_SIZES),
    };
    c.until((first, second), sizes)
}
