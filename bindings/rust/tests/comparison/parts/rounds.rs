//! Rules whose reduction needs many rounds, and limits on both sides of what they need.

use crate::calls::*;
use crate::definitions::rule::{Mark, Morphism};
use crate::inputs::{marks, morphisms};
use crate::subject::Subject;
use duknavet::MOST_ROUNDS;

pub fn run(c: &mut Comparison, half: usize) {
    for n in (3..=64).skip(half).step_by(2) {
        let m = counting(n);
        // Letter 1 just n - 2 times: each round tells one count more from the counts that are too high.
        let mark = Mark {
            pair: (n as u8 - 2, 0),
            grade: c.random.within(1, 3) as u8,
        };
        let subject = Subject::new(m.with(vec![mark]).bytes());
        let needed = around(c, &subject);
        assert_eq!(needed, Some(n - 3), "{:?}", subject.bytes);
        if n == 64 {
            c.tally.count("reduce_rounds", "61 rounds");
        }
        let marks = marks::mixed(&mut c.random, &m);
        around(c, &Subject::new(m.with(marks).bytes()));
    }
    for _ in 0..400 {
        let m = morphisms::any(&mut c.random, 14);
        let marks = marks::mixed(&mut c.random, &m);
        around(c, &Subject::new(m.with(marks).bytes()));
    }
}

/// The rounds that a rule needs, if it is strong; with every limit around them the answer is the one there. A larger limit does not alter it.
fn around(c: &mut Comparison, subject: &Subject) -> Option<usize> {
    let sizes = c.enough(ROUNDS_SIZES);
    c.reduce_rounds(subject, MOST_ROUNDS + 1, sizes);
    c.reduce_rounds(subject, usize::MAX, sizes);
    if !c.settled(subject) {
        c.tally.count("reduce_rounds", "20 for a weak rule");
    }
    let (needed, finished) = c.reduce_rounds(subject, MOST_ROUNDS, sizes)?;
    assert!(finished, "more rounds than elements");
    for limit in [0, needed.saturating_sub(1), needed, needed + 1, 63] {
        let (rounds, finished) = c.reduce_rounds(subject, limit, sizes)?;
        assert_eq!((rounds, finished), (needed.min(limit), needed <= limit));
    }
    Some(needed)
}

/// How often letter 1 occurs, up to n - 2, and n - 1 for more often; letter 0 does not count.
fn counting(n: usize) -> Morphism {
    let most = n - 1;
    let sums = (0..n).flat_map(|s| (0..n).map(move |t| (s + t).min(most) as u8));
    Morphism {
        n,
        table: sums.collect(),
        images: vec![0, 1],
    }
}
