//! Pairs of rules: of one and of several letters, the same rule twice, a rule and its complement, weak ones, and pairs that are too many.

use crate::calls::*;
use crate::definitions::rule::Mark;
use crate::inputs::{marks, morphisms};
use crate::subject::Subject;
use duknavet::{Operation, RULE_OUT, SCRATCH};

const OPERATIONS: [Operation; 3] = [Operation::Both, Operation::Either, Operation::Without];

pub fn run(c: &mut Comparison, count: usize) {
    for i in 0..count {
        let limit = if i % 6 == 0 { 14 } else { 6 };
        let first = rule(c, limit);
        let second = rule(c, limit);
        each(c, &first, &second);
        if i % 4 == 0 {
            each(c, &first, &first);
            with_complement(c, &first);
        }
    }
    // Remainders by m and by n with one letter: as many pairs as the least common multiple.
    for (m, n) in [(8, 9), (8, 8), (5, 13), (7, 9), (4, 16), (1, 64), (13, 5)] {
        let (first, second) = (remainders(m), remainders(n));
        each(c, &first, &second);
    }
}

fn rule(c: &mut Comparison, limit: usize) -> Subject {
    let m = morphisms::any(&mut c.random, limit);
    let marks = marks::mixed(&mut c.random, &m);
    Subject::new(m.with(marks).bytes())
}

fn each(c: &mut Comparison, first: &Subject, second: &Subject) {
    for operation in OPERATIONS {
        let sizes = match c.random.once_in(40) {
            true => c.short(COMBINE_SIZES),
            false => c.enough(COMBINE_SIZES),
        };
        c.combine((first, second), operation, sizes);
    }
}

/// A rule and its complement: both have 3 for no lasso of one grade, either has 3 for all of them.
fn with_complement(c: &mut Comparison, first: &Subject) {
    let (mut out, mut scratch) = (vec![0; RULE_OUT], vec![0; SCRATCH]);
    let Ok(answer) = duknavet::complement(&first.bytes, &mut out, &mut scratch) else {
        return;
    };
    let second = Subject::new(out[..answer.length].to_vec());
    each(c, first, &second);
    c.tally.count("combine", "with its complement");
}

/// Sums modulo n, one letter of value 1 and the pair (0, 0) marked.
fn remainders(n: usize) -> Subject {
    let mark = Mark {
        pair: (0, 0),
        grade: 3,
    };
    Subject::new(morphisms::sums(n, &[1]).with(vec![mark]).bytes())
}
