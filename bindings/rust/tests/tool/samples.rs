//! Small rules and automata, and rules from random numbers.

use crate::definitions::rule::{Mark, Rule};
use crate::inputs::{marks, morphisms};
use crate::random::Random;

/// Letter 0 without end.
pub const W: &[u8] = &[2, 0, 0, 0, 1, 2, 0, 1, 1, 0, 0, 0, 3];
/// W's table with all linked pairs marked, of three grades.
pub const GRADED: &[u8] = &[2, 0, 0, 0, 1, 2, 0, 1, 3, 0, 0, 0, 3, 0, 1, 2, 1, 1, 1];
/// Sums modulo 2; weak.
pub const Z: &[u8] = &[2, 0, 1, 1, 0, 2, 1, 0, 1, 0, 0, 0, 3];
/// How often letter 1 occurs, up to twice, and more often; grade 3 for just twice.
pub const TWICE: &[u8] = &[
    4, 0, 1, 2, 3, 1, 2, 3, 3, 2, 3, 3, 3, 3, 3, 3, 3, 2, 0, 1, 1, 0, 2, 0, 3,
];
/// W's table without a mark.
pub const UNMARKED: &[u8] = &[2, 0, 0, 0, 1, 2, 0, 1, 0, 0];
pub const NOT_ASSOCIATIVE: &[u8] = &[2, 1, 0, 0, 0, 2, 0, 1, 0, 0];
/// W as an automaton.
pub const AUTOMATON: &[u8] = &[2, 1, 2, 2, 4, 0, 0, 0, 1, 0, 1, 0, 1, 0, 1, 1, 1, 0];

/// W with names for its letters.
pub const NAMED: &str = "duknavet rule 1
# The flap opens again and again.
elements 2
  0 0
  0 1
letters 2
  open 0
  shut 1   # a comment
marks 1
  0 0 proper
";

/// Sums modulo n, one letter of value 1 and the pair (0, 0) marked; strong.
pub fn remainders(n: usize) -> Rule {
    let pair = (0, 0);
    morphisms::sums(n, &[1]).with(vec![Mark { pair, grade: 3 }])
}

/// A rule that passes the checks, strong or weak.
pub fn rule(random: &mut Random, limit: usize) -> Rule {
    let morphism = morphisms::any(random, limit);
    let marks = marks::mixed(random, &morphism);
    morphism.with(marks)
}
