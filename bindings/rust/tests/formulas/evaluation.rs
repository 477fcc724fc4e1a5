//! Formulas worked out directly on lassos, apart from the library, and what operators mean there.

use super::{formula, letters, propositions};
use duknavet::formulas::Formula;

/// The grade of a formula at each place of a lasso, the places of u and then those of v, by its definition.
pub fn grades(formula: &Formula, u: &[u8], v: &[u8]) -> Vec<u8> {
    let word: Vec<u8> = u.iter().chain(v).copied().collect();
    let next = |at: usize| if at + 1 < word.len() { at + 1 } else { u.len() };
    let part = |part: &Formula| grades(part, u, v);
    let each = |own: &dyn Fn(usize) -> u8| (0..word.len()).map(own).collect::<Vec<u8>>();
    // Going back along the word once for each place lets every grade come round the cycle.
    let settled = |begin: u8, step: &dyn Fn(usize, u8) -> u8| {
        let mut now = vec![begin; word.len()];
        for _ in 0..=word.len() {
            for at in (0..word.len()).rev() {
                now[at] = step(at, now[next(at)]);
            }
        }
        now
    };
    match formula {
        Formula::Letters(set) => each(&|at| 3 * u8::from(set >> word[at] & 1 == 1)),
        Formula::Constant(grade) => vec![*grade; word.len()],
        Formula::Not(own) => part(own).iter().map(|grade| 3 - grade).collect(),
        Formula::Both(first, second) => {
            let (first, second) = (part(first), part(second));
            each(&|at| first[at].min(second[at]))
        }
        Formula::Either(first, second) => {
            let (first, second) = (part(first), part(second));
            each(&|at| first[at].max(second[at]))
        }
        Formula::Next(own) => {
            let own = part(own);
            each(&|at| own[next(at)])
        }
        Formula::Until(first, second) => {
            let (first, second) = (part(first), part(second));
            settled(0, &|at, behind| second[at].max(first[at].min(behind)))
        }
        Formula::WeakUntil(first, second) => {
            let (first, second) = (part(first), part(second));
            settled(3, &|at, behind| second[at].max(first[at].min(behind)))
        }
        Formula::Eventually(own) => {
            let own = part(own);
            settled(0, &|at, behind| own[at].max(behind))
        }
        Formula::Always(own) => {
            let own = part(own);
            settled(3, &|at, behind| own[at].min(behind))
        }
        Formula::Release(first, second) => {
            let (first, second) = (part(first), part(second));
            settled(3, &|at, behind| second[at].min(first[at].max(behind)))
        }
    }
}

#[test]
fn operators_mean_what_they_say() {
    let alphabet = letters(&["a", "b", "c"]);
    let grade = |text: &str, u: &[u8], v: &[u8]| grades(&formula(text, &alphabet), u, v)[0];
    assert_eq!(grade("G F a", &[1, 1], &[0, 2]), 3);
    assert_eq!(grade("F G a", &[1, 1], &[0, 2]), 0);
    assert_eq!(grade("F G {a, c}", &[1, 1], &[0, 2]), 3);
    assert_eq!(grade("b U a", &[1, 1], &[0, 2]), 3);
    assert_eq!(grade("b U c", &[1, 1], &[0, 2]), 0);
    assert_eq!(grade("b U a", &[], &[1]), 0);
    assert_eq!(grade("b W a", &[], &[1]), 3);
    assert_eq!(grade("X X a", &[1, 1], &[0, 2]), 3);
    assert_eq!(grade("a R b", &[], &[1]), 3);
    assert_eq!(grade("a R {a, b}", &[1], &[0, 2]), 3);
    assert_eq!(grade("a M {a, b}", &[], &[1]), 0);
    assert_eq!(grade("a && b", &[], &[0]), 0);
}

#[test]
fn parts_without_temporal_operators_are_sets() {
    let alphabet = propositions(&["a", "b"]);
    assert_eq!(formula("a", &alphabet), Formula::Letters(0b1010));
    assert_eq!(formula("b && !a", &alphabet), Formula::Letters(0b0100));
    assert_eq!(formula("a -> a", &alphabet), Formula::Constant(3));
    assert_eq!(formula("a xor a", &alphabet), Formula::Constant(0));
    let always = Formula::Always(Box::new(Formula::Letters(0b1001)));
    assert_eq!(formula("G (a <-> b)", &alphabet), always);
}
