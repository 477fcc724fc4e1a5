//! A lasso of each grade that a rule gives, against the engine written apart.

use crate::definitions::acceptance::{grade, Marking};
use crate::definitions::rule::Rule;
use crate::definitions::splits;
use crate::random::Random;
use crate::samples::rule;
use duknavet::files::{Lasso, Mark};
use duknavet::witness::{examples, Example};
use duknavet::{owned, Strength};

/// The lassos of so many letters.
fn lassos(letters: usize, length: usize) -> Vec<Lasso> {
    let mut words: Vec<Vec<u8>> = vec![Vec::new()];
    for _ in 0..length {
        let longer = words.iter().flat_map(|word| {
            (0..letters).map(move |letter| [word.as_slice(), &[letter as u8]].concat())
        });
        words = longer.collect();
    }
    let cut = |word: &Vec<u8>| {
        let lasso = |at: usize| Lasso {
            u: word[..at].to_vec(),
            v: word[at..].to_vec(),
        };
        (0..word.len()).map(lasso).collect::<Vec<_>>()
    };
    words.iter().flat_map(cut).collect()
}

/// How many letters the lassos have that are all looked at.
fn tried(rule: &Rule) -> usize {
    match rule.morphism.letters() {
        1 => 9,
        2 => 6,
        3 => 4,
        _ => 2,
    }
}

#[test]
fn each_grade_that_occurs_has_a_lasso() {
    let mut random = Random::new(5203);
    // Missing, shortest, short; of weak rules and of strong ones.
    let mut seen = [[0; 3]; 2];
    for _ in 0..600 {
        let rule = rule(&mut random, 8);
        let marking = Marking::new(rule.morphism.n, &rule.marks);
        let strong = splits::strong(&rule.morphism, &marking);
        let graded = |lasso: &Lasso| grade(&rule.morphism, &marking, &lasso.u, &lasso.v);
        let found = examples(&rule.bytes()).expect("a rule").expect("confirmed");
        let shorter = |length: usize, grade: u8| {
            let lengths = 1..length.min(tried(&rule) + 1);
            let mut all = lengths.flat_map(|length| lassos(rule.morphism.letters(), length));
            all.find(|lasso| graded(lasso) == grade)
        };
        for (grade, example) in (0..).zip(&found) {
            let kind = match example {
                Example::Missing => {
                    assert_eq!(shorter(usize::MAX, grade), None, "{grade} of {rule:?}");
                    0
                }
                Example::Shortest(lasso) => {
                    assert_eq!(graded(lasso), grade, "{lasso:?} of {rule:?}");
                    assert_eq!(
                        shorter(lasso.letters(), grade),
                        None,
                        "{lasso:?} of {rule:?}"
                    );
                    1
                }
                Example::Short(lasso) => {
                    assert_eq!(graded(lasso), grade, "{lasso:?} of {rule:?}");
                    2
                }
            };
            seen[usize::from(strong)][kind] += 1;
        }
    }
    assert!(seen[0][0] > 20 && seen[0][1] > 50, "{seen:?}");
    assert!(seen[1][0] > 50 && seen[1][1] > 50, "{seen:?}");
}

/// A grade that only lassos have with more letters than are tried: five letters come again and again, and a turn too, or an even number of them in all.
#[test]
fn a_grade_of_long_lassos_only() {
    // A set of five letters, and the sum of turns modulo 2.
    let product = |a: u8, b: u8| (a | b) & 31 | (a ^ b) & 32;
    let both = (0..64).flat_map(|a| (0..64).map(move |b| (a, b)));
    let rule = duknavet::files::Rule {
        elements: 64,
        products: both.map(|(a, b)| product(a, b)).collect(),
        images: vec![0, 1, 2, 4, 8, 16, 32],
        marks: vec![Mark {
            s: 31,
            e: 31,
            grade: 3,
        }],
    };
    let bytes = rule.bytes();
    assert_eq!(owned::strong(&bytes).expect("a rule"), Strength::Weak);
    let found = examples(&bytes).expect("a rule").expect("confirmed");
    let Example::Short(lasso) = &found[3] else {
        panic!("{found:?}");
    };
    assert_eq!((lasso.u.len(), lasso.v.len()), (0, 5));
    assert!(matches!(&found[0], Example::Shortest(lasso) if lasso.letters() == 1));
    assert_eq!(found[1..3], [Example::Missing, Example::Missing]);
}
