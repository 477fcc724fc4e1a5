//! Whether a rule grades no lasso higher than another rule, end to end and against the engine written apart.

use crate::definitions::acceptance::Marking;
use crate::definitions::equivalence;
use crate::definitions::rule::Rule as Expected;
use crate::definitions::splits;
use crate::inputs::marks;
use crate::program::{run, run_with, Scrap};
use crate::random::Random;
use crate::samples::{rule, GRADED, NAMED, W, Z};
use duknavet::files::{Mark, Rule};
use duknavet::owned;
use duknavet::witness::{included_in, Grades};

fn marking(rule: &Expected) -> Marking {
    Marking::new(rule.morphism.n, &rule.marks)
}

#[test]
fn against_the_engine() {
    let mut random = Random::new(3811);
    let (mut yes, mut no) = (0, 0);
    while yes < 150 || no < 150 {
        let first = rule(&mut random, 10);
        let second = match random.below(3) {
            0 => first
                .morphism
                .with(marks::closed(&mut random, &first.morphism)),
            _ => rule(&mut random, 7),
        };
        if first.morphism.letters() != second.morphism.letters() {
            continue;
        }
        let (a, b) = (marking(&first), marking(&second));
        if !splits::strong(&first.morphism, &a) || !splits::strong(&second.morphism, &b) {
            continue;
        }
        let found = included_in(&first.bytes(), &second.bytes()).expect("two strong rules");
        let differences = equivalence::of_rules((&first.morphism, &a), (&second.morphism, &b));
        let mut differences = differences.iter();
        let higher = differences.any(|own| own.grades.0 > own.grades.1);
        match found {
            Grades::NoneHigher => {
                assert!(!higher);
                yes += 1;
            }
            Grades::Higher(own) => {
                let grade = |rule: &Expected| {
                    let member = owned::member(&rule.bytes(), &own.lasso.u, &own.lasso.v);
                    member.expect("a lasso").grade
                };
                assert!(higher && own.first > own.second);
                assert_eq!((grade(&first), grade(&second)), (own.first, own.second));
                no += 1;
            }
            Grades::TooLarge(pairs) => assert!(pairs > 64 && !higher),
        }
    }
}

#[test]
fn through_the_tool() {
    let (graded, named) = (Scrap::holding(GRADED), Scrap::holding(NAMED.as_bytes()));
    let asked = |first: &Scrap, second: &[u8]| run_with(&["included", first.name(), "-"], second);
    assert_eq!(asked(&graded, W).printed(1), "u:  v: 1\ngrades 1 0\n");
    let by_number = "standard input names no letters, so they go by their numbers";
    assert_eq!(asked(&named, GRADED).noted(0, by_number), "included\n");
    // Its letters in the other order, and its names exchanged.
    let other_order = NAMED.replace("open 0\n  shut 1", "shut 1\n  open 0");
    assert_eq!(
        asked(&named, other_order.as_bytes()).printed(0),
        "included\n"
    );
    let exchanged = NAMED.replace("open 0\n  shut 1", "shut 0\n  open 1");
    let printed = "u:  v: open\ngrades 3 0\n";
    assert_eq!(asked(&named, exchanged.as_bytes()).printed(1), printed);
    let words = ["included", "--by-number", named.name(), "-"];
    let by_number = run_with(&words, exchanged.as_bytes());
    let said = "letters go by their numbers, as --by-number asks";
    assert_eq!(by_number.noted(0, said), "included\n");
    asked(&graded, Z).said(2, "the second rule is weak");
    asked(
        &named,
        &NAMED.replace("0 0 proper", "1 0 proper").into_bytes(),
    )
    .said(
        2,
        "standard input: line 10, column 3: the second rule: mark 0, the pair (1, 0)",
    );
    run(&["included", "--as", "rule", named.name(), graded.name()]).noted(
        0,
        &format!(
            "{} names no letters, so they go by their numbers",
            graded.name()
        ),
    );
}

/// A rule whose elements are such values with a sum of their own, and whose letters 0 and 1 have the first two of them.
fn sums(
    values: &[(u8, u8)],
    sum: impl Fn((u8, u8), (u8, u8)) -> (u8, u8),
    marks: &[[(u8, u8); 2]],
) -> Vec<u8> {
    let number = |value: (u8, u8)| {
        values
            .iter()
            .position(|own| *own == value)
            .expect("a value") as u8
    };
    let products = values
        .iter()
        .flat_map(|a| values.iter().map(|b| number(sum(*a, *b))));
    let mark = |[s, e]: &[(u8, u8); 2]| Mark {
        s: number(*s),
        e: number(*e),
        grade: 3,
    };
    let rule = Rule {
        elements: values.len() as u8,
        products: products.collect(),
        images: vec![0, 1],
        marks: marks.iter().map(mark).collect(),
    };
    rule.bytes()
}

/// Where words have more pairs of values than a rule has room for, only no can be shown.
#[test]
fn more_pairs_than_a_rule_has_room_for() {
    // Just eight times letter 1, then letter 0 for ever: how often letter 1 occurs is counted up to nine.
    let ones: Vec<(u8, u8)> = (0..=9).map(|ones| (ones, 0)).collect();
    let eight_ones = sums(&ones, |a, b| ((a.0 + b.0).min(9), 0), &[[(8, 0), (0, 0)]]);
    // Just eight times letter 0, then letter 1 for ever; and whether letter 1 occurs at all.
    let zeros = |a: (u8, u8), b: (u8, u8)| ((a.0 + b.0).min(9), a.1.max(b.1));
    let mut values = vec![(1, 0), (0, 1)];
    values.extend((2..=9).map(|zeros| (zeros, 0)));
    values.extend((1..=9).map(|zeros| (zeros, 1)));
    let eight_zeros = [(8, 1), (0, 1)];
    let at_last_zeros = [[(9, 0), (9, 0)], [(9, 1), (9, 0)], eight_zeros];
    let [first, second, third] = [
        eight_ones,
        sums(&values, zeros, &[eight_zeros]),
        sums(&values, zeros, &at_last_zeros),
    ]
    .map(|bytes| Scrap::holding(&bytes));
    let higher = "u: 1 1 1 1 1 1 1 1  v: 0\ngrades 3 0\n";
    assert_eq!(
        run(&["included", first.name(), second.name()]).printed(1),
        higher
    );
    run(&["included", first.name(), third.name()])
        .said(2, "words have 99 pairs of values in both, more than 64");
    run(&["combine", "both", first.name(), third.name()]).said(2, "refusal 19");
}
