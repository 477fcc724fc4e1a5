//! The rules of formulas against the formulas themselves, worked out directly on lassos.

use super::evaluation::grades;
use super::{formula, letters, propositions};
use duknavet::formulas::{make, Alphabet, Formula, Made, Program};
use duknavet::owned;

fn rule(formula: &Formula, letters: usize) -> Option<Made> {
    let program = Program::of(formula).ok()?;
    make(letters, &program).ok()
}

pub fn of(text: &str, alphabet: &Alphabet) -> Vec<u8> {
    let made = rule(&formula(text, alphabet), alphabet.letters());
    made.unwrap_or_else(|| panic!("{text} has no rule")).rule
}

/// Numbers from a fixed seed.
struct Random(u64);

impl Random {
    fn below(&mut self, bound: usize) -> usize {
        self.0 ^= self.0 << 13;
        self.0 ^= self.0 >> 7;
        self.0 ^= self.0 << 17;
        (self.0 >> 11) as usize % bound
    }

    fn word(&mut self, letters: usize, least: usize) -> Vec<u8> {
        let length = least + self.below(4);
        (0..length).map(|_| self.below(letters) as u8).collect()
    }

    /// A formula with grades of at most some depth.
    fn formula(&mut self, letters: usize, depth: usize) -> Formula {
        let all = (1 << letters) - 1;
        if depth == 0 || self.below(6) == 0 {
            return match self.below(5) {
                0 => Formula::Constant(self.below(4) as u8),
                1 => Formula::Letters((1 + self.below(all)) as u16).graded(1 + self.below(2) as u8),
                _ => Formula::Letters((1 + self.below(all)) as u16),
            };
        }
        let kind = self.below(9);
        let first = Box::new(self.formula(letters, depth - 1));
        if kind < 4 {
            return match kind {
                0 => Formula::Not(first),
                1 => Formula::Next(first),
                2 => Formula::Eventually(first),
                _ => Formula::Always(first),
            };
        }
        let second = Box::new(self.formula(letters, depth - 1));
        match kind {
            4 => Formula::Both(first, second),
            5 => Formula::Either(first, second),
            6 => Formula::Until(first, second),
            7 => Formula::Release(first, second),
            _ => Formula::WeakUntil(first, second),
        }
    }
}

#[test]
fn rules_of_random_formulas_have_their_grades() {
    let mut random = Random(0x5eed_0001);
    let (mut rules, mut lassos, mut seen) = (0, 0, [0; 4]);
    for turn in 0..3600 {
        let letters = 2 + turn % 2;
        let own = random.formula(letters, 4);
        let Some(made) = rule(&own, letters) else {
            continue;
        };
        rules += 1;
        for _ in 0..30 {
            let (u, v) = (random.word(letters, 0), random.word(letters, 1));
            let expected = grades(&own, &u, &v)[0];
            let told = owned::member(&made.rule, &u, &v).expect("a rule and a lasso");
            assert_eq!(told.grade, expected, "{own:?} at {u:?} {v:?}");
            seen[usize::from(expected)] += 1;
            lassos += 1;
        }
    }
    println!("{rules} rules, {lassos} lassos, grades {seen:?}");
    assert!(
        rules > 3400 && lassos >= 100_000 && seen.iter().all(|count| *count > 1000),
        "{rules} {lassos} {seen:?}"
    );
}

#[test]
fn laws_hold_byte_for_byte() {
    let mut random = Random(0x5eed_0002);
    let boxed = |formula: &Formula| Box::new(formula.clone());
    let not = |formula: &Formula| Box::new(Formula::Not(boxed(formula)));
    let next = |formula: &Formula| Box::new(Formula::Next(boxed(formula)));
    let both = |one: Box<Formula>, other: Box<Formula>| Formula::Both(one, other);
    let either = |one: Box<Formula>, other: Box<Formula>| Formula::Either(one, other);
    let mut held = [0; 11];
    for _ in 0..60 {
        let (f, g) = (random.formula(2, 2), random.formula(2, 2));
        let until = Formula::Until(boxed(&f), boxed(&g));
        let always = Formula::Always(boxed(&f));
        let weak = Formula::WeakUntil(boxed(&f), boxed(&g));
        let pairs = [
            (
                Formula::Not(Box::new(Formula::Both(boxed(&f), boxed(&g)))),
                Formula::Either(not(&f), not(&g)),
            ),
            (
                until.clone(),
                Formula::Either(boxed(&g), Box::new(Formula::Both(boxed(&f), next(&until)))),
            ),
            (
                Formula::Release(boxed(&f), boxed(&g)),
                Formula::Not(Box::new(Formula::Until(not(&f), not(&g)))),
            ),
            (*next(&until), Formula::Until(next(&f), next(&g))),
            (
                f.clone(),
                Formula::Either(boxed(&f), Box::new(Formula::Both(boxed(&f), boxed(&g)))),
            ),
            (
                Formula::Not(Box::new(either(boxed(&f), boxed(&g)))),
                both(not(&f), not(&g)),
            ),
            (
                f.clone(),
                both(boxed(&f), Box::new(either(boxed(&f), boxed(&g)))),
            ),
            (*next(&both(boxed(&f), boxed(&g))), both(next(&f), next(&g))),
            (always.clone(), both(boxed(&f), next(&always))),
            (
                weak.clone(),
                either(boxed(&g), Box::new(both(boxed(&f), next(&weak)))),
            ),
            (weak, either(Box::new(until), Box::new(always))),
        ];
        for (law, (left, right)) in pairs.into_iter().enumerate() {
            let (Some(one), Some(other)) = (rule(&left, 2), rule(&right, 2)) else {
                continue;
            };
            assert_eq!(one.rule, other.rule, "{left:?} and {right:?}");
            held[law] += 1;
        }
    }
    assert!(held.iter().all(|count| *count > 50), "{held:?}");
}

#[test]
fn rules_of_usual_formulas() {
    let alphabet = letters(&["a", "b"]);
    let w = [2, 0, 0, 0, 1, 2, 0, 1, 1, 0, 0, 0, 3];
    assert_eq!(of("G F a", &alphabet), w);
    assert_eq!(of("true", &alphabet), [1, 0, 2, 0, 0, 1, 0, 0, 0, 3]);
    assert_eq!(of("a && b", &alphabet), [1, 0, 2, 0, 0, 0, 0]);
    assert_eq!(of("!G F a", &alphabet), of("F G b", &alphabet));
    let made = rule(&formula("a U b", &alphabet), 2).expect("a rule");
    let sizes: Vec<usize> = made.steps.iter().map(|step| step.elements).collect();
    assert_eq!(sizes, [2, 2, 2]);
    let constant = rule(&formula("a U (a || !a)", &alphabet), 2).expect("a rule");
    assert_eq!(
        constant.steps.last().and_then(|step| step.constant),
        Some(3)
    );
}

/// The sizes of the specification patterns' rules over propositions: everywhere, before, after, between, after until.
#[test]
fn patterns_have_their_sizes() {
    let names = ["p", "q", "r", "s"];
    let sizes = |pattern: &str, used: &[&str]| -> Vec<u8> {
        let alphabet = propositions(used);
        let scopes = [
            "",
            " before(r)",
            " after(q)",
            " between(q, r)",
            " after_until(q, r)",
        ];
        scopes
            .map(|scope| of(&format!("{pattern}{scope}"), &alphabet)[0])
            .to_vec()
    };
    let three = &names[..3];
    assert_eq!(sizes("absence(p)", three), [2, 4, 5, 12, 6]);
    assert_eq!(sizes("universality(p)", three), [2, 4, 5, 12, 6]);
    assert_eq!(sizes("existence(p)", three), [2, 3, 5, 6, 7]);
    assert_eq!(sizes("precedence(s, p)", &names), [3, 5, 9, 13, 6]);
    assert_eq!(sizes("response(s, p)", &names), [4, 6, 10, 15, 18]);
}
