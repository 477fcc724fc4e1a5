//! Pairs of strong rules: several files for one rule, which have one print, and rules that differ, whose prints do too.

use crate::calls::*;
use crate::definitions::acceptance::grade;
use crate::definitions::checks::Automaton;
use crate::definitions::equivalence;
use crate::definitions::rule::{Morphism, Rule};
use crate::inputs::{automata, marks, morphisms, presentations};
use crate::random::Random;
use crate::subject::Subject;
use std::cell::OnceCell;
use std::collections::HashMap;
use std::rc::Rc;

type Presentation = fn(&mut Random, &Rule) -> Option<Rule>;
type Variant = fn(&mut Random, &Automaton) -> Automaton;

/// Files for the rule of one: strong as that is, or also weak, where lassos lose their grade without a mark that is left out or
/// lowered.
const ONE_RULE: [(&str, bool, Presentation); 6] = [
    ("elements renumbered", true, presentations::renumbered),
    ("marks in another order", true, presentations::reordered),
    ("marks closed", true, presentations::closed),
    ("marks left out", false, presentations::fewer_marks),
    ("marks lowered", false, presentations::lower_marks),
    ("times a cyclic group", true, presentations::times_cyclic),
];

/// Automata for the language of one.
const ONE_LANGUAGE: [(&str, Variant); 4] = [
    ("states renumbered", automata::renumbered),
    ("an unreachable state", automata::with_unreachable),
    ("a sink", automata::with_sink),
    ("a state doubled", automata::with_doubled),
];

/// How many pairs of matrices two automata may have for their lassos to be tried.
const MATRICES: usize = 40;

pub fn run(c: &mut Comparison, count: usize, half: usize) {
    let mut earlier: HashMap<usize, Subject> = HashMap::new();
    for i in 0..count {
        let m = match i % 5 {
            // One letter only: every marking is strong, closed or not.
            0 => {
                let (index, period) = (c.random.within(1, 4), c.random.within(2, 4));
                morphisms::monogenic(&mut c.random, index, period, 1).expect("small")
            }
            _ => morphisms::any(&mut c.random, 8),
        };
        let Some(subject) = rule(c, &m) else { continue };
        if let Some(other) = earlier.get(&m.letters()) {
            same_grades(c, "another rule", [&subject, other]);
        }
        earlier.insert(m.letters(), subject);
    }
    for _ in 0..count {
        automaton(c);
    }
    for kind in (half..morphisms::KINDS).step_by(2) {
        let m = morphisms::largest(&mut c.random, kind);
        largest(c, &m);
    }
}

/// Two strong rules over as many letters; whether they give every lasso the same grade.
fn same_grades(c: &mut Comparison, kind: &str, subjects: [&Subject; 2]) -> bool {
    let rules = subjects.map(|subject| &subject.bytes[..]);
    let strong = subjects.map(|subject| c.settled(subject));
    assert_eq!(strong, [true; 2], "{kind}: strength of {rules:?}");
    let [first, second] = subjects.map(|subject| {
        let known = subject.known();
        (known.morphism(), &known.marking)
    });
    let same = c.prints(kind, rules, &equivalence::of_rules(first, second));
    if same {
        let grades = |u: &[u8], v: &[u8]| [first, second].map(|(m, marks)| grade(m, marks, u, v));
        any_lassos(c, first.0.letters(), grades);
    }
    same
}

/// Two automata over as many letters, and their rules; whether they accept the same lassos. None if these are too many to try.
fn same_language(
    c: &mut Comparison,
    kind: &str,
    (first, rule): (&Automaton, &[u8]),
    second: &Automaton,
) -> Option<bool> {
    let differences = equivalence::of_automata(first, second, MATRICES)?;
    let sizes = c.enough(AUTOMATON_SIZES);
    let other = c.automaton_rule(&second.bytes(), sizes);
    let other = other.expect("no more matrices than pairs of them");
    let same = c.prints(kind, [rule, &other], &differences);
    if same {
        any_lassos(c, first.letters, |u, v| {
            [first, second].map(|automaton| automaton.accepts(u, v) as u8)
        });
    }
    if same && other != rule {
        c.tally.count("print", "equal, of two automata's rules");
    }
    Some(same)
}

/// Any lassos, some without a start: what decides that all have the same grade must agree.
fn any_lassos(c: &mut Comparison, letters: usize, grades: impl Fn(&[u8], &[u8]) -> [u8; 2]) {
    for _ in 0..4 {
        let lengths = (c.random.within(0, 9), c.random.within(1, 12));
        let u = c.random.word(lengths.0, letters);
        let v = c.random.word(lengths.1, letters);
        let [first, second] = grades(&u, &v);
        assert_eq!(first, second, "the definitions disagree on {u:?} {v:?}");
    }
}

/// A marking of a morphism, if the one that is drawn is strong, against other files for that rule and against other markings.
fn rule(c: &mut Comparison, m: &Morphism) -> Option<Subject> {
    let cycles = Rc::new(OnceCell::new());
    let subject_of = |rule: Rule| match rule.morphism == *m {
        true => Subject::sharing(rule.bytes(), cycles.clone()),
        false => Subject::new(rule.bytes()),
    };
    let rule = m.with(marks::mixed(&mut c.random, m));
    let subject = subject_of(rule.clone());
    if !c.settled(&subject) {
        return None;
    }
    for (kind, always_strong, presentation) in ONE_RULE {
        let other = presentation(&mut c.random, &rule).filter(|other| *other != rule);
        let Some(other) = other.map(subject_of) else {
            continue;
        };
        if !always_strong && !c.settled(&other) {
            c.tally.count("print", format!("weak: {kind}"));
            continue;
        }
        let same = same_grades(c, kind, [&subject, &other]);
        assert!(same, "{kind}: {:?} is not {rule:?}", other.bytes);
    }
    let other = subject_of(m.with(marks::regraded(&mut c.random, m, &rule.marks)));
    let same = same_grades(c, "one class regraded", [&subject, &other]);
    assert!(!same, "{:?} is {rule:?}", other.bytes);
    let other = subject_of(m.with(marks::mixed(&mut c.random, m)));
    if c.settled(&other) {
        same_grades(c, "another marking", [&subject, &other]);
    }
    Some(subject)
}

/// An automaton against others for its language and against other automata, by the prints of their rules.
fn automaton(c: &mut Comparison) {
    let (states, letters) = (c.random.within(1, 4), c.random.within(1, 3));
    let percent = c.random.within(1, 60) / states + 15;
    let first = automata::automaton(&mut c.random, states, letters, percent);
    let Some(rule) = c.automaton_rule(&first.bytes(), AUTOMATON_SIZES) else {
        return;
    };
    for (kind, other) in ONE_LANGUAGE {
        let other = other(&mut c.random, &first);
        if other != first {
            let same = same_language(c, kind, (&first, &rule), &other);
            assert_ne!(same, Some(false), "{kind}: {other:?} is not {first:?}");
        }
    }
    if !first.transitions.is_empty() {
        let other = automata::less_one(&mut c.random, &first);
        same_language(c, "a transition less", (&first, &rule), &other);
    }
    let states = c.random.within(1, 3);
    let other = automata::automaton(&mut c.random, states, letters, percent);
    same_language(c, "another automaton", (&first, &rule), &other);
}

/// A rule of 64 elements against the same with other numbers for them, and with one class regraded.
fn largest(c: &mut Comparison, m: &Morphism) {
    let cycles = Rc::new(OnceCell::new());
    let rule = m.with(marks::closed(&mut c.random, m));
    let subject = Subject::sharing(rule.bytes(), cycles.clone());
    let other = presentations::renumbered(&mut c.random, &rule).expect("any rule");
    let other = Subject::new(other.bytes());
    let same = same_grades(c, "elements renumbered", [&subject, &other]);
    assert!(same, "{:?} is not {rule:?}", other.bytes);
    let marks = marks::regraded(&mut c.random, m, &rule.marks);
    let other = Subject::sharing(m.with(marks).bytes(), cycles);
    let same = same_grades(c, "one class regraded", [&subject, &other]);
    assert!(!same, "{:?} is {rule:?}", other.bytes);
}
