//! Rules run as automata from the two calls alone, weak rules too: on each lasso just the runs that its grade tells.

use crate::calls::*;
use crate::definitions::runs;
use crate::inputs::{marks, morphisms};
use crate::subject::Subject;
use duknavet::SCRATCH;

pub fn run(c: &mut Comparison, count: usize) {
    for i in 0..count {
        let limit = if i % 8 == 0 { 12 } else { 6 };
        let m = morphisms::any(&mut c.random, limit);
        let marks = marks::mixed(&mut c.random, &m);
        let subject = Subject::new(m.with(marks).bytes());
        walk(c, &subject);
        strays(c, &subject);
    }
    // 64 elements, where the number 64 still means none.
    for kind in 0..morphisms::KINDS {
        let m = morphisms::largest(&mut c.random, kind);
        let marks = marks::mixed(&mut c.random, &m);
        let subject = Subject::new(m.with(marks).bytes());
        for _ in 0..40 {
            let state = (*c.random.pick(&[0, 31, 63, 64]), c.random.below(65));
            let letter = c.random.below(m.letters() + 1) as u8;
            c.state_kind(&subject, state, 2, KIND_SIZES);
            c.successors(&subject, state, letter, SUCCESSORS_SIZES);
        }
    }
}

/// The automaton as the calls tell it, for each least grade, run on lassos.
fn walk(c: &mut Comparison, subject: &Subject) {
    let m = subject.known().morphism();
    let (n, letters) = (m.n, m.letters());
    let halves: Vec<usize> = (0..n).chain([64]).collect();
    // A state's number is its place in this list.
    let states: Vec<(usize, usize)> = halves
        .iter()
        .flat_map(|s| (0..n).map(move |e| (*s, e)))
        .filter(|(_, e)| m.product(*e as u8, *e as u8) as usize == *e)
        .collect();
    let number = |state: (usize, usize)| states.iter().position(|other| *other == state);
    let mut steps = vec![Vec::new(); states.len() * letters];
    for (q, (s, e)) in states.iter().enumerate() {
        for a in 0..letters {
            let list = c.successors(subject, (*s, *e), a as u8, SUCCESSORS_SIZES);
            let list = list.expect("a state and a letter");
            let numbers = list.iter().map(|t| number((*t as usize, *e)));
            steps[q * letters + a] = numbers.map(|q| q.expect("a state")).collect();
        }
    }
    let next = |q: usize, a: u8| steps[q * letters + a as usize].clone();
    let strong = c.settled(subject);
    for least in 1..=3 {
        let mut kinds = Vec::new();
        for state in &states {
            let kind = c.state_kind(subject, *state, least, KIND_SIZES);
            kinds.push(kind.expect("a state and a grade"));
        }
        for _ in 0..4 {
            let lengths = (c.random.below(5), c.random.within(1, 5));
            let u = c.random.word(lengths.0, letters);
            let v = c.random.word(lengths.1, letters);
            let (initial, is_final) = (|q: usize| kinds[q] == 1, |q: usize| kinds[q] == 2);
            let accepted = runs::accepted(states.len(), initial, is_final, next, (&u, &v));
            let answer = duknavet::member(&subject.bytes, &u, &v, &mut vec![0; SCRATCH]);
            let grade = answer.expect("a rule and two words").grade;
            let bytes = &subject.bytes;
            assert_eq!(accepted, grade >= least, "{u:?} {v:?} {least} of {bytes:?}");
            let strength = if strong { "strong" } else { "weak" };
            let outcome = if accepted { "a run" } else { "no run" };
            c.tally.count("states", format!("{outcome}, {strength}"));
            if u.is_empty() && accepted {
                c.tally.count("states", "a run from an empty start");
            }
        }
    }
}

/// Numbers that name no state, least grade or letter.
fn strays(c: &mut Comparison, subject: &Subject) {
    let m = subject.known().morphism();
    let (n, letters) = (m.n, m.letters());
    for _ in 0..6 {
        let s = *c.random.pick(&[0, n - 1, n, 63, 64, 65, usize::MAX]);
        let e = *c.random.pick(&[0, n - 1, n, 63, 64, usize::MAX]);
        let least = *c.random.pick(&[0, 1, 2, 3, 4, 255]);
        let letter = *c.random.pick(&[0, letters - 1, letters, 255]) as u8;
        let sizes = c.enough(KIND_SIZES);
        c.state_kind(subject, (s, e), least, sizes);
        let sizes = c.enough(SUCCESSORS_SIZES);
        c.successors(subject, (s, e), letter, sizes);
    }
}
