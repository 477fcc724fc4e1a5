//! Automata: random ones of every size, damaged ones, and what the other calls make of their rules.

use super::rules::every_call;
use crate::calls::*;
use crate::definitions::checks::Automaton;
use crate::inputs::automata;
use crate::subject::Subject;

pub fn run(c: &mut Comparison, count: usize) {
    for i in 0..count {
        let states = c.random.within(1, 6);
        let letters = if i % 10 == 0 {
            c.random.within(1, 16)
        } else {
            c.random.within(1, 3)
        };
        // About one transition out of each state is dense enough to be rich, and sparse enough not to be.
        let percent = c.random.within(1, 40) / states + 8;
        let automaton = automata::automaton(&mut c.random, states, letters, percent);
        let sizes = c.enough(AUTOMATON_SIZES);
        let rule = c.automaton_rule(&automaton.bytes(), sizes);
        if let Some(rule) = rule.filter(|_| i % 6 == 0) {
            let subject = Subject::new(rule);
            if subject.known().morphism().n <= 24 {
                every_call(c, &subject);
            }
        }
    }
    every_damage(c);
    // As many states, letters and transitions as there may be: from each state by each letter to every state.
    let full = automata::automaton(&mut c.random, 6, 16, 100);
    assert_eq!(full.transitions.len(), 576);
    c.automaton_rule(&full.bytes(), AUTOMATON_SIZES);
    let mut more = full.bytes();
    more.extend([0, 0, 0]);
    c.automaton_rule(&more, AUTOMATON_SIZES);
    more[8..10].copy_from_slice(&577u16.to_le_bytes());
    c.automaton_rule(&more, AUTOMATON_SIZES);
}

/// Automata of two states, whose products come from a table: all with one or two letters, and the largest. The kinds of their states are
/// all 16.
pub fn two_states(c: &mut Comparison, half: usize) {
    let all: Vec<(u8, u8)> = (0..16).map(|kinds| (kinds % 4, kinds / 4)).collect();
    for letters in 1..=2 {
        let triples = |set: usize| {
            let places = (0..4 * letters).filter(move |at| set >> at & 1 == 1);
            places.map(|at| ((at % 2) as u8, (at / 4) as u8, (at / 2 % 2) as u8))
        };
        for set in (half..1 << (4 * letters)).step_by(2) {
            for kinds in &all {
                let automaton = Automaton {
                    kinds: vec![kinds.0, kinds.1],
                    letters,
                    transitions: triples(set).collect(),
                };
                let sizes = c.enough(AUTOMATON_SIZES);
                c.automaton_rule(&automaton.bytes(), sizes);
            }
        }
    }
    for kinds in all {
        for percent in [10, 30, 50, 100] {
            let letters = c.random.within(3, 16);
            let mut automaton = automata::automaton(&mut c.random, 2, letters, percent);
            automaton.kinds = vec![kinds.0, kinds.1];
            c.automaton_rule(&automaton.bytes(), AUTOMATON_SIZES);
            let sizes = c.short(AUTOMATON_SIZES);
            c.automaton_rule(&automaton.bytes(), sizes);
        }
        // As many letters and transitions as there may be.
        let mut full = automata::automaton(&mut c.random, 2, 16, 100);
        assert_eq!(full.transitions.len(), 64);
        full.kinds = vec![kinds.0, kinds.1];
        c.automaton_rule(&full.bytes(), AUTOMATON_SIZES);
        let mut more = full.bytes();
        more.extend([0, 0, 0]);
        c.automaton_rule(&more, AUTOMATON_SIZES);
        more[4..6].copy_from_slice(&65u16.to_le_bytes());
        c.automaton_rule(&more, AUTOMATON_SIZES);
    }
}

/// Every cut and every single-byte change of document 01's automaton, which has two states.
fn every_damage(c: &mut Comparison) {
    let bytes = [2, 1, 2, 2, 4, 0, 0, 0, 1, 0, 1, 0, 1, 0, 1, 1, 1, 0];
    for cut in 0..=bytes.len() {
        c.automaton_rule(&bytes[..cut], AUTOMATON_SIZES);
        let sizes = c.short(AUTOMATON_SIZES);
        c.automaton_rule(&bytes[..cut], sizes);
    }
    for (at, value) in (0..bytes.len()).flat_map(|at| (0..=255).map(move |value| (at, value))) {
        let mut changed = bytes;
        changed[at] = value;
        c.automaton_rule(&changed, AUTOMATON_SIZES);
    }
}
