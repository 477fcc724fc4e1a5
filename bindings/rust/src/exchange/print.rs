//! Automata in the Hanoi format, with acceptance on states.
//!
//! A letter is the valuation of its number. Where letters are no valuations of propositions these are invented: as many as the largest
//! letter has binary digits, `b0` that of the lowest. Valuations that are no letter have no transition, and where there are such, or
//! where letters have names, a line of the header, which other tools pass over, says how many letters there are, and their names.

use super::hoa::LETTERS;
use crate::files::Automaton;
use crate::text::{in_quotes, Names};
use crate::{RuleAutomaton, StateKind};
use std::fmt::Write;

/// A state as it is written.
struct State {
    name: Option<String>,
    initial: bool,
    last: bool,
    /// The letter and the target of each transition that leaves it.
    leaving: Vec<(u8, usize)>,
}

/// An automaton in the Hanoi format, its letters as they are called.
pub fn print_hoa(automaton: &Automaton, names: &Names) -> String {
    let state = |(number, kind): (usize, &u8)| {
        let transitions = automaton.transitions.iter();
        let leaving = transitions.filter(|own| usize::from(own.from) == number);
        State {
            name: None,
            initial: kind & Automaton::INITIAL != 0,
            last: kind & Automaton::FINAL != 0,
            leaving: leaving
                .map(|own| (own.letter, usize::from(own.to)))
                .collect(),
        }
    };
    let states: Vec<State> = automaton.kinds.iter().enumerate().map(state).collect();
    written(automaton.letters, names, &states)
}

/// A rule's automaton in the Hanoi format, its states with their names (s, e). One without states has an initial state that no
/// transition leaves: not every tool reads an automaton that begins nowhere.
pub fn print_rule_hoa(automaton: &RuleAutomaton, names: &Names) -> String {
    let number = |to| {
        let states = &automaton.states;
        states.binary_search_by_key(&to, |own| own.state).ok()
    };
    let states = automaton.states.iter().map(|own| {
        let lead = |letter| {
            let numbers = own.next(letter).filter_map(number);
            numbers.map(move |to| (letter, to))
        };
        State {
            name: Some(own.state.to_string()),
            initial: own.kind == StateKind::Initial,
            last: own.kind == StateKind::Final,
            leaving: (0..automaton.letters).flat_map(lead).collect(),
        }
    });
    let mut states: Vec<State> = states.collect();
    if states.is_empty() {
        states.push(State {
            name: None,
            initial: true,
            last: false,
            leaving: Vec::new(),
        });
    }
    written(automaton.letters, names, &states)
}

fn written(letters: u8, names: &Names, states: &[State]) -> String {
    let propositions = propositions(letters, names);
    let mut text = String::from("HOA: v1\n");
    let _ = writeln!(text, "States: {}", states.len());
    for (number, _) in states.iter().enumerate().filter(|(_, own)| own.initial) {
        let _ = writeln!(text, "Start: {number}");
    }
    let bits = propositions.len();
    let _ = writeln!(text, "AP: {bits}{}", in_quotes(&propositions));
    let named = names.as_letters();
    if named.is_some() || usize::from(letters) != 1 << bits {
        let named = in_quotes(&named.unwrap_or_default());
        let _ = writeln!(text, "{LETTERS}: {letters}{named}");
    }
    text.push_str("acc-name: Buchi\nAcceptance: 1 Inf(0)\n");
    text.push_str("properties: trans-labels explicit-labels state-acc\n--BODY--\n");
    for (number, state) in states.iter().enumerate() {
        let name = state.name.as_ref();
        let name = name.map_or(String::new(), |name| format!(" \"{name}\""));
        let mark = if state.last { " {0}" } else { "" };
        let _ = writeln!(text, "State: {number}{name}{mark}");
        for (letter, to) in &state.leaving {
            let _ = writeln!(text, "[{}] {to}", label(*letter, bits));
        }
    }
    text.push_str("--END--\n");
    text
}

/// The propositions that letters are valuations of, or as many as they need.
fn propositions(letters: u8, names: &Names) -> Vec<String> {
    if let Some(own) = names.as_propositions() {
        return own.to_vec();
    }
    let top = usize::from(letters.max(1) - 1).checked_ilog2();
    let bits = top.map_or(0, |top| top + 1);
    (0..bits).map(|bit| format!("b{bit}")).collect()
}

fn label(letter: u8, bits: usize) -> String {
    let literal = |bit: usize| match letter >> bit & 1 {
        1 => bit.to_string(),
        _ => format!("!{bit}"),
    };
    match bits {
        0 => "t".to_string(),
        _ => (0..bits).map(literal).collect::<Vec<_>>().join("&"),
    }
}
