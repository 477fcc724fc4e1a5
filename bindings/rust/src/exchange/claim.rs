//! A rule's own automaton as Spin's never claim.
//!
//! A claim has one initial state, the first. Where the automaton has not just one, a state before them has the choices of all. Each condition
//! names every proposition, in their order, so that the claim reads back with the same letters.

use super::preprocessor::in_name;
use super::reserved::is_reserved;
use crate::text::Names;
use crate::{ListedState, RuleAutomaton, RuleState, StateKind};
use std::collections::BTreeMap;
use std::fmt::Write;

/// A rule's automaton as a never claim over the rule's propositions. What is said where it has none, or Spin takes one of them for no variable's name.
pub fn print_rule_never(automaton: &RuleAutomaton, names: &Names) -> Result<String, String> {
    let Some(propositions) = names.as_propositions() else {
        return Err("a never claim is over propositions, and the rule names none".to_string());
    };
    let variable = |name: &str| {
        let begins = name.starts_with(|first: char| first.is_ascii_alphabetic() || first == '_');
        begins && name.is_ascii() && name.chars().all(in_name) && !is_reserved(name)
    };
    if let Some(name) = propositions.iter().find(|name| !variable(name)) {
        return Err(format!(
            "`{name}` is no name of a variable in a never claim"
        ));
    }
    let initial = |own: &&ListedState| own.kind == StateKind::Initial;
    let initial: Vec<&ListedState> = automaton.states.iter().filter(initial).collect();
    let first = match initial[..] {
        [own] => Some(own.state),
        _ => None,
    };
    let label = |state: RuleState| {
        let states = &automaton.states;
        let number = states.binary_search_by_key(&state, |own| own.state);
        let number = number.unwrap_or(states.len());
        match states.get(number).map(|own| own.kind) {
            _ if first == Some(state) => "T0_init".to_string(),
            Some(StateKind::Final) => format!("accept_S{number}"),
            _ => format!("T0_S{number}"),
        }
    };
    let written = |name: &str, own: &[&ListedState]| {
        let mut goals: BTreeMap<RuleState, Vec<u8>> = BTreeMap::new();
        for letter in 0..automaton.letters {
            for to in own.iter().flat_map(|own| own.next(letter)) {
                let letters = goals.entry(to).or_default();
                if !letters.contains(&letter) {
                    letters.push(letter);
                }
            }
        }
        if goals.is_empty() {
            return format!("{name}:\n  false;\n");
        }
        let mut text = format!("{name}:\n  if\n");
        for (to, letters) in goals {
            let conditions = letters.iter().map(|own| condition(*own, propositions));
            let conditions: Vec<String> = conditions.collect();
            let _ = writeln!(
                text,
                "  :: ({}) -> goto {}",
                conditions.join(" || "),
                label(to)
            );
        }
        text + "  fi;\n"
    };
    let mut text = String::from("never {\n") + &written("T0_init", &initial);
    for own in automaton
        .states
        .iter()
        .filter(|own| first != Some(own.state))
    {
        text += &written(&label(own.state), &[own]);
    }
    Ok(text + "}\n")
}

/// That just a letter's propositions hold.
fn condition(letter: u8, propositions: &[String]) -> String {
    let literal = |(bit, name): (usize, &String)| match letter >> bit & 1 {
        1 => name.clone(),
        _ => format!("!{name}"),
    };
    match propositions {
        [] => "1".to_string(),
        _ => {
            let literals: Vec<String> = propositions.iter().enumerate().map(literal).collect();
            format!("({})", literals.join(" && "))
        }
    }
}
