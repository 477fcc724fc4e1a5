//! A rule's own automaton in the language of Graphviz.

use crate::text::Names;
use crate::{RuleAutomaton, StateKind};
use std::collections::BTreeMap;
use std::fmt::Write;

/// A rule's automaton as DOT: final states have two lines around them, an arrow from nowhere leads to initial ones, and the letters from one state to another
/// stand on one edge.
pub fn print_rule_dot(automaton: &RuleAutomaton, names: &Names) -> String {
    let quoted = |text: &str| format!("\"{}\"", text.replace('\\', "\\\\").replace('"', "\\\""));
    let states = &automaton.states;
    let mut text = String::from("digraph {\n  rankdir=LR;\n  node [shape=circle];\n");
    for (number, own) in states.iter().enumerate() {
        let label = quoted(&own.state.to_string());
        let shape = match own.kind {
            StateKind::Final => " shape=doublecircle",
            _ => "",
        };
        let _ = writeln!(text, "  {number} [label={label}{shape}];");
        if own.kind == StateKind::Initial {
            let _ = writeln!(
                text,
                "  in{number} [shape=point];\n  in{number} -> {number};"
            );
        }
    }
    for (from, own) in states.iter().enumerate() {
        let mut edges: BTreeMap<usize, Vec<String>> = BTreeMap::new();
        for letter in 0..automaton.letters {
            for to in own.next(letter) {
                if let Ok(to) = states.binary_search_by_key(&to, |own| own.state) {
                    edges.entry(to).or_default().push(names.show(letter));
                }
            }
        }
        for (to, letters) in edges {
            let letters = quoted(&letters.join(", "));
            let _ = writeln!(text, "  {from} -> {to} [label={letters}];");
        }
    }
    text + "}\n"
}
