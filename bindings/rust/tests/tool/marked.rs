//! Automata whose transitions accept, as texts in the Hanoi format, and what they accept by their own definition.

use crate::random::Random;
use duknavet::files::Lasso;
use std::fmt::Write;

/// An automaton whose transitions accept: from, letter, to, whether it accepts.
pub struct Marked {
    pub states: usize,
    initial: Vec<usize>,
    pub propositions: usize,
    transitions: Vec<(usize, usize, usize, bool)>,
}

impl Marked {
    pub fn random(random: &mut Random) -> Marked {
        let states = random.within(1, 4);
        let propositions = random.within(0, 2);
        let mut transitions = Vec::new();
        for from in 0..states {
            for letter in 0..1 << propositions {
                for to in 0..states {
                    if random.below(100) < 35 {
                        transitions.push((from, letter, to, random.once_in(3)));
                    }
                }
            }
        }
        let initial = (0..states).filter(|_| random.once_in(2)).collect();
        Marked {
            states,
            initial,
            propositions,
            transitions,
        }
    }

    pub fn text(&self) -> String {
        let mut text = format!(
            "HOA: v1\nname: \"any [0] --BODY-- \\\"x\\\"\"\nStates: {}\n",
            self.states
        );
        for state in &self.initial {
            let _ = writeln!(text, "Start: {state}");
        }
        let names: String = (0..self.propositions)
            .map(|own| format!(" \"p{own}\""))
            .collect();
        let _ = writeln!(
            text,
            "AP: {}{names}\nacc-name: Buchi\nAcceptance: 1 Inf(0)",
            self.propositions
        );
        text.push_str(
            "properties: trans-acc explicit-labels\n--BODY-- /* of /* all */ states */\n",
        );
        for state in 0..self.states {
            let _ = writeln!(text, "State: {state} \"s{state}\"");
            for (_, letter, to, accepts) in self.transitions.iter().filter(|own| own.0 == state) {
                let literal = |own: usize| match letter >> own & 1 {
                    1 => own.to_string(),
                    _ => format!("!{own}"),
                };
                let literals: Vec<String> = (0..self.propositions).map(literal).collect();
                let label = match literals.is_empty() {
                    true => "t".to_string(),
                    false => literals.join(" & "),
                };
                let mark = if *accepts { " {0}" } else { "" };
                let _ = writeln!(text, "  [{label}] {to}{mark}");
            }
        }
        text + "--END--\n"
    }

    /// Whether some run on the lasso takes accepting transitions again and again: a cycle with one in the product of states and
    /// positions of v.
    pub fn accepts(&self, lasso: &Lasso) -> bool {
        let step = |from: &[bool], letter: usize| {
            let mut next = vec![false; self.states];
            for (p, own, q, _) in &self.transitions {
                next[*q] |= *own == letter && from[*p];
            }
            next
        };
        let mut now = vec![false; self.states];
        for state in &self.initial {
            now[*state] = true;
        }
        for letter in &lasso.u {
            now = step(&now, usize::from(*letter));
        }
        let length = lasso.v.len();
        let node = |state: usize, position: usize| state * length + position % length;
        let count = self.states * length;
        let mut leads = vec![vec![false; count]; count];
        let mut accepting = Vec::new();
        for position in 0..length {
            for (p, letter, q, accepts) in &self.transitions {
                if *letter == usize::from(lasso.v[position]) {
                    let (from, to) = (node(*p, position), node(*q, position + 1));
                    leads[from][to] = true;
                    if *accepts {
                        accepting.push((from, to));
                    }
                }
            }
        }
        let mut reach = leads.clone();
        for (own, row) in reach.iter_mut().enumerate() {
            row[own] = true;
        }
        for over in 0..count {
            for from in 0..count {
                if reach[from][over] {
                    for to in 0..count {
                        reach[from][to] |= reach[over][to];
                    }
                }
            }
        }
        let started: Vec<usize> = (0..self.states)
            .filter(|own| now[*own])
            .map(|own| node(own, 0))
            .collect();
        accepting
            .iter()
            .any(|(from, to)| reach[*to][*from] && started.iter().any(|own| reach[*own][*from]))
    }
}
