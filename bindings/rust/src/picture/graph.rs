//! Graphs that are drawn: of a rule's right products, and of an automaton.

use crate::files::{Automaton, Rule};
use crate::text::{print_word, Names};
use std::collections::BTreeMap;

/// A node of a graph.
#[derive(Clone, Debug, PartialEq, Eq)]
pub(super) struct Node {
    pub label: String,
    /// The colour that fills it.
    pub fill: String,
    /// A second line around it, as final states have it.
    pub double: bool,
    /// Whether an arrow from nowhere leads to it, and what stands on it.
    pub entered: Option<String>,
    /// What a reader is told of it beside the graph.
    pub note: String,
}

/// A graph with letters on its edges.
#[derive(Clone, Debug, PartialEq, Eq)]
pub struct Diagram {
    pub(super) title: String,
    pub(super) nodes: Vec<Node>,
    /// From, to, and the letters.
    pub(super) edges: Vec<(usize, usize, String)>,
}

/// Edges with their letters by their ends, those of one pair of ends together.
fn joined(edges: impl Iterator<Item = (usize, usize, String)>) -> Vec<(usize, usize, String)> {
    let mut letters: BTreeMap<(usize, usize), Vec<String>> = BTreeMap::new();
    for (from, to, letter) in edges {
        letters.entry((from, to)).or_default().push(letter);
    }
    let edge =
        |((from, to), letters): ((usize, usize), Vec<String>)| (from, to, letters.join(", "));
    letters.into_iter().map(edge).collect()
}

impl Diagram {
    /// The graph of right products: from each element an edge to its product with each letter's element, and an arrow for each
    /// letter to its element.
    pub fn of_rule(rule: &Rule, names: &Names) -> Diagram {
        let letters = || (0..=u8::MAX).zip(&rule.images);
        let node = |(element, word): (u8, Option<Vec<u8>>)| {
            let entering = letters().filter(|(_, image)| **image == element);
            let entering: Vec<String> = entering.map(|(letter, _)| names.show(letter)).collect();
            Node {
                label: element.to_string(),
                fill: super::colour::of(element),
                double: rule.product(element, element) == Some(element),
                entered: (!entering.is_empty()).then(|| entering.join(", ")),
                note: print_word(&word.unwrap_or_default(), names),
            }
        };
        let edges = (0..rule.elements).flat_map(|from| {
            letters().filter_map(move |(letter, image)| {
                let to = rule.product(from, *image)?;
                Some((usize::from(from), usize::from(to), names.show(letter)))
            })
        });
        Diagram {
            title: "Right products; idempotents have two lines around them".to_string(),
            nodes: (0..=u8::MAX).zip(rule.first_words()).map(node).collect(),
            edges: joined(edges),
        }
    }

    /// The graph of an automaton: final states have two lines around them, and an arrow from nowhere leads to initial ones.
    pub fn of_automaton(automaton: &Automaton, names: &Names) -> Diagram {
        let node = |(state, kind): (usize, &u8)| Node {
            label: state.to_string(),
            fill: "white".to_string(),
            double: kind & Automaton::FINAL != 0,
            entered: (kind & Automaton::INITIAL != 0).then(String::new),
            note: String::new(),
        };
        let mut transitions = automaton.transitions.clone();
        transitions.sort_unstable();
        let states = automaton.kinds.len();
        let edges = transitions.iter().map(|transition| {
            let (from, to) = (usize::from(transition.from), usize::from(transition.to));
            (from, to, names.show(transition.letter))
        });
        let edges = edges.filter(|(from, to, _)| *from < states && *to < states);
        Diagram {
            title: "Automaton; final states have two lines around them".to_string(),
            nodes: automaton.kinds.iter().enumerate().map(node).collect(),
            edges: joined(edges),
        }
    }
}
