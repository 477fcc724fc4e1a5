//! Rules of formulas against Büchi automata that were written by hand, of the formulas or of their negations: both ways end in the same bytes.
//!
//! An automaton is its states, each with where labels lead; state 0 is initial, and `*` before a state says that it accepts.

use super::rules::of;
use super::{propositions, Alphabet};
use duknavet::{exchange, owned};

const NAMES: [&str; 4] = ["p", "q", "r", "s"];

/// Which rule an automaton gives: that of the formula, or its complement.
#[derive(Clone, Copy, PartialEq)]
enum Of {
    Formula,
    Negation,
}

/// A label with the numbers of its propositions.
fn label(words: &str) -> String {
    let signs = words.replace("&&", "&");
    NAMES.iter().enumerate().fold(signs, |label, (at, name)| {
        label.replace(name, &at.to_string())
    })
}

fn hoa(states: &[&str]) -> String {
    let count = states.len();
    let mut text = format!(
        "HOA: v1\nStates: {count}\nStart: 0\nAP: 4 \"p\" \"q\" \"r\" \"s\"\nAcceptance: 1 Inf(0)\n--BODY--\n"
    );
    for (number, state) in states.iter().enumerate() {
        let (accepts, leads) = match state.strip_prefix('*') {
            Some(leads) => (" {0}", leads),
            None => ("", *state),
        };
        text += &format!("State: {number}{accepts}\n");
        for lead in leads.split(',') {
            let (words, to) = lead.split_once("->").expect("where a label leads");
            text += &format!("[{}] {}\n", label(words.trim()), to.trim());
        }
    }
    text + "--END--\n"
}

/// The smallest rule of an automaton, or of what it does not accept.
fn by_automaton(states: &[&str], of: Of) -> Vec<u8> {
    let read = exchange::read(hoa(states).as_bytes()).expect("an automaton");
    let rule = owned::automaton_rule(&read.automaton.bytes()).expect("few matrices");
    let rule = match of {
        Of::Formula => rule,
        Of::Negation => owned::complement(&rule).expect("a strong rule"),
    };
    owned::reduce(&rule).expect("a strong rule")
}

fn same(formula: &str, states: &[&str], of_which: Of) {
    let alphabet: Alphabet = propositions(&NAMES);
    let (made, expected) = (of(formula, &alphabet), by_automaton(states, of_which));
    assert_eq!(made, expected, "{formula}");
}

fn violated(formula: &str, states: &[&str]) {
    same(formula, states, Of::Negation);
}

#[test]
fn absence_and_universality() {
    for (pattern, p) in [("absence(p)", "p"), ("universality(p)", "!p")] {
        let not = match p {
            "p" => "!p",
            _ => "p",
        };
        let violated = |scope: &str, states: &[&str]| {
            let states: Vec<String> = states
                .iter()
                .map(|state| state.replace("NOT", not).replace("BAD", p))
                .collect();
            let states: Vec<&str> = states.iter().map(String::as_str).collect();
            violated(&format!("{pattern}{scope}"), &states);
        };
        violated("", &["t -> 0, BAD -> 1", "*t -> 1"]);
        violated(
            " before(r)",
            &[
                "!r && NOT -> 0, BAD && !r -> 1",
                "!r -> 1, r -> 2",
                "*t -> 2",
            ],
        );
        violated(
            " after(q)",
            &[
                "t -> 0, q -> 1, q && BAD -> 2",
                "t -> 1, BAD -> 2",
                "*t -> 2",
            ],
        );
        violated(
            " between(q, r)",
            &[
                "t -> 0, q && !r && NOT -> 1, q && !r && BAD -> 2",
                "!r && NOT -> 1, !r && BAD -> 2",
                "!r -> 2, r -> 3",
                "*t -> 3",
            ],
        );
        violated(
            " after_until(q, r)",
            &[
                "t -> 0, q && !r && NOT -> 1, q && !r && BAD -> 2",
                "!r && NOT -> 1, !r && BAD -> 2",
                "*t -> 2",
            ],
        );
    }
}

#[test]
fn existence() {
    same("existence(p)", &["!p -> 0, p -> 1", "*t -> 1"], Of::Formula);
    violated(
        "existence(p) before(r)",
        &["!p && !r -> 0, r -> 1", "*t -> 1"],
    );
    violated(
        "existence(p) after(q)",
        &["!q -> 0, q && !p -> 1", "*!p -> 1"],
    );
    violated(
        "existence(p) between(q, r)",
        &[
            "t -> 0, q && !r && !p -> 1",
            "!r && !p -> 1, r -> 2",
            "*t -> 2",
        ],
    );
    violated(
        "existence(p) after_until(q, r)",
        &[
            "t -> 0, q && !r && !p -> 1",
            "*!r && !p -> 1, r -> 2",
            "*t -> 2",
        ],
    );
}

#[test]
fn precedence() {
    violated(
        "precedence(s, p)",
        &["!s && !p -> 0, p && !s -> 1", "*t -> 1"],
    );
    violated(
        "precedence(s, p) before(r)",
        &[
            "!p && !s && !r -> 0, p && !s && !r -> 1",
            "!r -> 1, r -> 2",
            "*t -> 2",
        ],
    );
    // every q is followed by a p before an s, and there is a q
    violated(
        "precedence(s, p) after(q)",
        &[
            "!q -> 0, q && !s && !p -> 1, q && !s && p -> 2",
            "!s && !p -> 1, !s && p -> 2",
            "*!q -> 2, q && !s && !p -> 1, q && !s && p -> 2",
        ],
    );
    violated(
        "precedence(s, p) between(q, r)",
        &[
            "t -> 0, q && !r && !p && !s -> 1, q && !r && p && !s -> 2",
            "!p && !s && !r -> 1, p && !s && !r -> 2",
            "!r -> 2, r -> 3",
            "*t -> 3",
        ],
    );
    violated(
        "precedence(s, p) after_until(q, r)",
        &[
            "t -> 0, q && !r && !p && !s -> 1, q && !r && p && !s -> 2",
            "!p && !s && !r -> 1, p && !s && !r -> 2",
            "*t -> 2",
        ],
    );
}

#[test]
fn response() {
    violated("response(s, p)", &["t -> 0, p && !s -> 1", "*!s -> 1"]);
    violated(
        "response(s, p) before(r)",
        &[
            "!r -> 0, p && !s && !r -> 1",
            "!r && !s -> 1, r -> 2",
            "*t -> 2",
        ],
    );
    violated(
        "response(s, p) after(q)",
        &[
            "t -> 0, q -> 1, q && p && !s -> 2",
            "t -> 1, p && !s -> 2",
            "*!s -> 2",
        ],
    );
    violated(
        "response(s, p) between(q, r)",
        &[
            "t -> 0, q && !r -> 1, q && !r && p && !s -> 2",
            "!r -> 1, p && !s && !r -> 2",
            "!r && !s -> 2, r -> 3",
            "*t -> 3",
        ],
    );
    violated(
        "response(s, p) after_until(q, r)",
        &[
            "t -> 0, q && !r -> 1, q && !r && p && !s -> 2",
            "!r -> 1, p && !s && !r -> 2",
            "*!r && !s -> 2, r -> 3",
            "*t -> 3",
        ],
    );
}

#[test]
fn usual_formulas() {
    same(
        "G F p",
        &["!p -> 0, p -> 1", "*!p -> 0, p -> 1"],
        Of::Formula,
    );
    same("F G p", &["t -> 0, p -> 1", "*p -> 1"], Of::Formula);
    violated(
        "G F p -> G F q",
        &[
            "t -> 0, !q -> 1",
            "!q && !p -> 1, !q && p -> 2",
            "*!q && !p -> 1, !q && p -> 2",
        ],
    );
    same(
        "p U (q U r)",
        &["p -> 0, q -> 1, r -> 2", "q -> 1, r -> 2", "*t -> 2"],
        Of::Formula,
    );
    // state 1 owes a q up to which p holds, state 3 still owes it behind r
    same(
        "(p U q) U r",
        &[
            "q -> 0, p -> 1, r -> 2",
            "q -> 0, p -> 1, r && q -> 2, r && p -> 3",
            "*t -> 2",
            "q -> 2, p -> 3",
        ],
        Of::Formula,
    );
}

/// An automaton of something else has another rule, so that the comparison can fail.
#[test]
fn another_automaton_is_another_rule() {
    let alphabet = propositions(&NAMES);
    let weak = by_automaton(&["t -> 0, p -> 1", "*p -> 1"], Of::Formula);
    assert_ne!(of("G F p", &alphabet), weak);
}
