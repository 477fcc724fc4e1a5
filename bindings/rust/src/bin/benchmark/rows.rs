//! The rows of the table: what is called, on which kind of input.

use crate::calls::Call;
use crate::inputs::{self, LETTERS};

/// A row: its name, and the call for a number of elements, if there is one of that size.
pub struct Row {
    pub name: String,
    pub call: Box<dyn Fn(usize) -> Option<Call>>,
}

/// A rule made for a number of elements and of letters, and a call on a rule.
type Made = fn(usize, usize) -> inputs::Rule;
type OnRule = fn(Vec<u8>) -> Call;
type Kind = (&'static str, Made);

const CLOSED: Kind = ("closed", inputs::closed);
const UNCLOSED: Kind = ("unclosed", inputs::rotating);
const WEAK: Kind = ("weak", inputs::weak);
const GRADED: Kind = ("unclosed of three grades", inputs::graded);
const GRADED_WEAK: Kind = ("weak of three grades", inputs::graded_weak);

/// Each call on the kinds of rules that differ to it: classes and moves of a monitor look at no marks behind the check, and what
/// asks for a strong rule does on a weak one what `strong` does.
const ON_RULES: [(&str, OnRule, &[Kind]); 11] = [
    ("event", Call::Event, &[CLOSED, UNCLOSED]),
    ("mark", Call::Mark, &[CLOSED]),
    ("verdict", Call::Verdict, &[CLOSED, UNCLOSED]),
    ("classes", Call::Classes, &[CLOSED, UNCLOSED]),
    (
        "strong",
        Call::Strong,
        &[CLOSED, UNCLOSED, WEAK, GRADED, GRADED_WEAK],
    ),
    ("complement", Call::Complement, &[CLOSED, UNCLOSED]),
    ("reduce", Call::Reduce, &[CLOSED, UNCLOSED]),
    ("next", Call::Next, &[CLOSED, UNCLOSED]),
    (
        "until its complement",
        Call::until_complement,
        &[CLOSED, UNCLOSED, GRADED],
    ),
    (
        "confirm",
        Call::confirm_own,
        &[CLOSED, UNCLOSED, ("smallest", inputs::smallest)],
    ),
    (
        "event on a board of eight",
        Call::full_board,
        &[CLOSED, UNCLOSED],
    ),
];

/// The rows of one number of letters.
fn rows_with(letters: usize) -> Vec<Row> {
    let mut rows = Vec::new();
    let mut add = |name: String, call: Box<dyn Fn(usize) -> Call>| {
        rows.push(Row {
            name: format!("{name}, {letters} letters"),
            call: Box::new(move |n| Some(call(n))),
        });
    };
    for (name, call, kinds) in ON_RULES {
        for (kind, made) in kinds {
            let on_rule = move |n: usize| call(made(n, letters).file());
            add(format!("{name}, {kind}"), Box::new(on_rule));
        }
    }
    for length in [16, 4_224] {
        let kinds: [Kind; 2] = [CLOSED, ("closed of three grades", inputs::graded_closed)];
        for (kind, made) in kinds {
            let lasso = move || inputs::lasso(length, letters);
            let member = move |n: usize| Call::Member(made(n, letters).file(), lasso());
            add(format!("member of {length}, {kind}"), Box::new(member));
        }
    }
    for length in [1, 100, 1_000, 4_224, 1_000_000] {
        let word = move || inputs::lasso(length, letters).0;
        let feed = move |n: usize| Call::Feed(inputs::closed(n, letters).file(), word());
        add(format!("feed of {length}, closed"), Box::new(feed));
    }
    let markings: [(&str, Made, Made); 5] = [
        ("yes", inputs::weak, inputs::closed),
        ("no", inputs::closed, inputs::weak),
        (
            "yes after a full search",
            inputs::rotating_closed,
            inputs::rotating,
        ),
        (
            "no of three grades",
            inputs::graded_closed,
            inputs::graded_weak,
        ),
        (
            "yes after a full search of three grades",
            inputs::graded_closed,
            inputs::graded,
        ),
    ];
    for (answer, first, second) in markings {
        let included =
            move |n: usize| Call::Included(first(n, letters).file(), second(n, letters).section());
        add(format!("included, {answer}"), Box::new(included));
    }
    rows
}

fn automata(states: u8, letters: u8, most: usize) -> Row {
    let call = move |n: usize| {
        (n <= most).then(|| Call::AutomatonRule(inputs::automaton(states, letters, n)))
    };
    Row {
        name: format!("automaton_rule, {states} states, {letters} letters"),
        call: Box::new(call),
    }
}

pub fn rows() -> Vec<Row> {
    let mut rows: Vec<Row> = LETTERS.into_iter().flat_map(rows_with).collect();
    // Two states have at most 24 matrices of words.
    rows.push(automata(2, 3, 16));
    rows.push(automata(2, 16, 16));
    rows.push(automata(4, 3, 64));
    rows.push(automata(4, 16, 64));
    rows
}
