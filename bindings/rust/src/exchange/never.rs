//! Spin's never claims: labelled states, each `if .. fi`, `do .. od`, `skip` or `false`, whose choices go to labels.
//!
//! The first state is initial, and a label that begins with `accept` makes its state final. A claim that ends, as
//! `atomic { .. -> assert(..) }` ends it, has seen enough: everything that follows is accepted. `else` holds where no other
//! choice of its `if` or `do` does.

use super::condition::{self, holds, Signs, Valuations};
use super::graph::{Edge, Graph};
use super::preprocessor::{self, in_name, Blanked};
use super::reserved::is_reserved;
use super::scanner::Scanner;
use crate::text::{Place, TextError};
use std::collections::BTreeSet;

const SIGNS: Signs = Signs {
    and: "&&",
    or: "||",
};

/// The label of the end of a claim, which no state can have.
const END: &str = "}";

/// A choice from a state to a label, which may stand further down.
struct Choice {
    from: usize,
    letters: Valuations,
    label: String,
    place: Place,
}

/// What a choice begins with.
enum Guard {
    Condition(Valuations),
    Else,
}

#[derive(Default)]
struct Claim {
    /// The labels that stand before each state.
    states: Vec<Vec<String>>,
    choices: Vec<Choice>,
    propositions: Vec<String>,
}

pub fn read(text: &str) -> Result<(Graph, Vec<String>), TextError> {
    let blanked = preprocessor::blank(text)?;
    let mut scanner = Scanner::new(&blanked.text);
    expect_word(&mut scanner, "never")?;
    name(&mut scanner);
    scanner.expect("{")?;
    let mut claim = Claim::default();
    loop {
        claim.read_state(&mut scanner)?;
        if scanner.take("}") {
            break;
        }
    }
    scanner.end("expected the end of the claim")?;
    not_defined(&blanked)?;
    Ok((claim.graph()?, claim.propositions))
}

/// That no line defines a word of the claim, which would then mean something else.
fn not_defined(blanked: &Blanked) -> Result<(), TextError> {
    let words = blanked.text.split(|character| !in_name(character));
    let words: BTreeSet<&str> = words.collect();
    let mut defined = blanked.defined.iter();
    match defined.find(|(name, _)| words.contains(name.as_str())) {
        None => Ok(()),
        Some((name, place)) => {
            let message = format!(
                "`{name}` stands in the claim, and what this line says of it is not read: without the line it has its own meaning"
            );
            Err(TextError::new(*place, message))
        }
    }
}

/// A name or a word of the language; empty where none comes.
fn name(scanner: &mut Scanner) -> String {
    scanner.run(in_name)
}

/// Takes a word that must come, and not only begin so.
fn expect_word(scanner: &mut Scanner, wanted: &str) -> Result<(), TextError> {
    let place = scanner.place();
    match name(scanner) == wanted {
        true => Ok(()),
        false => Err(TextError::new(place, format!("expected `{wanted}`"))),
    }
}

/// Takes a word if it comes.
fn take_word(scanner: &mut Scanner, wanted: &str) -> bool {
    scanner.peek_run(in_name) == wanted && scanner.take(wanted)
}

impl Claim {
    fn graph(&self) -> Result<Graph, TextError> {
        let mut graph = Graph::default();
        for (number, labels) in self.states.iter().enumerate() {
            let state = graph.state(&number.to_string());
            if labels.iter().any(|label| label.starts_with("accept")) {
                graph.accept(state);
            }
        }
        graph.initial.extend(self.states.first().map(|_| 0));
        for choice in &self.choices {
            let mut states = self.states.iter();
            let to = match states.position(|labels| labels.contains(&choice.label)) {
                Some(number) => number,
                None if choice.label == END => graph.state(END),
                None => {
                    let message = format!("there is no label {}", choice.label);
                    return Err(TextError::new(choice.place, message));
                }
            };
            graph.edges.push(edge(choice.from, choice.letters, to));
        }
        if graph.states() > self.states.len() {
            let end = graph.state(END);
            graph.accept(end);
            graph.edges.push(edge(end, condition::ALL, end));
        }
        Ok(graph)
    }

    fn read_state(&mut self, scanner: &mut Scanner) -> Result<(), TextError> {
        let mut labels = Vec::new();
        while scanner.comes_with_colon(in_name) {
            let place = scanner.place();
            let label = name(scanner);
            scanner.expect(":")?;
            let fault = |message| Err(TextError::new(place, message));
            if is_reserved(&label) {
                return fault(format!("`{label}` has another meaning and is no label"));
            }
            if labels.contains(&label) || self.states.iter().any(|own| own.contains(&label)) {
                return fault(format!("the label {label} stands twice"));
            }
            labels.push(label);
        }
        if labels.is_empty() {
            return Err(scanner.fault("expected a label with a colon"));
        }
        self.states.push(labels);
        self.read_statement(scanner, self.states.len() - 1)?;
        while scanner.take(";") {}
        Ok(())
    }

    fn read_statement(&mut self, scanner: &mut Scanner, state: usize) -> Result<(), TextError> {
        let place = scanner.place();
        match name(scanner).as_str() {
            "skip" => {
                let stay = self.stay(state, condition::ALL, place);
                self.choices.push(stay);
            }
            "false" => {}
            "if" => return self.read_choices(scanner, state, "fi"),
            "do" => return self.read_choices(scanner, state, "od"),
            _ => {
                let message = "expected `if`, `do`, `skip` or `false`";
                return Err(TextError::new(place, message));
            }
        }
        Ok(())
    }

    /// The choices of an `if` or a `do`, at least one. `else` is known when all others are.
    fn read_choices(
        &mut self,
        scanner: &mut Scanner,
        state: usize,
        end: &str,
    ) -> Result<(), TextError> {
        let mut others = condition::NONE;
        let mut otherwise: Option<Choice> = None;
        scanner.expect("::")?;
        loop {
            let place = scanner.place();
            let (guard, mut choice) = self.read_choice(scanner, state, end)?;
            match guard {
                Guard::Condition(letters) => {
                    others |= letters;
                    choice.letters = letters;
                    self.choices.push(choice);
                }
                Guard::Else if otherwise.is_none() => otherwise = Some(choice),
                Guard::Else => return Err(TextError::new(place, "`else` stands twice")),
            }
            if !scanner.take("::") {
                break;
            }
        }
        if let Some(mut choice) = otherwise {
            choice.letters = !others;
            self.choices.push(choice);
        }
        expect_word(scanner, end)
    }

    /// What a choice begins with, and where it goes.
    fn read_choice(
        &mut self,
        scanner: &mut Scanner,
        state: usize,
        end: &str,
    ) -> Result<(Guard, Choice), TextError> {
        if take_word(scanner, "atomic") {
            return self.read_ending_choice(scanner, state);
        }
        let place = scanner.place();
        let guard = self.read_guard(scanner)?;
        let stay = self.stay(state, condition::NONE, place);
        if !(scanner.take("->") || scanner.take(";")) {
            return match end {
                "od" => Ok((guard, stay)),
                _ => Err(scanner.fault("expected `-> goto` and a label")),
            };
        }
        let choice = match end == "od" && take_word(scanner, "skip") {
            true => stay,
            false => {
                expect_word(scanner, "goto")?;
                let place = scanner.place();
                let label = name(scanner);
                Choice {
                    place,
                    label,
                    ..stay
                }
            }
        };
        while scanner.take(";") {}
        Ok((guard, choice))
    }

    /// `atomic { condition -> assert(..) }`, which ends the claim: what is asserted must not hold where the condition does.
    fn read_ending_choice(
        &mut self,
        scanner: &mut Scanner,
        state: usize,
    ) -> Result<(Guard, Choice), TextError> {
        scanner.expect("{")?;
        let place = scanner.place();
        let guard = self.read_guard(scanner)?;
        scanner.expect("->")?;
        expect_word(scanner, "assert")?;
        scanner.expect("(")?;
        let assertion = scanner.place();
        let asserted = self.read_condition(scanner)?;
        let holding = match guard {
            Guard::Condition(letters) => letters & asserted,
            Guard::Else => asserted,
        };
        if holding != condition::NONE {
            let message = "the assertion may hold, and then the claim does not end here";
            return Err(TextError::new(assertion, message));
        }
        scanner.expect(")")?;
        while scanner.take(";") {}
        scanner.expect("}")?;
        while scanner.take(";") {}
        let choice = Choice {
            from: state,
            letters: condition::NONE,
            label: END.to_string(),
            place,
        };
        Ok((guard, choice))
    }

    /// A choice that goes to the state's own label.
    fn stay(&self, state: usize, letters: Valuations, place: Place) -> Choice {
        let own = self.states.get(state).and_then(|labels| labels.first());
        Choice {
            from: state,
            letters,
            label: own.cloned().unwrap_or_default(),
            place,
        }
    }

    fn read_guard(&mut self, scanner: &mut Scanner) -> Result<Guard, TextError> {
        match take_word(scanner, "else") {
            true => Ok(Guard::Else),
            false => self.read_condition(scanner).map(Guard::Condition),
        }
    }

    fn read_condition(&mut self, scanner: &mut Scanner) -> Result<Valuations, TextError> {
        let propositions = &mut self.propositions;
        let mut atom = |scanner: &mut Scanner| {
            let place = scanner.place();
            let word = name(scanner);
            let fault = |message: String| Err(TextError::new(place, message));
            match word.as_str() {
                "1" | "true" | "skip" => return Ok(condition::ALL),
                "0" | "false" => return Ok(condition::NONE),
                _ => {}
            }
            if !word.starts_with(|first: char| first.is_alphabetic() || first == '_') {
                return fault("expected a proposition".to_string());
            }
            if is_reserved(&word) {
                return fault(format!(
                    "`{word}` has another meaning and is no proposition"
                ));
            }
            let known = propositions.iter().position(|own| *own == word);
            let number = known.unwrap_or_else(|| {
                propositions.push(word);
                propositions.len() - 1
            });
            match number < 4 {
                true => Ok(holds(number)),
                false => fault("a fifth proposition, but letters have room for 4".to_string()),
            }
        };
        condition::read(scanner, &SIGNS, &mut atom)
    }
}

fn edge(from: usize, letters: Valuations, to: usize) -> Edge {
    Edge {
        from,
        letters,
        to,
        accepting: false,
    }
}
