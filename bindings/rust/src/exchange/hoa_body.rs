//! The states and transitions of an automaton in the Hanoi format.

use super::condition::Valuations;
use super::graph::{Edge, Graph};
use super::hoa::{plain_target, read_label, Acceptance, Header};
use super::scanner::Scanner;
use crate::text::{Place, TextError};
use std::collections::BTreeSet;

/// The body, up to its end.
pub fn read_body(
    scanner: &mut Scanner,
    header: &Header,
    acceptance: Acceptance,
    graph: &mut Graph,
) -> Result<(), TextError> {
    let mut body = Body {
        header,
        acceptance,
        graph,
        defined: BTreeSet::new(),
    };
    while !scanner.take("--END--") {
        scanner.expect("State:")?;
        body.read_state(scanner)?;
    }
    Ok(())
}

struct Body<'a> {
    header: &'a Header,
    acceptance: Acceptance,
    graph: &'a mut Graph,
    /// The states that were met at `State:`.
    defined: BTreeSet<usize>,
}

/// How the transitions of a state that has no label have theirs.
#[derive(Default)]
struct Labels {
    /// Whether one was given.
    given: bool,
    /// How many transitions have none, and so that of their place.
    by_place: usize,
}

impl Body<'_> {
    fn read_state(&mut self, scanner: &mut Scanner) -> Result<(), TextError> {
        let shared = read_label(scanner, self.header)?;
        let place = scanner.place();
        let number = scanner.number("a state")?;
        let from = self.header.state(self.graph, number, place)?;
        if !self.defined.insert(from) {
            let message = format!("state {number} was defined before");
            return Err(TextError::new(place, message));
        }
        if scanner.peek() == Some('"') {
            scanner.string()?;
        }
        if self.read_marks(scanner)? {
            self.graph.accept(from);
        }
        let mut labels = Labels::default();
        let begins = |next: char| next == '[' || next.is_ascii_digit();
        while scanner.peek().is_some_and(begins) {
            let letters = self.read_letters(scanner, shared, &mut labels)?;
            self.read_target(scanner, from, letters)?;
        }
        let (there, all) = (labels.by_place, self.header.valuations());
        if there > 0 && there < all {
            let message = format!(
                "state {number} has {there} transitions without a label, and there are {all} valuations"
            );
            return Err(TextError::new(place, message));
        }
        Ok(())
    }

    /// The valuations of a transition: its label's, its state's, or the one whose turn it is.
    fn read_letters(
        &self,
        scanner: &mut Scanner,
        shared: Option<Valuations>,
        labels: &mut Labels,
    ) -> Result<Valuations, TextError> {
        let place = scanner.place();
        let fault = |message: &str| Err(TextError::new(place, message));
        let own = read_label(scanner, self.header)?;
        match (own, shared) {
            (Some(_), Some(_)) => fault("a label, but the state has one for all its transitions"),
            (None, Some(letters)) => Ok(letters),
            (Some(_), None) if labels.by_place > 0 => {
                fault("a label, but a transition before has none")
            }
            (Some(letters), None) => {
                labels.given = true;
                Ok(letters)
            }
            (None, None) if labels.given => fault("no label, but a transition before has one"),
            (None, None) => {
                let valuations = self.header.valuations();
                if labels.by_place == valuations {
                    let message = format!("more than {valuations} transitions without a label");
                    return fault(&message);
                }
                labels.by_place += 1;
                Ok(1 << (labels.by_place - 1))
            }
        }
    }

    fn read_target(
        &mut self,
        scanner: &mut Scanner,
        from: usize,
        letters: Valuations,
    ) -> Result<(), TextError> {
        let place = scanner.place();
        let number = scanner.number("a state")?;
        let to = self.header.state(self.graph, number, place)?;
        plain_target(scanner)?;
        let accepting = self.read_marks(scanner)?;
        self.graph.edges.push(Edge {
            from,
            letters,
            to,
            accepting,
        });
        Ok(())
    }

    /// Whether the acceptance set stands in braces.
    fn read_marks(&self, scanner: &mut Scanner) -> Result<bool, TextError> {
        let mut accepting = false;
        if scanner.take("{") {
            while !scanner.take("}") {
                let place = scanner.place();
                let set = scanner.number("an acceptance set")?;
                self.known_set(set, place)?;
                accepting = true;
            }
        }
        Ok(accepting)
    }

    fn known_set(&self, set: usize, place: Place) -> Result<(), TextError> {
        let message = match self.acceptance {
            Acceptance::Repeated if set == 0 => return Ok(()),
            Acceptance::Repeated => "there is only the acceptance set 0",
            Acceptance::All => "there is no acceptance set: `Acceptance:` says `0 t`",
        };
        Err(TextError::new(place, message))
    }
}
