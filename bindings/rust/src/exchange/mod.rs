//! Automata of other tools: the Hanoi format (HOA) both ways, Spin's never claims in, and of rules out. And rules out only: their automata as DOT, strong ones as C tables.
//!
//! Their letters are valuations of at most four propositions. The letter of a valuation is the sum of 2^i over the propositions i
//! that hold, in the order in which the file declares them, or for a never claim first names them: letter 0 has none, letter 1 the
//! first alone. States that no run that accepts can meet are left out before anybody asks how many there are.
//!
//! No bytes of a file that passes the checks begin as these texts do, whatever stands before: of such a file only the low
//! byte of a count of marks or transitions is above 64, and `HO` and `ne` are two such bytes.

mod claim;
mod condition;
mod dot;
mod graph;
mod hoa;
mod hoa_body;
mod never;
mod preprocessor;
mod print;
mod reserved;
mod scanner;
mod tables;

pub use claim::print_rule_never;
pub use dot::print_rule_dot;
pub use graph::too_many_left;
pub use print::{print_hoa, print_rule_hoa};
pub use tables::print_rule_tables;

use crate::files::Automaton;
use crate::text::{Names, Place, TextError};

/// A format of other tools.
#[derive(Clone, Copy, Debug, PartialEq, Eq, Hash)]
pub enum Format {
    /// The Hanoi format.
    Hoa,
    /// Spin's never claim.
    Never,
}

/// An automaton that was read, with the propositions that its letters are valuations of.
#[derive(Clone, Debug, PartialEq, Eq)]
pub struct Foreign {
    /// The automaton, which may have too many states for a file.
    pub automaton: Automaton,
    /// The propositions, the first that of the lowest bit.
    pub propositions: Vec<String>,
    /// How its letters are called: as valuations of the propositions, unless these were invented for letters.
    pub names: Names,
    /// How many states the file has; those of transitions that accept count once.
    pub states: usize,
}

impl Foreign {
    /// What each letter stands for, a line each; none where letters have names.
    pub fn notes(&self) -> Vec<String> {
        if self.names.as_letters().is_some() {
            return Vec::new();
        }
        let called = Names::propositions(&self.propositions).unwrap_or_default();
        let note = |letter: u8| {
            let shown = called.of(letter);
            format!(
                "letter {letter}: {}",
                shown.as_deref().unwrap_or("any event")
            )
        };
        (0..self.automaton.letters).map(note).collect()
    }
}

/// How letters are called, by the propositions or by the names that the file gives to letters.
fn names_of(propositions: &[String], letters: Option<Names>) -> Result<Names, TextError> {
    let start = Place { line: 1, column: 1 };
    match letters {
        Some(names) => Ok(names),
        None => Names::propositions(propositions).map_err(|message| TextError::new(start, message)),
    }
}

/// The format that bytes begin as: `HOA:`, or `never` and white space or a brace; a byte order mark, blank lines and
/// comments may stand before.
pub fn format(bytes: &[u8]) -> Option<Format> {
    let bytes = crate::text::from_first_line(bytes);
    if bytes.starts_with(b"HOA:") {
        return Some(Format::Hoa);
    }
    let behind = bytes.strip_prefix(b"never")?.first()?;
    (behind.is_ascii_whitespace() || *behind == b'{').then_some(Format::Never)
}

/// The automaton that a text of one of the formats says.
pub fn read(bytes: &[u8]) -> Result<Foreign, TextError> {
    let text = crate::text::decode(bytes)?;
    let (graph, propositions, letters) = match format(bytes) {
        Some(Format::Never) => {
            let (graph, propositions) = never::read(text)?;
            (graph, propositions, None)
        }
        _ => hoa::read(text)?,
    };
    let all = 1_u8 << propositions.len().min(4);
    let count = letters
        .as_ref()
        .map_or(all, |(some, _)| all.min(*some as u8));
    Ok(Foreign {
        automaton: graph.automaton(count)?,
        names: names_of(&propositions, letters.map(|(_, names)| names))?,
        propositions,
        states: graph.states(),
    })
}
