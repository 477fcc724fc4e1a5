//! Refusals in words: what is wrong, with the place translated into the thing that stands there.
//!
//! The words say nothing that the refusal does not: they read the inputs at the place that the call named. Everything is counted
//! from 0: bytes, positions, elements, letters, marks and transitions.

mod automaton;
mod board;
mod formula;
mod marks;
mod rule;
mod state;
mod two_rules;

use crate::text::Names;
use crate::{Refusal, Refused, RuleState, LOG, MOST_ROUNDS, WORD};
use std::fmt;

pub use board::Deed;

/// A refusal with its words.
#[derive(Clone, Debug, PartialEq, Eq, Hash)]
pub struct Explained {
    /// The refusal.
    pub refused: Refused,
    /// What it says of the inputs.
    pub words: String,
}

impl fmt::Display for Explained {
    fn fmt(&self, f: &mut fmt::Formatter<'_>) -> fmt::Result {
        write!(f, "{} ({})", self.words, self.refused.numbers())
    }
}

impl std::error::Error for Explained {}

/// The inputs of a call that was refused.
#[derive(Clone, Copy, Debug)]
pub enum Asked<'a> {
    /// A rule alone.
    Rule(&'a [u8]),
    /// Two rules.
    TwoRules {
        /// The first, input 1.
        first: &'a [u8],
        /// The second, input 2.
        second: &'a [u8],
    },
    /// A rule and a second marks section.
    Second {
        /// The rule.
        rule: &'a [u8],
        /// The marks section.
        second: &'a [u8],
    },
    /// A rule and the two words of a lasso.
    Lasso {
        /// The rule.
        rule: &'a [u8],
        /// The start.
        u: &'a [u8],
        /// The cycle.
        v: &'a [u8],
    },
    /// An automaton.
    Automaton(&'a [u8]),
    /// The numbers that a rule is made of.
    Numbers {
        /// How many letters.
        letters: usize,
        /// The grade.
        grade: usize,
    },
    /// A formula in postfix form.
    Formula {
        /// How many letters its rule would have.
        letters: usize,
        /// The bytes of its operations.
        formula: &'a [u8],
    },
    /// A rule and the letter of an event.
    Event {
        /// The rule.
        rule: &'a [u8],
        /// The letter.
        letter: u8,
    },
    /// A rule and the letters of a word of events.
    Events {
        /// The rule.
        rule: &'a [u8],
        /// The word.
        word: &'a [u8],
    },
    /// A rule and the name of a point.
    Point {
        /// The rule.
        rule: &'a [u8],
        /// The name.
        name: usize,
    },
    /// A rule and a limit of rounds.
    Rounds {
        /// The rule.
        rule: &'a [u8],
        /// The limit.
        limit: usize,
    },
    /// A rule, a state of its automaton and a least grade.
    Kind {
        /// The rule.
        rule: &'a [u8],
        /// The state.
        state: RuleState,
        /// The least grade.
        least: u8,
    },
    /// A rule, a state of its automaton and a letter.
    Successors {
        /// The rule.
        rule: &'a [u8],
        /// The state.
        state: RuleState,
        /// The letter.
        letter: u8,
    },
    /// A board.
    Board {
        /// The bytes that its files stand in.
        files: &'a [u8],
        /// What was asked of it.
        deed: Deed<'a>,
    },
}

/// The refusal with its words.
pub fn explain(refused: Refused, asked: Asked<'_>) -> Explained {
    let words = in_words(refused, asked).unwrap_or_else(|| refused.without_inputs());
    Explained { refused, words }
}

fn in_words(refused: Refused, asked: Asked<'_>) -> Option<String> {
    // A board's refusals are each of one of its rules, so that all of them are told there.
    if let Asked::Board { files, deed } = asked {
        return board::words(refused, files, deed);
    }
    let place = usize::try_from(refused.place).ok()?;
    if let Asked::Numbers { letters, grade } = asked {
        return numbers(refused.refusal, place, letters, grade);
    }
    if let Asked::Formula { letters, formula } = asked {
        return formula::words(refused.refusal, place, letters, formula);
    }
    match refused.refusal {
        Refusal::UnknownLetter => return unknown_letter(refused, asked),
        Refusal::WordLength => return Some(word_length(refused, asked)),
        Refusal::NameOutOfRange | Refusal::NameNeverKept => {
            if let Asked::Point { name, .. } = asked {
                return Some(match refused.refusal {
                    Refusal::NameOutOfRange => format!("the name {name} is above 7"),
                    _ => format!("the name {name} was never kept"),
                });
            }
        }
        Refusal::NotStrong => return weak(refused, asked),
        Refusal::NoSuchState => return state::words(asked),
        Refusal::LimitOutOfRange => {
            if let Asked::Rounds { limit, .. } = asked {
                return Some(format!(
                    "the limit of {limit} rounds is above {MOST_ROUNDS}"
                ));
            }
        }
        Refusal::LettersDiffer => return two_rules::letters_differ(asked),
        Refusal::TooManyPairs => return two_rules::too_many_pairs(asked),
        Refusal::TooManyClasses => return Some(too_many_classes(asked)),
        Refusal::BufferTooShort | Refusal::TooManyMatrices | Refusal::UnbalancedFormula => {
            return None
        }
        // Byte 0 of a file is a count: the entry is the one that was handed over beside it.
        Refusal::EntryOutOfRange if place == 0 => {
            if let Asked::Kind { least, .. } = asked {
                return Some(format!("the least grade is {least}, not 1 to 3"));
            }
        }
        _ => {}
    }
    match asked {
        Asked::Automaton(automaton) => automaton::words(refused.refusal, place, automaton),
        Asked::TwoRules { first, second } => {
            let (name, rule) = two_rules::refused_one(refused, first, second);
            let words = rule::words(refused.refusal, place, rule)?;
            Some(format!("{name}: {words}"))
        }
        Asked::Second { rule, second } if refused.input == 2 => {
            let table = crate::files::Rule::take_apart(rule)?;
            marks::words(refused.refusal, place, second, 0, &table)
        }
        Asked::Rule(rule)
        | Asked::Second { rule, .. }
        | Asked::Lasso { rule, .. }
        | Asked::Event { rule, .. }
        | Asked::Events { rule, .. }
        | Asked::Point { rule, .. }
        | Asked::Rounds { rule, .. }
        | Asked::Kind { rule, .. }
        | Asked::Successors { rule, .. } => rule::words(refused.refusal, place, rule),
        Asked::Board { .. } | Asked::Numbers { .. } | Asked::Formula { .. } => None,
    }
}

/// What is wrong with the numbers that a rule would be made of.
fn numbers(refusal: Refusal, place: usize, letters: usize, grade: usize) -> Option<String> {
    match refusal {
        Refusal::CountOutOfRange => Some(format!("{letters} letters, not 1 to 16")),
        Refusal::EntryOutOfRange => Some(format!("the grade is {grade}, not 0 to 3")),
        Refusal::UnknownLetter => Some(format!(
            "the set has letter {place}: the rule has {}",
            count(letters, "letter")
        )),
        _ => None,
    }
}

/// Which rule would have too many elements.
fn too_many_classes(asked: Asked<'_>) -> String {
    let formula = match asked {
        Asked::TwoRules { .. } => "until",
        _ => "next",
    };
    format!("the rule of `{formula}` would have more than 64 elements")
}

/// Two lassos that show that a rule is weak.
fn weak(refused: Refused, asked: Asked<'_>) -> Option<String> {
    let (name, rule) = match asked {
        Asked::Rule(rule)
        | Asked::Event { rule, .. }
        | Asked::Events { rule, .. }
        | Asked::Rounds { rule, .. } => ("the rule", rule),
        Asked::TwoRules { first, second } => two_rules::refused_one(refused, first, second),
        _ => return None,
    };
    weak_rule(name, rule)
}

fn weak_rule(name: &str, rule: &[u8]) -> Option<String> {
    let weakness = crate::witness::why_weak(rule).ok()??;
    let lassos = weakness.in_words(&Names::none());
    Some(format!("{name} is weak: {lassos}"))
}

fn unknown_letter(refused: Refused, asked: Asked<'_>) -> Option<String> {
    let place = usize::try_from(refused.place).ok()?;
    let letters = |rule| {
        Some(count(
            crate::files::Rule::take_apart(rule)?.images.len(),
            "letter",
        ))
    };
    match asked {
        Asked::Lasso { rule, u, v } => {
            let (name, word) = if refused.input == 2 {
                ("v", v)
            } else {
                ("u", u)
            };
            let letter = word.get(place)?;
            let letters = letters(rule)?;
            Some(format!(
                "letter {letter} at position {place} of {name}: the rule has {letters}"
            ))
        }
        Asked::Events { rule, word } => {
            let letter = word.get(place)?;
            let letters = letters(rule)?;
            Some(format!(
                "letter {letter} at position {place} of the word: the rule has {letters}"
            ))
        }
        Asked::Event { rule, letter } | Asked::Successors { rule, letter, .. } => {
            Some(format!("letter {letter}: the rule has {}", letters(rule)?))
        }
        _ => None,
    }
}

fn word_length(refused: Refused, asked: Asked<'_>) -> String {
    if let Asked::Events { word, .. } = asked {
        return format!("the word has {} letters, more than {LOG}", word.len());
    }
    let (name, word) = match asked {
        Asked::Lasso { v, .. } if refused.input == 2 => ("v", v),
        Asked::Lasso { u, .. } => ("u", u),
        _ => return "no event came since the last mark".to_string(),
    };
    match word.len() {
        0 => format!("{name} has no letter"),
        length => format!("{name} has {length} letters, more than {WORD}"),
    }
}

/// That there are so many things.
pub(crate) fn there_are(number: usize, thing: &str) -> String {
    let verb = if number == 1 { "is" } else { "are" };
    format!("there {verb} {}", count(number, thing))
}

/// That a file goes on behind its last entry.
pub(crate) fn too_many(bytes: usize, last: &str) -> String {
    let verb = if bytes == 1 { "follows" } else { "follow" };
    format!("{} too many {verb} the last {last}", count(bytes, "byte"))
}

/// A number of things, with an s where it is not one.
pub fn count(number: usize, thing: &str) -> String {
    match number {
        1 => format!("1 {thing}"),
        _ => format!("{number} {thing}s"),
    }
}
