//! What is wrong with a rule on a board, or with a name.

use super::{count, rule, weak_rule};
use crate::files::Rule;
use crate::{board_file, Refusal, Refused, BOARD_NAMES};

/// What was asked of a board.
#[derive(Clone, Copy, Debug)]
pub enum Deed<'a> {
    /// A rule would enter.
    Enter {
        /// Under which name.
        name: usize,
        /// The rule's file.
        file: &'a [u8],
    },
    /// A rule would leave.
    Leave {
        /// Under which name.
        name: usize,
    },
    /// An event for all.
    Event {
        /// The letter.
        letter: u8,
    },
    /// A mark for all.
    Mark,
}

pub fn words(refused: Refused, files: &[u8], deed: Deed<'_>) -> Option<String> {
    let refusal = refused.refusal;
    match (refusal, deed) {
        (Refusal::BufferTooShort, _) => return None,
        (Refusal::NameNotFree, Deed::Enter { name, .. }) => return Some(no_name(name, "is taken")),
        (Refusal::NameNotPresent, Deed::Leave { name }) => {
            return Some(no_name(name, "is that of no rule on the board"))
        }
        _ => {}
    }
    let input = usize::from(refused.input);
    // A name under which a rule enters is free, so that its refusal is of no other.
    let (who, file) = match deed {
        Deed::Enter { name, file } if name == input => (format!("entering as rule {name}"), file),
        _ => (format!("rule {input}"), board_file(files, input)),
    };
    match (refusal, deed) {
        (Refusal::NotStrong, Deed::Enter { name, .. }) if name == input => {
            Some(format!("{who}: {}", weak_rule("the rule", file)?))
        }
        (Refusal::NotStrong, _) => weak_rule(&who, file),
        (Refusal::UnknownLetter, Deed::Event { letter }) => {
            let letters = count(Rule::take_apart(file)?.images.len(), "letter");
            Some(format!("letter {letter}: {who} has {letters}"))
        }
        _ => {
            let place = usize::try_from(refused.place).ok()?;
            let words = rule::words(refusal, place, file);
            let words = words.unwrap_or_else(|| refused.without_inputs());
            Some(format!("{who}: {words}"))
        }
    }
}

fn no_name(name: usize, why: &str) -> String {
    match name < BOARD_NAMES {
        true => format!("the name {name} {why}"),
        false => format!("the name {name} is above 7"),
    }
}
