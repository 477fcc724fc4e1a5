//! What is wrong with one of two rules, or between them.

use super::{count, Asked};
use crate::files::Rule;
use crate::witness::pairs_of_values;
use crate::Refused;

/// The rule that a refusal lies in: what it is called, and its file.
pub fn refused_one<'a>(
    refused: Refused,
    first: &'a [u8],
    second: &'a [u8],
) -> (&'static str, &'a [u8]) {
    match refused.input {
        2 => ("the second rule", second),
        _ => ("the first rule", first),
    }
}

/// Both rules; such a refusal comes once both files passed their checks.
fn both(asked: Asked<'_>) -> Option<(Rule, Rule)> {
    let Asked::TwoRules { first, second } = asked else {
        return None;
    };
    Rule::take_apart(first).zip(Rule::take_apart(second))
}

pub fn letters_differ(asked: Asked<'_>) -> Option<String> {
    let (first, second) = both(asked)?;
    let letters = count(first.images.len(), "letter");
    let others = second.images.len();
    Some(format!(
        "the first rule has {letters}, but the second has {others}"
    ))
}

pub fn too_many_pairs(asked: Asked<'_>) -> Option<String> {
    let (first, second) = both(asked)?;
    let pairs = pairs_of_values(&first, &second);
    Some(format!(
        "words have {pairs} pairs of values in the two rules, more than 64"
    ))
}
