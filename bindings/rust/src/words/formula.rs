//! What is wrong with a formula in postfix form, in words.

use crate::{Refusal, FORMULA};

/// The words for a refusal at a byte of the formula.
pub fn words(refusal: Refusal, place: usize, letters: usize, formula: &[u8]) -> Option<String> {
    let byte = formula.get(place);
    Some(match (refusal, byte) {
        (Refusal::CountOutOfRange, _) => format!("{letters} letters, not 1 to 16"),
        (Refusal::WordLength, _) => {
            format!("the formula has {} bytes, more than {FORMULA}", formula.len())
        }
        (Refusal::Truncated, _) => String::from("the formula ends within an operation"),
        (Refusal::EntryOutOfRange, Some(byte)) => {
            format!("byte {place} of the formula, {byte}, is no code and no grade")
        }
        (Refusal::UnknownLetter, _) => {
            format!("the set at byte {place} of the formula has a letter of {letters} or more")
        }
        (Refusal::UnbalancedFormula, None) => {
            String::from("the formula does not leave exactly one rule")
        }
        (Refusal::UnbalancedFormula, Some(_)) => format!(
            "the operation at byte {place} of the formula has too few rules, or would make more than 8"
        ),
        (Refusal::TooManyPairs, _) => {
            format!("the operation at byte {place} of the formula has more than 64 pairs of elements")
        }
        (Refusal::TooManyClasses, _) => {
            format!("the operation at byte {place} of the formula has more than 64 elements")
        }
        _ => return None,
    })
}
