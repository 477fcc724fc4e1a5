//! What is wrong with a rule file.

use super::{count, marks, there_are};
use crate::files::Rule;
use crate::Refusal;

/// How far the sections of a rule file can be told.
struct Sections {
    elements: usize,
    /// Where the count of the letters stands.
    letters_at: usize,
    letters: usize,
    /// Where the count of the marks begins.
    marks_at: usize,
}

fn sections(file: &[u8]) -> Sections {
    let elements = file.first().map_or(0, |count| usize::from(*count));
    let letters_at = 1 + elements * elements;
    let letters = file.get(letters_at).map_or(0, |count| usize::from(*count));
    Sections {
        elements,
        letters_at,
        letters,
        marks_at: letters_at + 1 + letters,
    }
}

pub fn words(refusal: Refusal, place: usize, file: &[u8]) -> Option<String> {
    let at = sections(file);
    if place >= at.marks_at && file.len() >= at.marks_at && layout(refusal) {
        return marks::words(refusal, place, file, at.marks_at, &table(file, &at));
    }
    match refusal {
        Refusal::Truncated => Some(truncated(file.len(), &at)),
        Refusal::CountOutOfRange => Some(match place {
            0 => format!(
                "the file has {}, not 1 to 64",
                count(at.elements, "element")
            ),
            _ => format!("the file has {}, not 1 to 16", count(at.letters, "letter")),
        }),
        Refusal::EntryOutOfRange => out_of_range(place, file, &at),
        Refusal::NotAssociative => not_associative(place, &Rule::take_apart(file)?),
        Refusal::Unreachable => Some(format!("element {place} is no word's value")),
        _ => None,
    }
}

/// Whether a refusal's place is a byte of the file.
fn layout(refusal: Refusal) -> bool {
    !matches!(refusal, Refusal::NotAssociative | Refusal::Unreachable)
}

/// The table of a file whose marks need not be good.
fn table(file: &[u8], at: &Sections) -> Rule {
    let part = |from: usize, to: usize| file.get(from..to).unwrap_or(&[]).to_vec();
    Rule {
        elements: file.first().copied().unwrap_or(0),
        products: part(1, at.letters_at),
        images: part(at.letters_at + 1, at.marks_at),
        marks: Vec::new(),
    }
}

fn truncated(length: usize, at: &Sections) -> String {
    let end = format!("the file ends at byte {length}");
    if length == 0 {
        return "the file is empty".to_string();
    }
    if length < at.letters_at {
        let (there, all) = (length - 1, at.elements * at.elements);
        return format!("{end}, within the products: {there} of {all} are there");
    }
    if length == at.letters_at {
        return format!("{end}, before the count of the letters");
    }
    let there = length - at.letters_at - 1;
    format!(
        "{end}, within the letters' elements: {there} of {} are there",
        at.letters
    )
}

fn out_of_range(place: usize, file: &[u8], at: &Sections) -> Option<String> {
    if place == 0 {
        return Some("a value of the monitor is neither an element nor 64".to_string());
    }
    let entry = file.get(place)?;
    let there_are = there_are(at.elements, "element");
    let Some(letter) = place.checked_sub(at.letters_at + 1) else {
        let (a, b) = (
            (place - 1) / at.elements.max(1),
            (place - 1) % at.elements.max(1),
        );
        return Some(format!("{a}·{b} = {entry}, but {there_are}"));
    };
    Some(format!(
        "letter {letter} stands for element {entry}, but {there_are}"
    ))
}

fn not_associative(place: usize, rule: &Rule) -> Option<String> {
    let part = |divisor: usize| u8::try_from(place / divisor % 64).ok();
    let (a, b, c) = (part(4096)?, part(64)?, part(1)?);
    let left = rule.product(rule.product(a, b)?, c)?;
    let right = rule.product(a, rule.product(b, c)?)?;
    Some(format!(
        "({a}·{b})·{c} = {left} but {a}·({b}·{c}) = {right}"
    ))
}
