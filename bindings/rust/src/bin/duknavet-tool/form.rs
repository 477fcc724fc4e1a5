//! The form that a rule, an automaton, a marks section or a map is written in.

use crate::arguments::Arguments;
use crate::command::{Answer, Choice, Failure};
use crate::destination;
use crate::input::Source;
use duknavet::files::{marks_of, Automaton, Rule};
use duknavet::text::{described, print_automaton, print_map, print_marks, print_rule};
use duknavet::text::{Kind, Names};
use std::ffi::OsStr;

pub const TO: Choice = Choice {
    name: "to",
    value: Some("FORM"),
    meaning: "bytes or text; else a text for a text and bytes for bytes",
};

/// The text of bytes, if their sections have the lengths that their counts say.
pub fn text_of(bytes: &[u8], kind: Kind, beyond: &Beyond<'_>) -> Option<String> {
    let names = beyond.names;
    let text = match kind {
        Kind::Rule => print_rule(&Rule::take_apart(bytes)?, names),
        Kind::Automaton => print_automaton(&Automaton::take_apart(bytes)?, names),
        Kind::Marks => print_marks(&marks_of(bytes)?),
        Kind::Map => print_map(bytes),
        Kind::Lasso => return None,
    };
    Some(described(&text, beyond.description))
}

/// What a text has beyond the bytes.
pub struct Beyond<'a> {
    pub names: &'a Names,
    pub description: &'a [String],
}

impl Beyond<'_> {
    pub fn of(source: &Source) -> Beyond<'_> {
        Beyond {
            names: &source.names,
            description: &source.description,
        }
    }
}

/// Writes a rule that a call made of a source: its letters are those of the source, and so are their names and the description.
pub fn write_rule(arguments: &Arguments, source: &Source, bytes: &[u8]) -> Result<Answer, Failure> {
    write_rule_with(arguments, source.is_text(), &Beyond::of(source), bytes)
}

/// The bytes of the file that a rule is written as, of a source.
pub fn rule_as_written(
    arguments: &Arguments,
    source: &Source,
    bytes: &[u8],
) -> Result<Vec<u8>, Failure> {
    let text = match to_text(arguments, source.is_text())? {
        true => text_of(bytes, Kind::Rule, &Beyond::of(source)),
        false => None,
    };
    Ok(text.map_or_else(|| bytes.to_vec(), String::into_bytes))
}

/// Writes a rule with what a text has beyond its bytes: as a text or bytes as asked, else as the input was.
pub fn write_rule_with(
    arguments: &Arguments,
    from_text: bool,
    beyond: &Beyond<'_>,
    bytes: &[u8],
) -> Result<Answer, Failure> {
    let text = match to_text(arguments, from_text)? {
        true => text_of(bytes, Kind::Rule, beyond),
        false => None,
    };
    match text {
        Some(text) => destination::text(arguments, &text),
        None => destination::bytes(arguments, bytes),
    }
}

/// Whether a text is to be written.
fn to_text(arguments: &Arguments, from_text: bool) -> Result<bool, Failure> {
    Ok(match arguments.one_of("to", &["bytes", "text"])? {
        Some(form) => form == "text",
        None => from_text,
    })
}

/// Writes a map to a file, in the form that the rule beside it is written in.
pub fn write_map(
    arguments: &Arguments,
    source: &Source,
    file: &OsStr,
    map: &[u8],
) -> Result<(), Failure> {
    let text = to_text(arguments, source.is_text())?.then(|| print_map(map));
    let bytes = text.as_deref().map_or(map, str::as_bytes);
    destination::write(file, bytes)
}
