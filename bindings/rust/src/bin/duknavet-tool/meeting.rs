//! How the letters of two files meet, for every subcommand that takes two rules.
//!
//! Each file is checked as it stands before its letters are put in another order, so that the place of a refusal is
//! a place of the file.

use crate::arguments::Arguments;
use crate::command::{Choice, Failure};
use crate::input::{refused_by_input, Source};
use crate::output;
use duknavet::files::Rule;
use duknavet::letters::{meet, Common};
use duknavet::owned;
use duknavet::text::Names;

pub const BY_NUMBER: Choice = Choice {
    name: "by-number",
    value: None,
    meaning: "take letters by their numbers, whatever they are called",
};

/// How somebody goes on whose letters do not meet.
const MENDED: &str =
    "`duknavet-tool letters` renames and adds letters, and --by-number goes by their numbers";

/// A file, and the rule that it is or that its automaton has.
#[derive(Clone, Copy)]
pub struct Side<'a> {
    pub source: &'a Source,
    pub rule: &'a [u8],
}

impl Side<'_> {
    pub fn of(source: &Source) -> Side<'_> {
        let rule = &source.bytes;
        Side { source, rule }
    }
}

/// Two rules over the same letters, and how these are called.
pub struct Met {
    pub first: Vec<u8>,
    pub second: Vec<u8>,
    pub names: Names,
}

/// Two rules with their letters brought together. Which of them are to be strong is for their checks.
pub fn of_two(
    arguments: &Arguments,
    first: Side<'_>,
    second: Side<'_>,
    to_be_strong: [bool; 2],
) -> Result<Met, Failure> {
    let (own, other) = (&first.source.names, &second.source.names);
    if arguments.has(BY_NUMBER.name) {
        tell_by_number();
        return Ok(by_number(first, second, agreed(own, other)));
    }
    if !own.any() || !other.any() {
        tell_unnamed(first, second);
        return Ok(by_number(first, second, agreed(own, other)));
    }
    owned::check_two(first.rule, second.rule, to_be_strong)
        .map_err(|explained| refused_by_input(first.source, second.source, &explained))?;
    match meet(own, other) {
        Ok(Some(common)) => Ok(together(first, second, common)),
        Ok(None) => Ok(by_number(first, second, Names::none())),
        Err(apart) => {
            let words = apart.in_words(&first.source.name, &second.source.name);
            Err(Failure::Refused(format!("{words}; {MENDED}")))
        }
    }
}

/// Two rules that passed their checks, each with the letters that they have together.
fn together(first: Side<'_>, second: Side<'_>, common: Common) -> Met {
    Met {
        first: acting(first.rule, &common.first),
        second: acting(second.rule, &common.second),
        names: common.names,
    }
}

/// A rule with other letters, each acting as one of its own; as it is where it has not all of these, which a call
/// then refuses.
pub fn acting(rule: &[u8], acts_as: &[u8]) -> Vec<u8> {
    let parts = Rule::take_apart(rule).and_then(|own| own.with_letters(acts_as));
    parts.map_or_else(|| rule.to_vec(), |own| own.bytes())
}

fn by_number(first: Side<'_>, second: Side<'_>, names: Names) -> Met {
    Met {
        first: first.rule.to_vec(),
        second: second.rule.to_vec(),
        names,
    }
}

/// What letters by number are called: as the one file calls them that does, and where both do, only what they agree
/// on.
fn agreed(first: &Names, second: &Names) -> Names {
    match (first.any(), second.any()) {
        (true, true) if first != second => Names::none(),
        (true, _) => first.clone(),
        (false, _) => second.clone(),
    }
}

/// Says that letters go by their numbers since they are to.
pub fn tell_by_number() {
    output::complain("letters go by their numbers, as --by-number asks");
}

/// Says that letters go by their numbers since one of the files does not call them.
fn tell_unnamed(first: Side<'_>, second: Side<'_>) {
    let letters = |side: Side<'_>| Rule::take_apart(side.rule).map(|own| own.images.len());
    let unnamed = match (first.source.names.any(), second.source.names.any()) {
        (true, false) => second.source,
        (false, true) => first.source,
        _ => return,
    };
    if letters(first) == letters(second) {
        let name = &unnamed.name;
        output::complain(&format!(
            "{name} names no letters, so they go by their numbers"
        ));
    }
}

/// Names with a comma between them, as options have them.
pub fn names_in(list: &str) -> Vec<String> {
    list.split(',')
        .map(|name| name.trim().to_string())
        .collect()
}
