//! Two rules made one.

use crate::arguments::Arguments;
use crate::command::{Answer, Command, Failure};
use crate::destination;
use crate::form::{self, Beyond, TO};
use crate::formulated;
use crate::input;
use crate::meeting::{self, Side, BY_NUMBER};
use duknavet::text::description_of_two;
use duknavet::words::Explained;
use duknavet::{owned, Operation};
use std::ffi::OsStr;

pub const COMMAND: Command = Command {
    name: "combine",
    arguments: "both|either|without FIRST SECOND",
    least: 3,
    most: 3,
    purpose: "make one rule of two strong ones over as many letters",
    options: &[TO, BY_NUMBER],
    common: &[formulated::OPTIONS, destination::OPTIONS],
    details: "Each lasso has the lower of its two grades (both), the higher (either), or the lower of the first and of \
3 less the second (without). Letters meet by their names, in the order of FIRST, or by the propositions \
of both; where one file names none they go by their numbers. The rule is written as a text where one of \
them is, with the descriptions of both. Its elements are the pairs of values that words have in the two \
rules, and need not be the fewest: reduce makes them so. Different numbers of letters are refused by 18, \
a weak rule by 12, more than 64 pairs of values by 19.",
    run,
};

fn run(arguments: &Arguments) -> Result<Answer, Failure> {
    let operation = operation(arguments)?;
    let how = match operation {
        Operation::Both => "both of",
        Operation::Either => "either of",
        Operation::Without => "the first without the second of",
    };
    let files = [arguments.plain(1), arguments.plain(2)];
    made_of_two(arguments, files, how, |first, second| {
        owned::combine(first, second, operation)
    })
}

/// Writes the rule that a call makes of two: as a text where one of them is, with a word for how behind its first line.
pub fn made_of_two(
    arguments: &Arguments,
    files: [&OsStr; 2],
    how: &str,
    call: impl FnOnce(&[u8], &[u8]) -> Result<Vec<u8>, Explained>,
) -> Result<Answer, Failure> {
    let [first, second] = input::two_rules(arguments, files)?;
    let sides = (Side::of(&first), Side::of(&second));
    let met = meeting::of_two(arguments, sides.0, sides.1, [true, true])?;
    let written = call(&met.first, &met.second)
        .map_err(|explained| input::refused_by_input(&first, &second, &explained))?;
    let from_text = first.is_text() || second.is_text();
    let description = description_of_two(how, [&first.description, &second.description]);
    let beyond = Beyond {
        names: &met.names,
        description: &description,
    };
    form::write_rule_with(arguments, from_text, &beyond, &written)
}

fn operation(arguments: &Arguments) -> Result<Operation, Failure> {
    let word = arguments.plain(0).to_string_lossy();
    match word.as_ref() {
        "both" => Ok(Operation::Both),
        "either" => Ok(Operation::Either),
        "without" => Ok(Operation::Without),
        _ => {
            let message = format!("`{word}` is none of both, either, without");
            Err(arguments.usage(&message))
        }
    }
}
