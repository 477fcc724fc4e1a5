//! One rule until another.

use super::combine::made_of_two;
use crate::arguments::Arguments;
use crate::command::{Answer, Command, Failure};
use crate::destination;
use crate::form::TO;
use crate::formulated;
use crate::meeting::BY_NUMBER;
use duknavet::owned;

pub const COMMAND: Command = Command {
    name: "until",
    arguments: "FIRST SECOND",
    least: 2,
    most: 2,
    purpose: "make the rule of a strong rule until another over as many letters",
    options: &[TO, BY_NUMBER],
    common: &[formulated::OPTIONS, destination::OPTIONS],
    details: "Each lasso has the highest, over the places of its endless word, of the lowest of SECOND's grade from there \
on and FIRST's from each place before. Letters meet as those of combine do, and the rule is written as combine writes \
it, with the descriptions of both. It need not have the fewest elements: reduce makes it so. Different numbers of \
letters are refused by 18, a weak rule by 12, more than 64 pairs of values by 19, more than 64 elements by 23.",
    run,
};

fn run(arguments: &Arguments) -> Result<Answer, Failure> {
    let files = [arguments.plain(0), arguments.plain(1)];
    made_of_two(
        arguments,
        files,
        "the first until the second of",
        owned::until,
    )
}
