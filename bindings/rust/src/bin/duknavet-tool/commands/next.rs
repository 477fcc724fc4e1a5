//! The rule of what comes behind the first letter.

use crate::arguments::Arguments;
use crate::command::{Answer, Command, Failure};
use crate::destination;
use crate::form::{self, Beyond, TO};
use crate::formulated;
use crate::input;
use duknavet::owned;
use duknavet::text::description_of_one;

pub const COMMAND: Command = Command {
    name: "next",
    arguments: "RULE",
    least: 1,
    most: 1,
    purpose: "write the rule that gives each lasso the grade of its endless word without the first letter",
    options: &[TO],
    common: &[formulated::OPTIONS, destination::OPTIONS],
    details: "Names of letters stay as they are, and the description stands under `next of:`. Its elements are the pairs (value of what is behind \
the first letter, or none; value of the word) that words have, and need not be the fewest: reduce makes them so. \
A weak rule is refused by 12: strong says why it is weak; more than 64 such pairs are refused by 23.",
    run,
};

fn run(arguments: &Arguments) -> Result<Answer, Failure> {
    let rule = input::rule(arguments, arguments.plain(0))?;
    let written = owned::next(&rule.bytes).map_err(|explained| rule.refused(&explained))?;
    let beyond = Beyond {
        names: &rule.names,
        description: &description_of_one("next of", &rule.description),
    };
    form::write_rule_with(arguments, rule.is_text(), &beyond, &written)
}
