//! The complement of a strong rule.

use crate::arguments::Arguments;
use crate::command::{Answer, Command, Failure};
use crate::destination;
use crate::form::{self, TO};
use crate::formulated;
use crate::input;
use duknavet::owned;

pub const COMMAND: Command = Command {
    name: "complement",
    arguments: "RULE",
    least: 1,
    most: 1,
    purpose: "write the rule that gives each lasso 3 less its grade",
    options: &[TO],
    common: &[formulated::OPTIONS, destination::OPTIONS],
    details: "Elements and letters stay as they are. A weak rule is refused by 12: strong says why it is weak.",
    run,
};

fn run(arguments: &Arguments) -> Result<Answer, Failure> {
    let rule = input::rule(arguments, arguments.plain(0))?;
    let written = owned::complement(&rule.bytes).map_err(|explained| rule.refused(&explained))?;
    form::write_rule(arguments, &rule, &written)
}
