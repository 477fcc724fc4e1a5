//! What is left to read at a position of a lasso's endless word.

use crate::arguments::Arguments;
use crate::command::{Answer, Choice, Command, Failure};
use crate::input;
use crate::json::Json;
use crate::report::{self, Report};
use duknavet::text::{print_word, Names};

pub const COMMAND: Command = Command {
    name: "stretch",
    arguments: "LASSO POSITION",
    least: 2,
    most: 2,
    purpose: "print what is left to read of u, or of v once u is used up, at a position of the endless word",
    options: &[Choice {
        name: "rule",
        value: Some("RULE"),
        meaning: "a text whose names of letters, or propositions, LASSO uses",
    }],
    common: &[report::OPTIONS],
    details: "Positions count from 0; past u the place in v is the position less the length of u, modulo the length of v. Prints \
the letters in a line, which is empty where v has no letter, or u or v more than 4224.",
    run,
};

fn run(arguments: &Arguments) -> Result<Answer, Failure> {
    let names = match arguments.file("rule") {
        Some(name) => input::rule_file(name)?.names,
        None => Names::none(),
    };
    let lasso = input::lasso(arguments.plain(0), &names)?;
    let position = arguments.plain(1).to_string_lossy();
    let Ok(position) = position.parse::<usize>() else {
        return Err(arguments.usage(&format!("`{position}` is no position")));
    };
    let left = lasso.stretch(position);
    let text = format!("{}\n", print_word(left, &names));
    let report = Report::new(Answer::Done, text, [("letters", Json::word(left, &names))]);
    report::told(arguments, arguments.plain(0), report)
}
