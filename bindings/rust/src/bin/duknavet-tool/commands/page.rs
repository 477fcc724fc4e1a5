//! A page about a rule for a printer.

use crate::arguments::Arguments;
use crate::command::{Answer, Choice, Command, Failure};
use crate::destination;
use crate::{formulated, input};
use duknavet::picture::page;

pub const COMMAND: Command = Command {
    name: "page",
    arguments: "RULE",
    least: 1,
    most: 1,
    purpose: "write one HTML file about a rule, for a printer",
    options: &[Choice {
        name: "title",
        value: Some("TITLE"),
        meaning: "the heading; else the name of the file, or the formula",
    }],
    common: &[formulated::OPTIONS, destination::OPTIONS],
    details: "The page has the description, the table, the letters, the marks by s, then by e, with their grades, each element's first word, and the \
classes. It needs no other file and can be read in black and white.",
    run,
};

fn run(arguments: &Arguments) -> Result<Answer, Failure> {
    let rule = input::rule(arguments, arguments.plain(0))?;
    let title = arguments.value("title").unwrap_or_else(|| rule.title());
    let html = page(&rule.bytes, &rule.names, title, &rule.description)
        .map_err(|explained| rule.refused(&explained))?;
    destination::text(arguments, &html)
}
