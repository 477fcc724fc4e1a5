//! A rule in one line.

use crate::arguments::Arguments;
use crate::command::{Answer, Command, Failure};
use crate::report::{self, Report};
use crate::{formulated, input};
use duknavet::{owned, Strength};
use std::ffi::OsStr;

pub const COMMAND: Command = Command {
    name: "summary",
    arguments: "RULE ..",
    least: 1,
    most: usize::MAX,
    purpose: "sum a rule up in one line, as the program duknavet does",
    options: &[],
    common: &[formulated::OPTIONS, report::OPTIONS],
    details: "Prints the counts of elements, letters and marks, of linked pairs and their classes, strong 1 or 0, and how many \
elements the smallest strong rule with the same grades has, 0 where the rule is weak. Of several rules each has a line behind its file's name, and the status is the highest.",
    run,
};

fn run(arguments: &Arguments) -> Result<Answer, Failure> {
    report::each(arguments, summary)
}

fn summary(arguments: &Arguments, file: &OsStr) -> Result<Report, Failure> {
    let rule = input::rule(arguments, file)?;
    let summary = owned::summary(&rule.bytes).map_err(|explained| rule.refused(&explained))?;
    let numbers = [
        ("elements", summary.elements),
        ("letters", summary.letters),
        ("marks", summary.marks),
        ("linked", summary.classes.linked),
        ("classes", summary.classes.classes),
        ("strong", usize::from(summary.strength == Strength::Strong)),
        ("reduced", summary.reduced),
    ];
    let words = numbers.map(|(word, number)| format!("{word} {number}"));
    let text = words.join(" ") + "\n";
    let pairs = numbers.map(|(word, number)| (word, number.into()));
    Ok(Report::new(Answer::Done, text, pairs))
}
