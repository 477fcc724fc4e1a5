//! The conjugacy classes of a rule's linked pairs.

use crate::arguments::Arguments;
use crate::command::{Answer, Command, Failure};
use crate::json::Json;
use crate::report::{self, Report};
use crate::{formulated, input};
use duknavet::owned;
use std::fmt::Write;

pub const COMMAND: Command = Command {
    name: "classes",
    arguments: "RULE",
    least: 1,
    most: 1,
    purpose: "list the linked pairs of a rule by conjugacy classes",
    options: &[],
    common: &[formulated::OPTIONS, report::OPTIONS],
    details: "Prints the counts of linked pairs, classes and joins, then a line for each class with its pairs, the least first.",
    run,
};

fn run(arguments: &Arguments) -> Result<Answer, Failure> {
    let rule = input::rule(arguments, arguments.plain(0))?;
    let list = owned::classes(&rule.bytes).map_err(|explained| rule.refused(&explained))?;
    let counts = list.counts;
    let mut text = format!(
        "linked {} classes {} joins {}\n",
        counts.linked, counts.classes, counts.joins
    );
    for class in list.by_least() {
        let pairs = class.iter().map(|(s, e)| format!("({s}, {e})"));
        let _ = writeln!(text, "{}", pairs.collect::<Vec<_>>().join(" "));
    }
    let pairs = list.by_least().into_iter().map(|class| {
        let pairs = class.into_iter().map(|(s, e)| Json::list([s, e]));
        Json::list(pairs)
    });
    let keys = [
        ("linked", counts.linked.into()),
        ("classes", counts.classes.into()),
        ("joins", counts.joins.into()),
        ("pairs", Json::list(pairs)),
    ];
    let report = Report::new(Answer::Done, text, keys);
    report::told(arguments, arguments.plain(0), report)
}
