//! Whether a rule is strong, and else why not.

use crate::arguments::Arguments;
use crate::command::{Answer, Command, Failure};
use crate::json::{keys, Json};
use crate::report::{self, Report};
use crate::{formulated, input};
use duknavet::text::{print_lasso, Names};
use duknavet::witness::{why_weak, Weakness};
use duknavet::{owned, Strength};
use std::ffi::OsStr;

pub const COMMAND: Command = Command {
    name: "strong",
    arguments: "RULE ..",
    least: 1,
    most: usize::MAX,
    purpose: "tell whether the values of u and v decide a lasso's grade",
    options: &[],
    common: &[formulated::OPTIONS, report::OPTIONS],
    details: "Prints strong, with status 0, or weak, with status 1, and then two lassos whose starts have equal values and whose \
cycles have equal values, with their different grades. Both grades are what the call member answers. Of several rules each has a \
line, its file's name and strong or weak, and the status is the highest.",
    run,
};

fn run(arguments: &Arguments) -> Result<Answer, Failure> {
    report::each(arguments, strong)
}

fn strong(arguments: &Arguments, file: &OsStr) -> Result<Report, Failure> {
    let rule = input::rule(arguments, file)?;
    let strength = owned::strong(&rule.bytes).map_err(|explained| rule.refused(&explained))?;
    let strong = strength == Strength::Strong;
    let why = match strong {
        true => None,
        false => why_weak(&rule.bytes).map_err(|explained| rule.refused(&explained))?,
    };
    let mut text = String::from(if strong { "strong\n" } else { "weak\n" });
    text += &why
        .as_ref()
        .map_or(String::new(), |why| shown(why, &rule.names));
    let values = why.as_ref().map(|why| Json::list([why.start, why.cycle]));
    let lassos = why.as_ref().map(|why| {
        Json::list([&why.higher, &why.lower].map(|(lasso, grade)| {
            let lasso = Json::lasso(lasso, &rule.names);
            Json::Object(keys([("grade", (*grade).into()), ("lasso", lasso)]))
        }))
    });
    Ok(Report::new(
        Answer::from(strong),
        text,
        [
            ("strong", strong.into()),
            ("values", Json::or_none(values)),
            ("lassos", Json::or_none(lassos)),
        ],
    ))
}

/// Two lines, a lasso each.
fn shown(weakness: &Weakness, names: &Names) -> String {
    let line = |(lasso, grade): &(duknavet::files::Lasso, u8)| {
        let lasso = print_lasso(lasso, names);
        let (start, cycle) = (weakness.start, weakness.cycle);
        format!("grade {grade} values {start} {cycle}  {lasso}\n")
    };
    line(&weakness.higher) + &line(&weakness.lower)
}
